//! Sound works, reached by calls on the plain functions: what is to be spoilt.

use crate::plain::digest::{asked, TICKET};
use crate::plain::page::body;
use crate::plain::pending;
use crate::plain::side::Plain;
use crate::plain::work::{OPEN, WAITING};
use crate::rng::Rng;
use crate::sequences::made::{self, Keys, MadeBase, Sizes};
use crate::vectors::answers::Answer;
use crate::vectors::calls::{Call, Instead};

/// Mostly the shortest, whose calls are quick, so that there are many of them.
const LISTS: [usize; 8] = [121, 121, 121, 121, 122, 130, 180, 240];
const STORES: [usize; 8] = [4096, 4096, 4096, 4097, 5000, 6000, 9000, 12000];
/// One opening in so many has the longest list, or the longest store.
const LONGEST_IN: usize = 64;

pub struct Reached {
    pub plain: Plain,
    keys: Keys,
    sizes: Sizes,
    /// The number of the next key, and that of the cutoff.
    number: u64,
    limit: u64,
}

impl Reached {
    pub fn new(rng: &mut Rng) -> Self {
        let mut reached = Reached {
            plain: Plain::default(),
            keys: Keys::new(rng),
            sizes: Sizes::Any,
            number: 0,
            limit: 0,
        };
        reached.open(rng);
        reached
    }

    /// A few more calls, up to one after which the work isn't open: those works are rarer. A refused call changes nothing, so that the work
    /// stays sound.
    pub fn go_on(&mut self, rng: &mut Rng) {
        for _ in 0..rng.between(1, 6) {
            self.step(rng);
            if self.plain.state.work.turn != OPEN {
                return;
            }
        }
    }

    fn step(&mut self, rng: &mut Rng) {
        let work = &self.plain.state.work;
        match work.turn {
            OPEN if self.number < self.limit && rng.between(0, 7) > 0 => self.ingest(rng),
            OPEN => self.digest(),
            _ if work.cut != 0 && rng.between(0, 5) > 0 => self.next_base(rng),
            WAITING => self.remove_cutoff(),
            _ => self.open(rng),
        }
    }

    fn accepts(&mut self, call: &Call) -> bool {
        matches!(self.plain.answer(call), Ok(answer) if !matches!(answer, Answer::Refused(_)))
    }

    fn open(&mut self, rng: &mut Rng) {
        self.keys = Keys::new(rng);
        self.sizes = made::SIZES[rng.between(0, made::SIZES.len() - 1)];
        let (call, bounds) = self.opening(rng);
        if self.accepts(&call) {
            (self.number, self.limit) = bounds;
        }
    }

    /// An opening that is accepted, and the numbers of its bounds.
    pub fn opening(&self, rng: &mut Rng) -> (Call, (u64, u64)) {
        let list = length(rng, &LISTS, 4096);
        let store = length(rng, &STORES, 65536);
        let first = rng.between(0, 1) as u64;
        let cut = rng.between(0, 5) > 0;
        let made = made::base(rng, &self.keys, first, cut);
        let based = rng.between(0, 5) > 0;
        let limit = if based { made.limit } else { 1 << 20 };
        let call = Call::Open {
            every: rng.between(0, 1) == 1,
            cutoff: made.cutoff.filter(|_| based),
            base: based.then_some(made.base),
            list,
            store,
        };
        (call, (first, limit))
    }

    fn ingest(&mut self, rng: &mut Rng) {
        self.number += [0, 0, 1, 3, 9][rng.between(0, 4)];
        let length = made::length(rng, self.sizes);
        let call = Call::Ingest {
            key: self.keys.key(self.number),
            change: made::put(rng, length),
            instead: Instead::default(),
        };
        self.accepts(&call);
        self.number += 1;
    }

    /// The pages that a digest asks for now.
    pub fn asked(&self) -> usize {
        asked(body(&pending::records(&self.plain.state, &self.plain.page)))
    }

    fn digest(&mut self) {
        let pages = self.asked();
        self.accepts(&Call::Digest {
            area: pages * 4096,
            tickets: pages * TICKET,
            instead: Instead::default(),
        });
    }

    fn next_base(&mut self, rng: &mut Rng) {
        let (made, from) = self.base_behind(rng);
        let limit = made.limit;
        if self.accepts(&made.next_call()) {
            (self.number, self.limit) = (from, limit);
        }
    }

    /// A base at the cutoff or some numbers behind it, and the number of its separator.
    fn base_behind(&self, rng: &mut Rng) -> (MadeBase, u64) {
        let from = self.limit.min(1 << 19) + [0, 0, 1, 5][rng.between(0, 3)];
        let cut = rng.between(0, 4) > 0;
        (made::base(rng, &self.keys, from, cut), from)
    }

    /// A next base that fits the work if it is its turn and there is room.
    pub fn next(&self, rng: &mut Rng) -> Call {
        self.base_behind(rng).0.next_call()
    }

    fn remove_cutoff(&mut self) {
        let instead = Instead::default();
        if self.accepts(&Call::Uncut { instead }) {
            (self.number, self.limit) = (self.limit, 1 << 20);
        }
    }
}

fn length(rng: &mut Rng, lengths: &[usize], longest: usize) -> usize {
    match rng.between(1, LONGEST_IN) {
        1 => longest,
        _ => lengths[rng.between(0, lengths.len() - 1)],
    }
}

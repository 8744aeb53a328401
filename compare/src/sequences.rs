//! Made-up sequences of calls on a work: the plain functions beside the unchanged Rust on every accepted call, and calls that
//! must be refused, whose number the sequence knows by itself; the library beside the plain functions on every call.

pub mod changed;
mod claim;
pub mod damaged;
pub mod exhaustive;
pub mod made;
pub mod pair;
pub mod refused;

use crate::oracle::Key;
use crate::pages::LONGEST_VALUE;
use crate::plain::digest::{asked, TICKET};
use crate::plain::page::records;
use crate::plain::verdict::{LIST_FULL, STORE_FULL};
use crate::plain::work::DONE;
use crate::random::{Mismatch, Tally};
use crate::rng::Rng;
use crate::vectors::calls::{Call, Change, Instead};
use made::{Keys, MadeBase, Sizes};
use pair::{Due, Pair};

/// Sequences in a round: about a third of a run, so that most of it is left to the comparisons of the library.
const SEQUENCES: usize = 4;
/// Bases of a sequence, the first among them.
const MOST_BASES: usize = 6;

const LISTS: [usize; 8] = [121, 121, 121, 122, 125, 130, 240, 4096];
const STORES: [usize; 8] = [4096, 4097, 5000, 9000, 9000, 12000, 12000, 65536];

pub fn round(rng: &mut Rng, tally: &mut Tally) -> Result<(), Mismatch> {
    for _ in 0..SEQUENCES {
        Sequence::new(rng).run(rng, tally)?;
    }
    Ok(())
}

struct Sequence {
    pair: Pair,
    keys: Keys,
    sizes: Sizes,
    list: usize,
    store: usize,
    /// The lowest number that an ingest may take, the first behind the base's records, and that of the cutoff.
    number: u64,
    behind: u64,
    limit: u64,
}

impl Sequence {
    fn new(rng: &mut Rng) -> Self {
        Sequence {
            pair: Pair::new(),
            keys: Keys::new(rng),
            sizes: made::SIZES[rng.between(0, made::SIZES.len() - 1)],
            list: LISTS[rng.between(0, LISTS.len() - 1)],
            store: STORES[rng.between(0, STORES.len() - 1)],
            number: 0,
            behind: 0,
            limit: 1 << 20,
        }
    }

    fn run(mut self, rng: &mut Rng, tally: &mut Tally) -> Result<(), Mismatch> {
        self.open(rng, tally)?;
        for _ in 0..MOST_BASES {
            self.ingests(rng, tally)?;
            match rng.between(0, 3) {
                0 => self.fill_up(rng, tally)?,
                1 => {}
                _ => self.reach_an_edge(rng, tally)?,
            }
            self.disturb(rng, tally)?;
            self.digest(rng, tally)?;
            self.disturb(rng, tally)?;
            if !self.go_on(rng, tally)? {
                return Ok(());
            }
            self.disturb(rng, tally)?;
        }
        Ok(())
    }

    fn open(&mut self, rng: &mut Rng, tally: &mut Tally) -> Result<(), Mismatch> {
        let (list, store) = (self.list, self.store);
        let every = rng.between(0, 1) == 1;
        let mut call = Call::Open {
            every,
            base: None,
            cutoff: None,
            list,
            store,
        };
        if rng.between(0, 5) > 0 {
            let first = rng.between(0, 1) as u64;
            let cut = rng.between(0, 5) > 0;
            let made = made::base(rng, &self.keys, first, cut);
            self.take_bounds(first, &made);
            call = Call::Open {
                every,
                base: Some(made.base),
                cutoff: made.cutoff,
                list,
                store,
            };
        }
        self.pair.run(call, None, tally)
    }

    fn take_bounds(&mut self, from: u64, made: &MadeBase) {
        self.number = from;
        self.behind = made.behind;
        self.limit = made.limit;
    }

    /// Some ingests in rising order, as far as there are numbers below the cutoff.
    fn ingests(&mut self, rng: &mut Rng, tally: &mut Tally) -> Result<(), Mismatch> {
        let count = [0, 1, 2, 5, 12, 30, 60][rng.between(0, 6)];
        let most_step = [0, 2, 2, 8, 40][rng.between(0, 4)];
        for _ in 0..count {
            self.number += rng.between(0, most_step) as u64;
            if self.number >= self.limit {
                return Ok(());
            }
            let change = match rng.between(0, 2) {
                0 => Change::Delete,
                _ => {
                    let length = made::length(rng, self.sizes);
                    made::put(rng, length)
                }
            };
            self.ingest(change, tally)?;
            if rng.between(0, 15) == 0 {
                self.disturb(rng, tally)?;
            }
        }
        Ok(())
    }

    /// An ingest of the next number's key. It is refused where list or store would be passed; the number can be tried again.
    fn ingest(&mut self, change: Change, tally: &mut Tally) -> Result<(), Mismatch> {
        let key = self.keys.key(self.number);
        let due = self.due(&key, &change);
        let instead = Instead::default();
        let call = Call::Ingest {
            key,
            change,
            instead,
        };
        self.pair.run(call, due, tally)?;
        if due.is_none() {
            self.number += 1;
        }
        Ok(())
    }

    /// The only refusals that an ingest in order can meet, by the tally's own count.
    fn due(&self, key: &Key, change: &Change) -> Due {
        let Change::Put { value, .. } = change else {
            return None;
        };
        let (count, bytes) = self.pair.claim.pending();
        let old = self.pair.claim.length_of(key);
        let count = count + 1 - usize::from(old.is_some());
        let bytes = bytes + value.len() - old.unwrap_or(0);
        if count > self.list {
            Some(LIST_FULL)
        } else if bytes > self.store {
            Some(STORE_FULL)
        } else {
            None
        }
    }

    fn body(&self) -> usize {
        let (count, bytes) = self.pair.claim.pending();
        34 * count + bytes
    }

    /// Inserts behind the base's records that bring the body to one of document 01's edges, where numbers and room allow.
    fn reach_an_edge(&mut self, rng: &mut Rng, tally: &mut Tally) -> Result<(), Mismatch> {
        let body = self.body();
        let edges = made::EDGES.iter().filter(|&&edge| edge >= body + 34);
        let edges: Vec<usize> = edges.copied().collect();
        if edges.is_empty() {
            return Ok(());
        }
        let edge = edges[rng.between(0, edges.len() - 1)];
        self.number = self.number.max(self.behind);
        while self.number < self.limit {
            let Some(length) = made::length_towards(self.body(), edge) else {
                return Ok(());
            };
            let put = made::put(rng, length);
            if self.due(&self.keys.key(self.number), &put).is_some() {
                return self.ingest(put, tally);
            }
            self.ingest(put, tally)?;
        }
        Ok(())
    }

    /// The store filled to its last byte and the list to its last entry, as far as there are numbers; then one more of each.
    fn fill_up(&mut self, rng: &mut Rng, tally: &mut Tally) -> Result<(), Mismatch> {
        self.number = self.number.max(self.behind);
        // larger ones take too long
        if self.store <= 12000 && self.list <= 240 {
            self.fill_store(rng, tally)?;
            self.fill_list(rng, tally)?;
        }
        for length in [0, rng.between(1, 3)] {
            if self.number < self.limit {
                self.ingest(made::put(rng, length), tally)?;
            }
        }
        Ok(())
    }

    fn fill_store(&mut self, rng: &mut Rng, tally: &mut Tally) -> Result<(), Mismatch> {
        loop {
            let (count, bytes) = self.pair.claim.pending();
            let length = (self.store - bytes).min(LONGEST_VALUE);
            if length == 0 || count == self.list || self.number >= self.limit {
                return Ok(());
            }
            self.ingest(made::put(rng, length), tally)?;
        }
    }

    fn fill_list(&mut self, rng: &mut Rng, tally: &mut Tally) -> Result<(), Mismatch> {
        while self.pair.claim.pending().0 < self.list && self.number < self.limit {
            self.ingest(made::put(rng, 0), tally)?;
        }
        Ok(())
    }

    fn digest(&mut self, rng: &mut Rng, tally: &mut Tally) -> Result<(), Mismatch> {
        let pages = asked(self.body());
        let more = [0, 0, 1, 77][rng.between(0, 3)];
        let call = Call::Digest {
            area: pages * 4096 + more,
            tickets: pages * TICKET + more,
            instead: Instead::default(),
        };
        self.pair.run(call, None, tally)
    }

    /// Next base or cutoff removal, as the turn allows. False: the sequence ends.
    fn go_on(&mut self, rng: &mut Rng, tally: &mut Tally) -> Result<bool, Mismatch> {
        let work = &self.pair.plain.state.work;
        let (turn, cutoff) = (work.turn, work.cutoff());
        if cutoff.is_none() || (turn == DONE && rng.between(0, 3) == 0) {
            return Ok(false);
        }
        if turn != DONE && rng.between(0, 5) == 0 {
            let instead = Instead::default();
            self.pair.run(Call::Uncut { instead }, None, tally)?;
            self.number = self.limit;
            self.behind = self.limit;
            self.limit = 1 << 20;
            return Ok(true);
        }
        self.next_base(rng, tally)?;
        Ok(true)
    }

    /// A base that may start some numbers behind the cutoff. Refused for want of room, it is tried with an empty one.
    fn next_base(&mut self, rng: &mut Rng, tally: &mut Tally) -> Result<(), Mismatch> {
        let from = self.limit + [0, 0, 1, 5][rng.between(0, 3)];
        let cut = rng.between(0, 4) > 0;
        let mut made = made::base(rng, &self.keys, from, cut);
        while let due @ Some(_) = self.due_of_base(&made) {
            self.pair.run(made.next_call(), due, tally)?;
            made = made::base(rng, &self.keys, from, cut);
        }
        self.take_bounds(from, &made);
        self.pair.run(made.next_call(), None, tally)
    }

    fn due_of_base(&self, made: &MadeBase) -> Due {
        let (count, bytes) = self.pair.claim.pending();
        let new = records(&made.base.page);
        let new_bytes: usize = new.iter().map(|record| record.value.len()).sum();
        if count + new.len() > self.list {
            Some(LIST_FULL)
        } else if bytes + new_bytes > self.store {
            Some(STORE_FULL)
        } else {
            None
        }
    }

    /// Reads, calls that must be refused, and calls on damaged works, at whatever point the sequence is.
    fn disturb(&mut self, rng: &mut Rng, tally: &mut Tally) -> Result<(), Mismatch> {
        self.pair.read(rng, tally)?;
        for _ in 0..6 {
            let (call, due) = refused::call(rng, &self.pair.plain);
            self.pair.run(call, Some(due), tally)?;
        }
        damaged::run(rng, &self.pair.plain, tally)
    }
}

#[cfg(test)]
mod tests {
    use super::*;
    use crate::random::Whose;

    /// Which call answers which refusal: a few rounds meet each of these, and no other.
    #[test]
    fn every_refusal_of_every_call_is_met() {
        let mut tally = Tally::default();
        let mut rng = Rng::new(1);
        for _ in 0..48 {
            assert!(round(&mut rng, &mut tally).is_ok());
        }
        for (call, due) in [
            ("opening", &[1, 2, 3, 4, 5, 6, 7][..]),
            ("ingest", &[1, 2, 3, 4, 5, 6, 7, 8, 9, 12, 13, 14, 15, 16]),
            ("digest", &[1, 2, 3, 4, 5, 6, 7, 8, 9, 17]),
            ("next base", &[1, 2, 3, 4, 5, 6, 7, 8, 9, 13, 15, 16]),
            ("cutoff removal", &[7, 8, 9]),
            ("twin and part", &[1, 2, 3, 4, 5, 6, 7, 8, 10]),
        ] {
            for whose in [Whose::Plain, Whose::Library] {
                assert_eq!(tally.refusals(whose, call), due, "{call}");
            }
        }
    }
}

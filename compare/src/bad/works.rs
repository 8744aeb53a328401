//! The calls on a work: good and bad ones, on sound works, spoilt ones and random ones.

use super::reached::Reached;
use super::spoilt;
use crate::oracle::Key;
use crate::ours::side::Library;
use crate::pages::made::{above, below};
use crate::pages::LONGEST_VALUE;
use crate::plain::digest::TICKET;
use crate::plain::pending;
use crate::plain::side::Plain;
use crate::plain::work::{Entry, State};
use crate::random::{Mismatch, Tally, Whose};
use crate::rng::Rng;
use crate::sequences::made;
use crate::sequences::pair::{name, Due, Pair};
use crate::sequences::{damaged, refused};
use crate::vectors::answers::Answer;
use crate::vectors::calls::{Base, Call, Change, Instead};

/// Calls on each work that was reached.
const CALLS: usize = 48;

pub fn run(rng: &mut Rng, reached: &Reached, tally: &mut Tally) -> Result<(), Mismatch> {
    let plain = &reached.plain;
    let edges = Edges::of(reached);
    for _ in 0..CALLS {
        let mut lent = plain.clone();
        let (call, due) = match rng.between(0, 9) {
            // a sound work, and a call that must be refused by a number that is known
            0 | 1 => {
                let (call, number) = refused::call(rng, plain);
                (call, Some(number))
            }
            // a damage of which the number is known
            2 | 3 => match damaged::call_on_damaged(rng, plain, &mut lent) {
                Some((call, number)) => (call, Some(number)),
                None => (any_call(rng, reached, &edges), None),
            },
            // a sound work
            4 => (any_call(rng, reached, &edges), None),
            5 => {
                lent = spoilt::random(rng);
                (any_call(rng, reached, &edges), None)
            }
            _ => {
                spoilt::spoil(rng, &mut lent);
                (any_call(rng, reached, &edges), None)
            }
        };
        run_call(&lent, call, due, tally)?;
    }
    Ok(())
}

fn run_call(lent: &Plain, call: Call, due: Due, tally: &mut Tally) -> Result<(), Mismatch> {
    match &call {
        Call::Open {
            every,
            base,
            cutoff,
            list,
            store,
        } => {
            let mut held = lent.state.clone();
            held.list.resize(*list, Entry::default());
            held.store.resize(*store, 0);
            let opening = (*every, base.as_ref(), *cutoff);
            open(&call, held, opening, due, tally)
        }
        _ => Pair::answer_on_damaged(lent, &call, due, tally).map(drop),
    }
}

/// An opening over whatever work record, list and store hold.
fn open(
    call: &Call,
    held: State,
    (every, base, cutoff): (bool, Option<&Base>, Option<Key>),
    due: Due,
    tally: &mut Tally,
) -> Result<(), Mismatch> {
    let (mut plain, mut library) = (Plain::default(), Library::default());
    let answer = plain.open_over(held.clone(), every, base, cutoff);
    let ours = library.open_over(held, every, base, cutoff);
    let as_due = due.is_none_or(|number| answer == Ok(Answer::Refused(number)));
    if !as_due || answer != ours || plain.state != library.state {
        let lines = vec![
            ("call", call.line()),
            ("due", format!("{due:?}")),
            ("plain", format!("{answer:?}, {:?}", plain.state.work)),
            ("library", format!("{ours:?}, {:?}", library.state.work)),
        ];
        let call = name(call);
        return Err(Mismatch { call, lines });
    }
    let number = answer.map_or(0, |answer| answer.refusal());
    tally.answered(Whose::Library, name(call), number);
    Ok(())
}

/// Where the arguments of a call on a sound work have their edges.
struct Edges {
    pending: usize,
    pages: usize,
    keys: Vec<Key>,
}

impl Edges {
    fn of(reached: &Reached) -> Self {
        let Plain { state, page, .. } = &reached.plain;
        let work = &state.work;
        let lowest = refused::lowest_let_in(work);
        let mut keys = Vec::new();
        for key in [work.cutoff, work.latest, work.floor, work.last, lowest] {
            keys.extend([key, above(&key), below(&key)]);
        }
        keys.extend([lowest; 8]);
        Edges {
            pending: pending::all(state, page).len(),
            pages: reached.asked(),
            keys,
        }
    }

    fn key(&self, rng: &mut Rng) -> Key {
        match rng.between(0, 7) {
            0 => rng.key(),
            _ => self.keys[rng.between(0, self.keys.len() - 1)],
        }
    }
}

/// A call that may be refused on the sound work, or one that may be accepted there.
fn any_call(rng: &mut Rng, reached: &Reached, edges: &Edges) -> Call {
    match rng.between(0, 3) {
        0 => refused::call(rng, &reached.plain).0,
        _ => edge_call(rng, reached, edges),
    }
}

/// A call whose arguments are at their edges.
fn edge_call(rng: &mut Rng, reached: &Reached, edges: &Edges) -> Call {
    let instead = Instead::default();
    match rng.between(0, 11) {
        0 | 1 => Call::Twin {
            index: around(rng, edges.pending),
            instead,
        },
        2..=4 => Call::Digest {
            area: around(rng, edges.pages * 4096),
            tickets: around(rng, edges.pages * TICKET),
            instead,
        },
        5 | 6 => Call::Ingest {
            key: edges.key(rng),
            change: change(rng),
            instead,
        },
        7 | 8 => reached.next(rng),
        9 => Call::Uncut { instead },
        10 => reached.opening(rng).0,
        _ if rng.between(0, 2) == 0 => Call::Separator,
        _ => Call::Scope {
            key: edges.key(rng),
        },
    }
}

fn around(rng: &mut Rng, number: usize) -> usize {
    let less = number.saturating_sub(1);
    [number, number, number + 1, less, less, number + 4096, 0][rng.between(0, 6)]
}

fn change(rng: &mut Rng) -> Change {
    let any = rng.between(0, LONGEST_VALUE);
    let lengths = [0, 3, LONGEST_VALUE, LONGEST_VALUE + 1, any];
    match rng.between(0, 6) {
        at @ 0..=4 => made::put(rng, lengths[at]),
        _ => Change::Delete,
    }
}

//! The library as a side.

use super::keys;
use super::pages::{LeafValue, LentPage};
use super::work::{self, Reader, TwinPlace, BASE, STORE};
use crate::lent::Damage;
use crate::oracle::Key;
use crate::plain::calls::Report;
use crate::plain::digest::Digested;
use crate::plain::work::{State, Work};
use crate::side::{Answered, Calls, Out, Ran, Sequence, Twins};
use crate::vectors::answers::{Answer, Holder, Pending};
use crate::vectors::calls::{Base, Call, Change};

pub enum LibraryCalls {}

pub type Library = Sequence<LibraryCalls>;

impl Calls for LibraryCalls {
    fn open(state: &mut State, every: bool, base: Option<&Base>, cutoff: Option<Key>) -> Ran<()> {
        work::open(state, every, base, cutoff)
    }

    fn ingest(state: &mut State, page: &[u8], key: &Key, change: &Change) -> Ran<Report> {
        work::ingest(state, page, key, change)
    }

    fn digest(state: &mut State, page: &[u8], out: Out) -> Ran<Digested> {
        work::digest(state, page, out.area, out.tickets)
    }

    fn next_base(state: &mut State, base: &Base, cutoff: Option<Key>) -> Ran<()> {
        work::next_base(state, base, cutoff)
    }

    fn remove_cutoff(state: &mut State) -> Ran<()> {
        work::remove_cutoff(state)
    }

    /// The part goes into a buffer of just its length or one byte more, and not into one byte less.
    fn twins(state: &State, page: &[u8], from: usize, most: usize) -> Result<Twins, Damage> {
        let reader = Reader::new(state, page);
        let mut places = Vec::new();
        let mut refusal = None;
        while places.len() < most && refusal.is_none() {
            let index = from + places.len();
            let twin = pending(&reader.twin(index)?)?;
            let due: &[u8] = match &twin {
                Ok(record) => crate::plain::pending::part(record, &state.store, page),
                Err(_) => &[],
            };
            let room = due.len() + index % 2;
            if reader.part(index, room)?.as_deref() != Some(due) {
                return Err(Damage(format!("the part of {index} isn't what twin names")));
            }
            if !due.is_empty() && reader.part(index, due.len() - 1)?.is_some() {
                return Err(Damage(format!("the part of {index} went into less room")));
            }
            match twin {
                Ok(place) => places.push(place),
                Err(number) => refusal = Some(number),
            }
        }
        Ok((places, refusal))
    }

    fn is_in_scope(work: &Work, key: &Key) -> Result<bool, Damage> {
        work::is_in_scope(work, key)
    }

    fn separator(work: &Work) -> Result<Key, Damage> {
        work::separator(work)
    }

    fn on_page(call: &Call) -> Answered {
        on_page(call)
    }
}

fn pending(place: &TwinPlace) -> Ran<Pending> {
    if place.refusal != 0 {
        let alone = TwinPlace {
            refusal: place.refusal,
            ..TwinPlace::default()
        };
        if *place != alone {
            return Err(Damage(format!(
                "a refusal with more than its number: {place:?}"
            )));
        }
        return Ok(Err(place.refusal));
    }
    let holder = match place.holder {
        STORE => Holder::Store,
        BASE => Holder::Page,
        other => return Err(Damage(format!("no holder has the number {other}"))),
    };
    Ok(Ok(Pending {
        holder,
        offset: place.offset,
        length: place.len,
        flag: place.flag,
        key: place.key,
    }))
}

fn on_page(call: &Call) -> Answered {
    match call {
        Call::PageKey { page, index } => {
            let reply = LentPage::new(page).key(*index)?;
            Ok(or_refused(reply.refusal, Answer::Key(reply.key)))
        }
        Call::PageValue { page, index } => LentPage::new(page).value(*index).map(cell),
        Call::PageGet { page, key } => LentPage::new(page).get(key).map(cell),
        Call::PageValuesSize { page, from, to } => {
            let reply = LentPage::new(page).values_size(*from, *to)?;
            Ok(or_refused(reply.refusal, Answer::Size(reply.bytes)))
        }
        Call::Separate { a, b } => separate(a, b),
        _ => unreachable!("`answer` runs the calls on a work"),
    }
}

fn or_refused(refusal: u8, accepted: Answer) -> Answer {
    if refusal == 0 {
        accepted
    } else {
        Answer::Refused(refusal)
    }
}

fn cell(reply: LeafValue) -> Answer {
    let found = (reply.offset, reply.len, reply.flag != 0);
    let cell = (reply.absent == 0).then_some(found);
    or_refused(reply.refusal, Answer::Cell(cell))
}

fn separate(a: &Key, b: &Key) -> Answered {
    let before = [0x5a; 32];
    let after = keys::separate(a, b, &before)?;
    if after.reply != 0 && after.out != before {
        let why = format!("refused {}, but changed `out`", after.reply);
        return Err(Damage(why));
    }
    Ok(or_refused(after.reply, Answer::Key(after.out)))
}

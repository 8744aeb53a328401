//! The plain functions as a side.

use super::calls::{ingest, next_base, open, part, remove_cutoff, twin, Report};
use super::digest::{digest, Digested};
use super::page;
use super::pending;
use super::work::{State, Work};
use crate::lent::Damage;
use crate::oracle::Key;
use crate::side::{Answered, Calls, Out, Ran, Sequence, Twins};
use crate::vectors::answers::Answer;
use crate::vectors::calls::{Base, Call, Change};

pub enum PlainCalls {}

pub type Plain = Sequence<PlainCalls>;

impl Calls for PlainCalls {
    fn open(state: &mut State, every: bool, base: Option<&Base>, cutoff: Option<Key>) -> Ran<()> {
        Ok(open(state, every, base, cutoff))
    }

    fn ingest(state: &mut State, page: &[u8], key: &Key, change: &Change) -> Ran<Report> {
        Ok(ingest(state, page, key, change))
    }

    fn digest(state: &mut State, page: &[u8], out: Out) -> Ran<Digested> {
        Ok(digest(state, page, out.area, out.tickets))
    }

    fn next_base(state: &mut State, base: &Base, cutoff: Option<Key>) -> Ran<()> {
        Ok(next_base(state, base, cutoff))
    }

    fn remove_cutoff(state: &mut State) -> Ran<()> {
        Ok(remove_cutoff(state))
    }

    fn twins(state: &State, page: &[u8], from: usize, most: usize) -> Result<Twins, Damage> {
        let mut places = Vec::new();
        while places.len() < most {
            let index = from + places.len();
            let part = part(state, page, index);
            match twin(state, page, index) {
                Ok(place) if named(part, pending::part(&place, &state.store, page)) => {
                    places.push(place)
                }
                Err(number) if part.is_empty() => return Ok((places, Some(number))),
                _ => return Err(Damage(format!("the part of {index} isn't what twin names"))),
            }
        }
        Ok((places, None))
    }

    fn is_in_scope(work: &Work, key: &Key) -> Result<bool, Damage> {
        Ok(work.is_in_scope(key))
    }

    fn separator(work: &Work) -> Result<Key, Damage> {
        Ok(work.separator())
    }

    fn on_page(call: &Call) -> Answered {
        Ok(on_page(call))
    }
}

/// Whether two parts are one and the same, or both empty.
fn named(part: &[u8], due: &[u8]) -> bool {
    part.as_ptr_range() == due.as_ptr_range() || (part.is_empty() && due.is_empty())
}

fn on_page(call: &Call) -> Answer {
    let reply = match call {
        Call::PageKey { page, index } => page::key(page, *index).map(Answer::Key),
        Call::PageValue { page, index } => {
            page::value(page, *index).map(|cell| Answer::Cell(Some(cell)))
        }
        Call::PageValuesSize { page, from, to } => {
            page::values_size(page, *from, *to).map(Answer::Size)
        }
        Call::PageGet { page, key } => page::get(page, key).map(|found| Answer::Cell(found.ok())),
        Call::Separate { a, b } => page::separate(a, b).map(Answer::Key),
        _ => unreachable!("`answer` runs the calls on a work"),
    };
    reply.unwrap_or_else(Answer::Refused)
}

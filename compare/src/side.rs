//! A sequence of calls on either side: what is lent to each call, what it must leave as it was, and its answer in the recorded form.

use crate::lent::Damage;
use crate::oracle::io::PAGE_SIZE;
use crate::oracle::Key;
use crate::plain::calls::Report;
use crate::plain::digest::{asked, Digested, TICKET};
use crate::plain::page::body;
use crate::plain::pending;
use crate::plain::verdict::{NO_SUCH_INDEX, SHORT_AREA};
use crate::plain::work::{Entry, State, Work, INSERT};
use crate::vectors::answers::{self, Answer, Pending};
use crate::vectors::calls::{Base, Call, Change, Instead};
use crate::vectors::{Outcome, Side};
use std::marker::PhantomData;

/// What lent buffers hold before a call.
const HELD: u8 = 0x5a;

/// An answer, a refusal's among them; damage if a call changed what it had to leave.
pub type Answered = Result<Answer, Damage>;

/// What a call gives, or its refusal.
pub type Ran<T> = Result<Result<T, u8>, Damage>;

/// The places that twin calls named, and the refusal that ended them.
pub type Twins = (Vec<Pending>, Option<u8>);

/// Where the leaves of a digest go.
pub struct Out<'a> {
    pub area: &'a mut [u8],
    pub tickets: &'a mut [u8],
}

/// The calls of a side. Each changes what it is lent.
pub trait Calls {
    fn open(state: &mut State, every: bool, base: Option<&Base>, cutoff: Option<Key>) -> Ran<()>;
    fn ingest(state: &mut State, page: &[u8], key: &Key, change: &Change) -> Ran<Report>;
    fn digest(state: &mut State, page: &[u8], out: Out) -> Ran<Digested>;
    fn next_base(state: &mut State, base: &Base, cutoff: Option<Key>) -> Ran<()>;
    fn remove_cutoff(state: &mut State) -> Ran<()>;
    /// The twin call from an index on, at most so many times or up to a refusal; the part call with the same index is held against each.
    fn twins(state: &State, page: &[u8], from: usize, most: usize) -> Result<Twins, Damage>;
    fn is_in_scope(work: &Work, key: &Key) -> Result<bool, Damage>;
    fn separator(work: &Work) -> Result<Key, Damage>;
    /// A call on a page or on keys alone.
    fn on_page(call: &Call) -> Answered;
}

/// What is lent to the calls of a sequence, and the page of the last accepted opening or next base.
pub struct Sequence<C> {
    pub state: State,
    pub page: Vec<u8>,
    calls: PhantomData<C>,
}

impl<C> Clone for Sequence<C> {
    fn clone(&self) -> Self {
        self.on_side()
    }
}

impl<C> Default for Sequence<C> {
    fn default() -> Self {
        Sequence {
            state: State::default(),
            page: Vec::new(),
            calls: PhantomData,
        }
    }
}

impl<C: Calls> Side for Sequence<C> {
    fn run(&mut self, call: &Call) -> Outcome {
        match self.answer(call) {
            Ok(answer) => Outcome::Answered(answer),
            Err(damage) => Outcome::Damaged(damage),
        }
    }
}

impl<C> Sequence<C> {
    /// The same sequence, gone on with by a side's calls.
    pub fn on_side<D>(&self) -> Sequence<D> {
        Sequence {
            state: self.state.clone(),
            page: self.page.clone(),
            calls: PhantomData,
        }
    }

    /// Page, list and store as a call's further fields want them.
    pub fn lent(&self, instead: &Instead) -> Self {
        let mut lent = self.clone();
        if let Some(page) = &instead.page {
            lent.page = page.clone();
        }
        if let Some(length) = instead.list {
            lent.state.list.resize(length, Entry::default());
        }
        if let Some(length) = instead.store {
            lent.state.store.resize(length, 0);
        }
        if let Some(byte) = instead.dirty.and_then(|at| lent.state.store.get_mut(at)) {
            *byte = 1;
        }
        lent
    }

    pub fn entries(&self) -> Vec<answers::Entry> {
        let used = self.state.list.iter().take_while(|entry| entry.kind != 0);
        used.map(listed).collect()
    }
}

impl<C: Calls> Sequence<C> {
    pub fn answer(&mut self, call: &Call) -> Answered {
        match call {
            Call::Open {
                every,
                base,
                cutoff,
                list,
                store,
            } => self.open_over(unopened(*list, *store), *every, base.as_ref(), *cutoff),
            Call::Ingest {
                key,
                change,
                instead,
            } => self.changing(instead, |state, page| {
                Ok(C::ingest(state, page, key, change)?.map(Answer::Report))
            }),
            Call::Digest {
                area,
                tickets,
                instead,
            } => self.digest(*area, *tickets, instead),
            Call::Next {
                base,
                cutoff,
                instead,
            } => self.next(base, *cutoff, instead),
            Call::Uncut { instead } => {
                self.changing(instead, |state, _| accepted(C::remove_cutoff(state)))
            }
            Call::Twin { index, instead } => twin::<C>(&self.lent(instead), *index),
            Call::Scope { key } => C::is_in_scope(&self.state.work, key).map(Answer::Truth),
            Call::Separator => C::separator(&self.state.work).map(Answer::Key),
            Call::Dump => self.dump(),
            _ => C::on_page(call),
        }
    }

    /// An opening that is lent this work record, list and store, whatever they hold.
    pub fn open_over(
        &mut self,
        held: State,
        every: bool,
        base: Option<&Base>,
        cutoff: Option<Key>,
    ) -> Answered {
        let mut new = held.clone();
        let reply = accepted(C::open(&mut new, every, base, cutoff))?;
        let answer = settle(reply, &held, &new)?;
        if answer == Answer::Accepted {
            self.state = new;
            self.page = base.map_or(Vec::new(), |base| base.page.clone());
        }
        Ok(answer)
    }

    fn next(&mut self, base: &Base, cutoff: Option<Key>, instead: &Instead) -> Answered {
        let answer = self.changing(instead, |state, _| {
            accepted(C::next_base(state, base, cutoff))
        })?;
        if answer == Answer::Accepted {
            self.page = base.page.clone();
        }
        Ok(answer)
    }

    /// A call on the state as this call is lent it.
    fn changing(
        &mut self,
        instead: &Instead,
        call: impl FnOnce(&mut State, &[u8]) -> Ran<Answer>,
    ) -> Answered {
        let mut lent = self.lent(instead);
        let before = lent.state.clone();
        let reply = call(&mut lent.state, &lent.page)?;
        let answer = settle(reply, &before, &lent.state)?;
        if !matches!(answer, Answer::Refused(_)) {
            self.state = lent.state;
        }
        Ok(answer)
    }

    /// Accepted, it must be refused with a byte less than it asks for of either buffer.
    fn digest(&mut self, area: usize, tickets: usize, instead: &Instead) -> Answered {
        let lent = self.lent(instead);
        let (answer, after) = digest_once::<C>(&lent, area, tickets)?;
        if let Answer::Leaves { asked, .. } = answer {
            less_is_short::<C>(&lent, asked)?;
            self.state = after;
        }
        Ok(answer)
    }

    /// The used entries, and the twin call for 0, 1 and so on up to refusal 10.
    fn dump(&self) -> Answered {
        let entries = self.entries();
        match C::twins(&self.state, &self.page, 0, usize::MAX)? {
            (pending, Some(NO_SUCH_INDEX)) => Ok(Answer::Dump { entries, pending }),
            (_, other) => Err(Damage(format!("twin answers {other:?}"))),
        }
    }
}

fn accepted(ran: Ran<()>) -> Ran<Answer> {
    Ok(ran?.map(|()| Answer::Accepted))
}

fn twin<C: Calls>(lent: &Sequence<C>, index: usize) -> Answered {
    let (mut places, refusal) = C::twins(&lent.state, &lent.page, index, 1)?;
    let refused = Answer::Refused(refusal.unwrap_or(0));
    Ok(places.pop().map_or(refused, Answer::Pending))
}

/// What an opening is lent: list and store hold something else than zeros, and the work record anything.
pub fn unopened(list: usize, store: usize) -> State {
    let held = Entry {
        kind: HELD,
        flag: HELD,
        key: [HELD; 32],
        ..Entry::default()
    };
    State {
        work: Work {
            low: 7,
            last: [HELD; 32],
            ..Work::default()
        },
        list: vec![held; list],
        store: vec![HELD; store],
    }
}

fn listed(entry: &Entry) -> answers::Entry {
    if entry.kind == INSERT {
        return answers::Entry::Insert {
            offset: entry.from,
            length: entry.to - entry.from,
            flag: entry.flag != 0,
            key: entry.key,
        };
    }
    answers::Entry::Chunk {
        from: entry.from,
        to: entry.to,
        values: entry.sum,
    }
}

/// A refused call must have changed nothing.
fn settle(reply: Result<Answer, u8>, before: &State, after: &State) -> Answered {
    match reply {
        Ok(answer) => Ok(answer),
        Err(number) if before == after => Ok(Answer::Refused(number)),
        Err(number) => Err(Damage(format!("refused {number}, but changed the work"))),
    }
}

fn less_is_short<C: Calls>(before: &Sequence<C>, asked: usize) -> Result<(), Damage> {
    if asked == 0 {
        return Ok(());
    }
    let (area, tickets) = (asked * PAGE_SIZE, asked * TICKET);
    for (area, tickets) in [(area - 1, tickets), (area, tickets - 1)] {
        let (short, _) = digest_once(before, area, tickets)?;
        if short != Answer::Refused(SHORT_AREA) {
            let why = format!("area of {area}, tickets of {tickets}: {short:?}");
            return Err(Damage(why));
        }
    }
    Ok(())
}

/// A digest with buffers of these lengths, and what it leaves.
fn digest_once<C: Calls>(
    before: &Sequence<C>,
    area: usize,
    tickets: usize,
) -> Result<(Answer, State), Damage> {
    let (mut area, mut tickets) = (vec![HELD; area], vec![HELD; tickets]);
    let mut state = before.state.clone();
    let out = Out {
        area: &mut area,
        tickets: &mut tickets,
    };
    let reply = C::digest(&mut state, &before.page, out)?;
    let answer = match reply {
        Err(number) => {
            only_held(&area, 0, "area")?;
            only_held(&tickets, 0, "tickets")?;
            settle(Err(number), &before.state, &state)?
        }
        Ok(Digested { leaves, wait }) => {
            let asked = asked(body(&pending::records(&before.state, &before.page)));
            let (pages, tickets) = given(&area, &tickets, leaves)?;
            Answer::Leaves {
                pages,
                tickets,
                wait,
                asked,
            }
        }
    };
    Ok((answer, state))
}

/// The pages and tickets of so many leaves; later bytes must be as they were.
fn given(area: &[u8], tickets: &[u8], leaves: usize) -> Result<(Vec<Vec<u8>>, Vec<u8>), Damage> {
    let pages = area.chunks(PAGE_SIZE).take(leaves).map(<[u8]>::to_vec);
    let pages: Vec<Vec<u8>> = pages.collect();
    only_held(area, leaves * PAGE_SIZE, "area")?;
    let mut end = 0;
    for _ in 0..leaves {
        end += if tickets[end] == 1 { TICKET } else { 33 };
    }
    only_held(tickets, end, "tickets")?;
    Ok((pages, tickets[..end].to_vec()))
}

fn only_held(buffer: &[u8], from: usize, name: &str) -> Result<(), Damage> {
    match buffer[from..].iter().position(|&byte| byte != HELD) {
        None => Ok(()),
        Some(at) => Err(Damage(format!("wrote into `{name}` at byte {}", from + at))),
    }
}

//! The calls on a work, which is lent and changed in place, over a list of entry structs. All that a call is lent stands between red zones.

use super::stack::metered;
use crate::leaf_updater::{
    leaf_digest, leaf_ingest, leaf_is_in_scope, leaf_next_base, leaf_open, leaf_part,
    leaf_remove_cutoff, leaf_separator, leaf_twin, LeafGave, LeafReport,
};
use crate::lent::{Damage, Laid, Lent};
use crate::oracle::Key;
use crate::plain::calls::Report;
use crate::plain::digest::Digested;
use crate::plain::work::{Entry, State, Work};
use crate::side::Ran;
use crate::vectors::calls::{Base, Change};

pub use crate::leaf_updater::TwinPlace;

/// The holders that a twin names.
pub const STORE: u8 = 1;
pub const BASE: u8 = 2;

/// What stands in place of an absent key; it is ignored.
const ABSENT: Key = [0x77; 32];

/// The calls as they are, with nothing around them; whether they were accepted.
pub mod bare {
    use super::{Key, State, TwinPlace, Work};
    use crate::vectors::calls::Base;

    // SAFETY of all: pointers and the lengths that belong to them, and places of 32 bytes for keys.

    /// A call on the work, with list and store.
    macro_rules! call {
        ($call:ident, $work:expr, $state:ident $(, $more:expr)*) => {
            unsafe {
                super::$call(
                    $work,
                    $state.list.as_mut_ptr(),
                    $state.list.len(),
                    $state.store.as_mut_ptr(),
                    $state.store.len()
                    $(, $more)*
                )
            }
        };
    }

    #[inline(always)]
    pub fn open(state: &mut State, base: &Base, cutoff: &Key) -> bool {
        let (page, length) = (base.page.as_ptr(), base.page.len());
        let separator = &base.separator;
        let work = &mut state.work;
        call!(leaf_open, work, state, 0, 1, page, length, separator, 1, cutoff) == 0
    }

    /// An ingest of a new value.
    #[inline(always)]
    pub fn put(state: &mut State, page: &[u8], key: &Key, value: &[u8]) -> bool {
        let (page, page_length) = (page.as_ptr(), page.len());
        let (value, length) = (value.as_ptr(), value.len());
        let work = &mut state.work;
        let report = call!(
            leaf_ingest,
            work,
            state,
            page,
            page_length,
            key,
            1,
            0,
            value,
            length
        );
        report.refusal == 0
    }

    /// A digest; how many leaves it gave, or by which number it was refused.
    #[inline(always)]
    pub fn digest(
        state: &mut State,
        page: &[u8],
        area: &mut [u8],
        tickets: &mut [u8],
    ) -> Result<usize, u8> {
        let work = &mut state.work;
        let gave = call!(
            leaf_digest,
            work,
            state,
            page.as_ptr(),
            page.len(),
            area.as_mut_ptr(),
            area.len(),
            tickets.as_mut_ptr(),
            tickets.len()
        );
        super::refused_or_done(gave.refusal).map(|()| gave.leaves)
    }

    #[inline(always)]
    pub fn next_base(state: &mut State, base: &Base, cutoff: &Key) -> bool {
        let (page, length) = (base.page.as_ptr(), base.page.len());
        let separator = &base.separator;
        let work = &mut state.work;
        call!(
            leaf_next_base,
            work,
            state,
            page,
            length,
            separator,
            1,
            cutoff
        ) == 0
    }

    #[inline(always)]
    pub fn remove_cutoff(state: &mut State) -> bool {
        let work = &mut state.work;
        call!(leaf_remove_cutoff, work, state) == 0
    }

    #[inline(always)]
    pub fn twin(state: &mut State, page: &[u8], i: usize) -> TwinPlace {
        call!(leaf_twin, state.work, state, page.as_ptr(), page.len(), i)
    }

    /// A part's length; the part goes into `out`, if it has room.
    #[inline(always)]
    pub fn part(state: &mut State, page: &[u8], i: usize, out: &mut [u8]) -> usize {
        let (page, page_length) = (page.as_ptr(), page.len());
        let (out, length) = (out.as_mut_ptr(), out.len());
        call!(
            leaf_part,
            state.work,
            state,
            page,
            page_length,
            i,
            out,
            length
        )
    }

    #[inline(always)]
    pub fn is_in_scope(work: &Work, key: &Key) -> bool {
        unsafe { super::leaf_is_in_scope(*work, key) != 0 }
    }

    #[inline(always)]
    pub fn separator(work: &Work, out: &mut Key) {
        unsafe { super::leaf_separator(*work, out) }
    }
}

macro_rules! put_fields {
    ($from:expr, $at:expr; $($field:ident),*) => {
        $((*$at).$field = $from.$field;)*
    };
}

impl Laid for Work {
    unsafe fn put(&self, at: *mut Self) {
        put_fields!(self, at; turn, based, mode, low, used, filled, count, bytes, latest, cut, cutoff, over);
        put_fields!(self, at; overriding, floor, taken, last);
    }
}

impl Laid for Entry {
    unsafe fn put(&self, at: *mut Self) {
        put_fields!(self, at; kind, flag, from, to, sum, key);
    }
}

/// Work record, list and store, as they are lent to a call.
struct LentWork {
    work: Lent,
    list: Lent,
    store: Lent,
    entries: usize,
    bytes: usize,
    /// The bytes of all three before the call.
    before: [Vec<u8>; 3],
}

impl LentWork {
    fn new(state: &State) -> Self {
        let work = Lent::structs(&[state.work]);
        let list = Lent::structs(&state.list);
        let store = Lent::new(&state.store);
        LentWork {
            before: [work.bytes(), list.bytes(), store.bytes()],
            work,
            list,
            store,
            entries: state.list.len(),
            bytes: state.store.len(),
        }
    }

    /// What the call left. Refused, it must have kept every byte, those between fields among them.
    fn left(&self, refusal: u8) -> Result<State, Damage> {
        if refusal != 0 {
            self.list_and_store_kept()?;
        }
        Ok(State {
            work: self.work_left(refusal)?,
            list: self.list.structs_after_call("list")?,
            store: self.store.after_call("store")?.to_vec(),
        })
    }

    fn work_left(&self, refusal: u8) -> Result<Work, Damage> {
        if refusal != 0 {
            self.work.kept("work", &self.before[0])?;
        }
        Ok(self.work.structs_after_call("work")?[0])
    }

    fn list_and_store_kept(&self) -> Result<(), Damage> {
        self.list.kept("list", &self.before[1])?;
        self.store.kept("store", &self.before[2])
    }
}

/// A call that changes work, list and store: these three as they are lent, and what else it takes.
macro_rules! changing {
    ($call:ident, $lent:ident $(, $more:expr)*) => {{
        let (work, list) = ($lent.work.ptr_mut().cast(), $lent.list.ptr_mut().cast());
        let (entries, store, bytes) = ($lent.entries, $lent.store.ptr_mut(), $lent.bytes);
        let call = || unsafe { $call(work, list, entries, store, bytes $(, $more)*) };
        metered(stringify!($call), call)
    }};
}

/// A call that only reads list and store: the work record as it takes it, these two as they are lent, and what else it takes.
macro_rules! reading {
    ($call:ident, $work:expr, $lent:expr $(, $more:expr)*) => {{
        let (work, list) = ($work, $lent.list.ptr().cast());
        let (entries, store, bytes) = ($lent.entries, $lent.store.ptr(), $lent.bytes);
        let call = || unsafe { $call(work, list, entries, store, bytes $(, $more)*) };
        metered(stringify!($call), call)
    }};
}

/// A flag among the arguments. It is set by any number but 0, so by a byte of the key beside it, which may be any.
fn flag_of(set: bool, any: u8) -> u8 {
    if set {
        any.max(1)
    } else {
        0
    }
}

fn refused_or_done(refusal: u8) -> Result<(), u8> {
    match refusal {
        0 => Ok(()),
        number => Err(number),
    }
}

/// A base's page, separator and cutoff, as they are lent.
struct LentBase<'a> {
    page: &'a [u8],
    keys: [Key; 2],
    lent_page: Lent,
    lent_keys: [Lent; 2],
}

impl<'a> LentBase<'a> {
    fn new(base: Option<&'a Base>, cutoff: Option<Key>) -> Self {
        let page = base.map_or(&[][..], |base| &base.page);
        let keys = [
            base.map_or(ABSENT, |base| base.separator),
            cutoff.unwrap_or(ABSENT),
        ];
        LentBase {
            page,
            keys,
            lent_page: Lent::new(page),
            lent_keys: keys.map(|key| Lent::new(&key)),
        }
    }

    /// The flags `based` and `cut`.
    fn flags(&self, based: bool, cut: bool) -> (u8, u8) {
        let [separator, cutoff] = self.keys;
        (flag_of(based, separator[31]), flag_of(cut, cutoff[31]))
    }

    fn kept(&self) -> Result<(), Damage> {
        self.lent_page.kept("page", self.page)?;
        self.lent_keys[0].kept("separator", &self.keys[0])?;
        self.lent_keys[1].kept("cutoff", &self.keys[1])
    }
}

// SAFETY of all calls: pointers and the lengths that belong to them, structs aligned, places of 32 bytes for keys.

pub fn open(state: &mut State, every: bool, base: Option<&Base>, cutoff: Option<Key>) -> Ran<()> {
    let mut lent = LentWork::new(state);
    let new = LentBase::new(base, cutoff);
    let (page, length) = (new.lent_page.ptr(), new.page.len());
    let [separator, end] = [0, 1].map(|i| new.lent_keys[i].ptr().cast());
    let (based, cut) = new.flags(base.is_some(), cutoff.is_some());
    let mode = flag_of(every, new.keys[1][30]);
    let refusal = changing!(leaf_open, lent, mode, based, page, length, separator, cut, end);
    new.kept()?;
    *state = lent.left(refusal)?;
    Ok(refused_or_done(refusal))
}

pub fn ingest(state: &mut State, page: &[u8], key: &Key, change: &Change) -> Ran<Report> {
    let mut lent = LentWork::new(state);
    let (lent_page, lent_key) = (Lent::new(page), Lent::new(key));
    // a deletion's value and flag are ignored
    let (put, flag, value): (u8, u8, &[u8]) = match change {
        Change::Put { value, flag } => (flag_of(true, key[31]), flag_of(*flag, key[30]), value),
        Change::Delete => (0, 1, &[0x77; 2000]),
    };
    let lent_value = Lent::new(value);
    let (base, base_length) = (lent_page.ptr(), page.len());
    let (key_ptr, bytes, length) = (lent_key.ptr().cast(), lent_value.ptr(), value.len());
    let report = changing!(
        leaf_ingest,
        lent,
        base,
        base_length,
        key_ptr,
        put,
        flag,
        bytes,
        length
    );
    lent_page.kept("page", page)?;
    lent_key.kept("key", key)?;
    lent_value.kept("value", value)?;
    *state = lent.left(report.refusal)?;
    reported(&report)
}

fn reported(report: &LeafReport) -> Ran<Report> {
    match *report {
        LeafReport {
            refusal: 0,
            reported: 1,
            offset,
            len,
        } => Ok(Ok(Some((offset, len)))),
        LeafReport {
            refusal,
            reported: 0,
            offset: 0,
            len: 0,
        } => Ok(refused_or_done(refusal).map(|()| None)),
        _ => Err(Damage(format!("not an ingest's answer: {report:?}"))),
    }
}

/// A digest: state, area and tickets are then what it left.
pub fn digest(
    state: &mut State,
    page: &[u8],
    area: &mut [u8],
    tickets: &mut [u8],
) -> Ran<Digested> {
    let mut lent = LentWork::new(state);
    let lent_page = Lent::new(page);
    let (mut lent_area, mut lent_tickets) = (Lent::new(area), Lent::new(tickets));
    let (base, base_length) = (lent_page.ptr(), page.len());
    let (pages, pages_length) = (lent_area.ptr_mut(), area.len());
    let (packed, packed_length) = (lent_tickets.ptr_mut(), tickets.len());
    let gave = changing!(
        leaf_digest,
        lent,
        base,
        base_length,
        pages,
        pages_length,
        packed,
        packed_length
    );
    lent_page.kept("page", page)?;
    area.copy_from_slice(lent_area.after_call("area")?);
    tickets.copy_from_slice(lent_tickets.after_call("tickets")?);
    *state = lent.left(gave.refusal)?;
    digested(&gave)
}

fn digested(gave: &LeafGave) -> Ran<Digested> {
    let LeafGave {
        refusal,
        waiting,
        leaves,
        cutoff,
    } = *gave;
    match (refusal, waiting) {
        (0, 1) => {
            let wait = Some(cutoff);
            Ok(Ok(Digested { leaves, wait }))
        }
        (0, 0) if cutoff == [0; 32] => Ok(Ok(Digested { leaves, wait: None })),
        (_, 0) if (leaves, cutoff) == (0, [0; 32]) => Ok(Err(refusal)),
        _ => Err(Damage(format!("not a digest's answer: {gave:?}"))),
    }
}

pub fn next_base(state: &mut State, base: &Base, cutoff: Option<Key>) -> Ran<()> {
    let mut lent = LentWork::new(state);
    let new = LentBase::new(Some(base), cutoff);
    let (page, length) = (new.lent_page.ptr(), new.page.len());
    let [separator, end] = [0, 1].map(|i| new.lent_keys[i].ptr().cast());
    let (work, cut) = (
        lent.work.ptr_mut().cast(),
        new.flags(true, cutoff.is_some()).1,
    );
    let refusal = reading!(
        leaf_next_base,
        work,
        lent,
        page,
        length,
        separator,
        cut,
        end
    );
    new.kept()?;
    lent.list_and_store_kept()?;
    state.work = lent.work_left(refusal)?;
    Ok(refused_or_done(refusal))
}

pub fn remove_cutoff(state: &mut State) -> Ran<()> {
    let mut lent = LentWork::new(state);
    let work = lent.work.ptr_mut().cast();
    let refusal = reading!(leaf_remove_cutoff, work, lent);
    lent.list_and_store_kept()?;
    state.work = lent.work_left(refusal)?;
    Ok(refused_or_done(refusal))
}

/// What the twin call and the part call read, lent once for any number of them.
pub struct Reader<'a> {
    state: &'a State,
    page: &'a [u8],
    lent: LentWork,
    lent_page: Lent,
}

impl<'a> Reader<'a> {
    pub fn new(state: &'a State, page: &'a [u8]) -> Self {
        Reader {
            state,
            page,
            lent: LentWork::new(state),
            lent_page: Lent::new(page),
        }
    }

    pub fn twin(&self, i: usize) -> Result<TwinPlace, Damage> {
        let (page, length) = (self.lent_page.ptr(), self.page.len());
        let twin = reading!(leaf_twin, self.state.work, self.lent, page, length, i);
        self.kept()?;
        Ok(twin)
    }

    /// The part, by way of a buffer of `room` bytes; None where it had no room for the part.
    pub fn part(&self, i: usize, room: usize) -> Result<Option<Vec<u8>>, Damage> {
        let (page, page_length) = (self.lent_page.ptr(), self.page.len());
        let held = vec![0x5a; room];
        let mut lent_out = Lent::new(&held);
        let out = lent_out.ptr_mut();
        let work = self.state.work;
        let length = reading!(leaf_part, work, self.lent, page, page_length, i, out, room);
        self.kept()?;
        let bytes = lent_out.after_call("out")?;
        if room < length {
            lent_out.kept("out", &held)?;
            return Ok(None);
        }
        if bytes[length..] != held[length..] {
            return Err(Damage("wrote behind the part".to_string()));
        }
        Ok(Some(bytes[..length].to_vec()))
    }

    /// The calls only read.
    fn kept(&self) -> Result<(), Damage> {
        self.lent_page.kept("page", self.page)?;
        self.lent.list_and_store_kept()
    }
}

pub fn is_in_scope(work: &Work, key: &Key) -> Result<bool, Damage> {
    let (work, lent_key) = (*work, Lent::new(key));
    let key_ptr = lent_key.ptr().cast();
    let call = || unsafe { leaf_is_in_scope(work, key_ptr) };
    let answer = metered("leaf_is_in_scope", call);
    lent_key.kept("key", key)?;
    match answer {
        0 | 1 => Ok(answer == 1),
        other => Err(Damage(format!("neither 1 nor 0: {other}"))),
    }
}

pub fn separator(work: &Work) -> Result<Key, Damage> {
    let (work, mut lent_out) = (*work, Lent::new(&ABSENT));
    let out = lent_out.ptr_mut().cast();
    metered("leaf_separator", || unsafe { leaf_separator(work, out) });
    let mut key = [0; 32];
    key.copy_from_slice(lent_out.after_call("out")?);
    Ok(key)
}

//! Calls that must be refused: each reason of document 01's table alone, and several at once. The number due is known from how the
//! call was made, not from `plain::verdict`.

use crate::oracle::Key;
use crate::pages::made::{self, above, below, Filling};
use crate::pages::{plain_check, LONGEST_VALUE};
use crate::plain::digest::{asked, TICKET};
use crate::plain::page::{body, build, Record};
use crate::plain::pending;
use crate::plain::side::Plain;
use crate::plain::work::{Work, DONE, NO_KEY, OPEN, WAITING};
use crate::rng::Rng;
use crate::vectors::calls::{Base, Call, Change, Instead};

/// A bad page; which of 1 to 5 it is, is seen when it is made.
const PAGE: u8 = 1;
const BOUNDS: u8 = 6;
const LENGTHS: u8 = 7;
const SOUNDNESS: u8 = 8;
const TURN: u8 = 9;
const INDEX: u8 = 10;
const LONG: u8 = 12;
const LOW: u8 = 13;
const CUTOFF: u8 = 14;
const AREA: u8 = 17;
/// An unsound work of which 9 is due: it has a place behind all numbers.
const UNTESTED: u8 = 18;

/// A call on this work, and the number by which it is refused.
pub fn call(rng: &mut Rng, plain: &Plain) -> (Call, u8) {
    match rng.between(0, 9) {
        0 => opening(rng, plain),
        1..=3 => ingest(rng, plain),
        4 | 5 => digest(rng, plain),
        6 | 7 => next_base(rng, plain),
        8 => remove_cutoff(rng, plain),
        _ => twin(rng, plain),
    }
}

/// The reasons that a call is to have.
struct Reasons {
    all: Vec<u8>,
}

impl Reasons {
    /// Those that the work itself gives, and some of the possible ones: one at least where there are no others.
    fn choose(rng: &mut Rng, of_work: Vec<u8>, possible: &[u8]) -> Self {
        let mut all = of_work;
        if all.is_empty() || rng.between(0, 1) == 0 {
            all.push(possible[rng.between(0, possible.len() - 1)]);
        }
        if rng.between(0, 1) == 0 {
            all.extend(possible.iter().filter(|_| rng.between(0, 3) == 0));
        }
        Reasons { all }
    }

    fn has(&self, number: u8) -> bool {
        self.all.contains(&number)
    }

    /// The lowest number; `of_page` is the bad page's own.
    fn lowest(&self, of_page: u8) -> u8 {
        let numbers = self.all.iter();
        let numbers = numbers.map(|&number| if number == PAGE { of_page } else { number });
        numbers.min().expect("a call has a reason")
    }
}

/// A damaged copy that is no good page, and its number: each of 1 to 5 that the copies have is as likely, however few have it.
fn bad_page(rng: &mut Rng, page: &[u8]) -> (Vec<u8>, u8) {
    let mut bad = [const { Vec::new() }; 6];
    for copy in made::damaged(rng, page) {
        bad[plain_check(&copy) as usize].push(copy);
    }
    let numbers: Vec<u8> = (1..=5).filter(|&n| !bad[n as usize].is_empty()).collect();
    let number = numbers[rng.between(0, numbers.len() - 1)];
    let of_number = &mut bad[number as usize];
    let page = of_number.swap_remove(rng.between(0, of_number.len() - 1));
    (page, number)
}

/// A key outside the bounds, if there is one.
fn outside(rng: &mut Rng, separator: &Key, cutoff: Option<Key>) -> Option<Key> {
    let low = (*separator != NO_KEY).then(|| below(separator));
    match rng.between(0, 1) {
        0 => low.or(cutoff),
        _ => cutoff.or(low),
    }
}

/// A good page of one record.
fn page_of(key: Key) -> Vec<u8> {
    build(&[Record {
        key,
        value: vec![7],
        flag: true,
    }])
}

/// The reasons that a call which is lent the base's page can be given: 1 to 8.
fn possible_of_lent(plain: &Plain) -> Vec<u8> {
    let work = &plain.state.work;
    let mut possible = vec![LENGTHS];
    if work.filled < plain.state.store.len() {
        possible.push(SOUNDNESS);
    }
    if work.regards_page() {
        possible.push(PAGE);
        if work.latest != NO_KEY || work.cut != 0 {
            possible.push(BOUNDS);
        }
    }
    possible
}

/// What is lent so that the call has its reasons of 1 to 8, and the bad page's number.
fn lent(rng: &mut Rng, plain: &Plain, reasons: &Reasons) -> (Instead, u8) {
    let work = &plain.state.work;
    let mut instead = lent_list_and_store(rng, plain, reasons);
    let mut number = 0;
    if reasons.has(PAGE) {
        let (page, of_page) = bad_page(rng, &plain.page);
        instead.page = Some(page);
        number = of_page;
    } else if reasons.has(BOUNDS) {
        instead.page = outside(rng, &work.latest, work.cutoff()).map(page_of);
    } else if !work.regards_page() && rng.between(0, 1) == 0 {
        // any bytes do
        let length = [0, 1, 4095, 4096, 5000][rng.between(0, 4)];
        instead.page = Some(made::bytes(rng, length));
    }
    (instead, number)
}

/// 7 and 8.
fn lent_list_and_store(rng: &mut Rng, plain: &Plain, reasons: &Reasons) -> Instead {
    let mut instead = Instead::default();
    if reasons.has(SOUNDNESS) || reasons.has(UNTESTED) {
        spoil(rng, plain, &mut instead);
    }
    if reasons.has(LENGTHS) {
        match rng.between(0, 1) {
            0 => instead.list = Some([0, 120, 4097][rng.between(0, 2)]),
            _ => instead.store = Some([0, 4095, 65537][rng.between(0, 2)]),
        }
    }
    instead
}

/// Too little room within the limits for what is pending, or a byte of the store that is not used and not zero.
fn spoil(rng: &mut Rng, plain: &Plain, instead: &mut Instead) {
    let pending = pending::all(&plain.state, &plain.page);
    let bytes = pending::value_bytes(&pending);
    match rng.between(0, 2) {
        0 if pending.len() > 121 => instead.list = Some(rng.between(121, pending.len() - 1)),
        1 if bytes > 4096 => instead.store = Some(rng.between(4096, bytes - 1)),
        _ => {
            let (first, last) = (plain.state.work.filled, plain.state.store.len() - 1);
            instead.dirty = Some([first, last, rng.between(first, last)][rng.between(0, 2)]);
        }
    }
}

fn opening(rng: &mut Rng, plain: &Plain) -> (Call, u8) {
    let based = rng.between(0, 2) > 0;
    let possible: &[u8] = if based {
        &[PAGE, BOUNDS, LENGTHS]
    } else {
        &[BOUNDS, LENGTHS]
    };
    let reasons = Reasons::choose(rng, Vec::new(), possible);
    let instead = lent_list_and_store(rng, plain, &reasons);
    let separator = inner_key(rng);
    let (base, cutoff, of_page) = new_base(rng, &reasons, separator);
    let call = Call::Open {
        every: rng.between(0, 1) == 1,
        base: based.then_some(base),
        cutoff: if based {
            cutoff
        } else {
            reasons.has(BOUNDS).then(|| rng.key())
        },
        list: instead.list.unwrap_or(121),
        store: instead.store.unwrap_or(4096),
    };
    (call, reasons.lowest(of_page))
}

/// A key that is neither the first nor the last one.
fn inner_key(rng: &mut Rng) -> Key {
    let mut key = rng.key();
    key[0] = key[0].clamp(1, 0xfe);
    key
}

/// A new base with this separator: good and empty, unless a reason wants it otherwise.
fn new_base(rng: &mut Rng, reasons: &Reasons, separator: Key) -> (Base, Option<Key>, u8) {
    let mut cutoff = match rng.between(0, 1) {
        0 => None,
        _ => Some([0xff; 32]),
    };
    let mut page = build(&[]);
    if reasons.has(BOUNDS) {
        match rng.between(0, 2) {
            0 => cutoff = Some(separator),
            1 => cutoff = Some(NO_KEY),
            _ => page = page_of(outside(rng, &separator, cutoff).unwrap_or(separator)),
        }
        // the last way needs a bound
        if separator == NO_KEY && cutoff.is_none() {
            cutoff = Some(NO_KEY);
        }
    }
    let mut number = 0;
    if reasons.has(PAGE) {
        let good = made::page(rng, 17, Filling::Mixed);
        (page, number) = bad_page(rng, &good);
    }
    (Base { page, separator }, cutoff, number)
}

/// The lowest key that No. 13 lets in.
pub fn lowest_let_in(work: &Work) -> Key {
    match work.taken {
        0 => work.floor,
        _ => work.floor.max(above(&work.last)),
    }
}

/// A key that No. 13 doesn't let in, if there is one.
fn too_low(rng: &mut Rng, work: &Work) -> Option<Key> {
    let floor = (work.floor != NO_KEY).then(|| below(&work.floor));
    let last = (work.taken != 0).then_some(work.last);
    let under = last.map(|last| below(&last));
    let keys: Vec<Key> = [floor, last, under].into_iter().flatten().collect();
    let at = rng.between(0, keys.len().max(1) - 1);
    keys.get(at).copied()
}

fn ingest(rng: &mut Rng, plain: &Plain) -> (Call, u8) {
    let work = &plain.state.work;
    let mut of_work = Vec::new();
    if work.turn != OPEN {
        of_work.push(TURN);
    }
    let mut key = lowest_let_in(work);
    if work.cut != 0 && key >= work.cutoff {
        of_work.push(CUTOFF);
    }
    let mut possible = possible_of_lent(plain);
    possible.push(LONG);
    let low = too_low(rng, work);
    possible.extend(low.map(|_| LOW));
    if work.cut != 0 {
        possible.push(CUTOFF);
    }
    let reasons = Reasons::choose(rng, of_work, &possible);
    if reasons.has(CUTOFF) {
        key = [work.cutoff, above(&work.cutoff), [0xff; 32]][rng.between(0, 2)];
    }
    if let Some(low) = low.filter(|_| reasons.has(LOW)) {
        key = low;
    }
    let long = LONGEST_VALUE + [1, 2, 1000][rng.between(0, 2)];
    let change = match (reasons.has(LONG), rng.between(0, 1)) {
        (true, _) => super::made::put(rng, long),
        // a lack of room has a higher number than the reasons here
        (false, 0) => super::made::put(rng, LONGEST_VALUE),
        _ => Change::Delete,
    };
    let (instead, of_page) = lent(rng, plain, &reasons);
    let call = Call::Ingest {
        key,
        change,
        instead,
    };
    (call, reasons.lowest(of_page))
}

fn digest(rng: &mut Rng, plain: &Plain) -> (Call, u8) {
    let pages = asked(body(&pending::records(&plain.state, &plain.page)));
    let mut possible = possible_of_lent(plain);
    if pages > 0 {
        possible.push(AREA);
    }
    let of_work = match plain.state.work.turn {
        OPEN => Vec::new(),
        _ => vec![TURN],
    };
    let reasons = Reasons::choose(rng, of_work, &possible);
    let (mut area, mut tickets) = (pages * 4096, pages * TICKET);
    if reasons.has(AREA) {
        match rng.between(0, 2) {
            0 => area -= 1,
            1 => tickets -= 1,
            _ => (area, tickets) = (0, 0),
        }
    }
    let (instead, of_page) = lent(rng, plain, &reasons);
    let call = Call::Digest {
        area,
        tickets,
        instead,
    };
    (call, reasons.lowest(of_page))
}

fn twin(rng: &mut Rng, plain: &Plain) -> (Call, u8) {
    let pending = pending::all(&plain.state, &plain.page).len();
    let mut possible = possible_of_lent(plain);
    possible.push(INDEX);
    let of_work = match pending {
        0 => vec![INDEX],
        _ => Vec::new(),
    };
    let reasons = Reasons::choose(rng, of_work, &possible);
    let index = if reasons.has(INDEX) {
        [pending, pending + 1, usize::MAX][rng.between(0, 2)]
    } else {
        rng.between(0, pending - 1)
    };
    let (instead, of_page) = lent(rng, plain, &reasons);
    (Call::Twin { index, instead }, reasons.lowest(of_page))
}

/// 7 to 9 of next base and cutoff removal, which test 8 only when the work isn't open.
fn reasons_between_bases(plain: &Plain, allowed: bool) -> (Vec<u8>, Vec<u8>) {
    let state = &plain.state;
    let mut possible = vec![LENGTHS];
    if state.work.filled < state.store.len() {
        possible.push(match state.work.turn {
            OPEN => UNTESTED,
            _ => SOUNDNESS,
        });
    }
    let of_work = if allowed { Vec::new() } else { vec![TURN] };
    (of_work, possible)
}

fn next_base(rng: &mut Rng, plain: &Plain) -> (Call, u8) {
    let work = &plain.state.work;
    let allowed = matches!(work.turn, WAITING | DONE) && work.cut != 0;
    let (of_work, mut possible) = reasons_between_bases(plain, allowed);
    possible.extend([PAGE, BOUNDS]);
    if work.cut != 0 {
        possible.push(LOW);
    }
    let reasons = Reasons::choose(rng, of_work, &possible);
    let separator = if reasons.has(LOW) {
        below(&work.cutoff)
    } else {
        work.cutoff
    };
    let instead = lent_list_and_store(rng, plain, &reasons);
    let (base, cutoff, of_page) = new_base(rng, &reasons, separator);
    let call = Call::Next {
        base,
        cutoff,
        instead,
    };
    (call, reasons.lowest(of_page))
}

fn remove_cutoff(rng: &mut Rng, plain: &Plain) -> (Call, u8) {
    let allowed = plain.state.work.turn == WAITING;
    let (of_work, possible) = reasons_between_bases(plain, allowed);
    let reasons = Reasons::choose(rng, of_work, &possible);
    let instead = lent_list_and_store(rng, plain, &reasons);
    (Call::Uncut { instead }, reasons.lowest(0))
}

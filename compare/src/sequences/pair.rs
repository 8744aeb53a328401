//! The plain functions and the unchanged Rust in one sequence of calls, compared after each; and the library beside the plain
//! functions, on every call, refused ones and those on damaged works among them.

use super::claim::Claim;
use crate::hex;
use crate::oracle::updater::Updater;
use crate::oracle::Key;
use crate::ours::side::Library;
use crate::pages::made;
use crate::plain::pending;
use crate::plain::side::Plain;
use crate::plain::sound::sound;
use crate::random::{Mismatch, Tally, Whose};
use crate::rng::Rng;
use crate::vectors::answers::Answer;
use crate::vectors::calls::Call;
use std::fmt::Debug;
use std::rc::Rc;

/// What a call is due by the sequence's own knowledge: None for accepted, else the refusal's number.
pub type Due = Option<u8>;

pub struct Pair {
    pub plain: Plain,
    rust: Updater,
    pub claim: Claim,
    accepted: Vec<Rc<Call>>,
}

/// The name of a call in the run's tally.
pub fn name(call: &Call) -> &'static str {
    match call {
        Call::Open { .. } => "opening",
        Call::Ingest { .. } => "ingest",
        Call::Digest { .. } => "digest",
        Call::Next { .. } => "next base",
        Call::Uncut { .. } => "cutoff removal",
        Call::Twin { .. } => "twin and part",
        Call::Scope { .. } => "is_in_scope",
        Call::Separator => "separator",
        _ => "twin and part, all pending",
    }
}

impl Pair {
    pub fn new() -> Self {
        Pair {
            plain: Plain::default(),
            rust: Updater::new(None, None),
            claim: Claim::default(),
            accepted: Vec::new(),
        }
    }

    /// A call of the sequence. Accepted, it goes to the Rust too, and everything is compared.
    pub fn run(&mut self, call: Call, due: Due, tally: &mut Tally) -> Result<(), Mismatch> {
        let answer = self.answer(&call, tally)?;
        if let Some(number) = due {
            self.same(&call, "answer", &answer, &Answer::Refused(number))?;
            tally.answered(Whose::Plain, name(&call), number);
            return Ok(());
        }
        self.accept(call, &answer, tally)
    }

    /// A call that may be accepted or refused. Whether it was accepted.
    pub fn run_either(&mut self, call: Call, tally: &mut Tally) -> Result<bool, Mismatch> {
        let answer = self.answer(&call, tally)?;
        if let Answer::Refused(number) = answer {
            tally.answered(Whose::Plain, name(&call), number);
            return Ok(false);
        }
        self.accept(call, &answer, tally)?;
        Ok(true)
    }

    fn accept(&mut self, call: Call, answer: &Answer, tally: &mut Tally) -> Result<(), Mismatch> {
        self.compare(&call, answer)?;
        self.claim.feed(&call, answer);
        let holds = self.claim.holds(&self.plain);
        self.same(&call, "tally of demand 3", &holds, &true)?;
        tally.answered(Whose::Plain, name(&call), 0);
        self.accepted.push(Rc::new(call));
        self.read_after(tally)
    }

    /// What every accepted call is followed by: the separator, the scope of the bounds, and on the library every pending record by
    /// twin and part.
    fn read_after(&mut self, tally: &mut Tally) -> Result<(), Mismatch> {
        let work = &self.plain.state.work;
        let keys = vec![work.cutoff, work.last];
        self.read_bounds(keys, tally)?;
        let library: Library = self.plain.on_side();
        self.dump_of(library, tally)
    }

    fn dump_of(&self, mut library: Library, tally: &mut Tally) -> Result<(), Mismatch> {
        let call = Call::Dump;
        let ours = library.answer(&call);
        let ours = ours.map_err(|damage| self.mismatch(&call, vec![("library", damage.0)]))?;
        let entries = self.plain.entries();
        let pending = pending::all(&self.plain.state, &self.plain.page);
        // one call for each record, and the refused one
        let calls = pending.len() as u64 + 1;
        let due = Answer::Dump { entries, pending };
        self.same(&call, "pending records by twin and part", &due, &ours)?;
        tally.agreed_times(name(&call), calls);
        Ok(())
    }

    /// The same sequence once more, to be gone on with.
    pub fn fork(&self) -> Self {
        Pair {
            plain: self.plain.clone(),
            rust: Updater::of(&self.plain.state, &self.plain.page),
            claim: self.claim.clone(),
            accepted: self.accepted.clone(),
        }
    }

    /// The plain functions' answer. The library, lent the same, must give it too and leave the same.
    fn answer(&mut self, call: &Call, tally: &mut Tally) -> Result<Answer, Mismatch> {
        let mut library: Library = self.plain.on_side();
        let answer = self.plain.answer(call);
        let answer = answer.map_err(|damage| self.mismatch(call, vec![("plain", damage.0)]))?;
        let ours = library.answer(call);
        let ours = ours.map_err(|damage| self.mismatch(call, vec![("library", damage.0)]))?;
        self.same(call, "answer of the library", &answer, &ours)?;
        if self.plain.state != library.state || self.plain.page != library.page {
            let work = (&self.plain.state.work, &library.state.work);
            return Err(self.differ(call, "what the library leaves", &work.0, &work.1));
        }
        tally.answered(Whose::Library, name(call), answer.refusal());
        Ok(answer)
    }

    /// A call on a damaged work, counted for the plain functions too.
    pub fn run_on_damaged(
        damaged: &Plain,
        call: &Call,
        due: Due,
        tally: &mut Tally,
    ) -> Result<(), Mismatch> {
        let number = Pair::answer_on_damaged(damaged, call, due, tally)?.refusal();
        let call = match number {
            0 => "call on a changed work that is still sound",
            _ => "call on a damaged work",
        };
        tally.answered(Whose::Plain, call, number);
        Ok(())
    }

    /// A call on a work that may be unsound. Refused, it must have changed nothing, and where a number is due it must be that one.
    /// Accepted, the work was sound, and the Rust with the same fields must agree.
    pub fn answer_on_damaged(
        damaged: &Plain,
        call: &Call,
        due: Due,
        tally: &mut Tally,
    ) -> Result<Answer, Mismatch> {
        let mut pair = Pair::new();
        pair.plain = match call.instead() {
            Some(instead) => damaged.lent(instead),
            None => damaged.clone(),
        };
        let rust = pair.plain.clone();
        let answer = pair.answer(call, tally)?;
        if let Some(number) = due {
            pair.same(call, "answer", &answer, &Answer::Refused(number))?;
        }
        // what reads the work record alone refuses nothing, so that nothing is known of the work
        let of_record = matches!(call, Call::Scope { .. } | Call::Separator);
        if !of_record && !matches!(answer, Answer::Refused(_)) {
            pair.rust = Updater::of(&rust.state, &rust.page);
            pair.compare(call, &answer)?;
        }
        Ok(answer)
    }

    /// The answer and the work after an accepted call. A twin call changes nothing; the Rust has none.
    fn compare(&mut self, call: &Call, answer: &Answer) -> Result<(), Mismatch> {
        if !matches!(call, Call::Twin { .. }) {
            let rust = self.rust.answer(call);
            if self.judges(&rust) {
                self.same(call, "answer", answer, &rust)?;
            }
        }
        let sound = sound(&self.plain.state, &self.plain.page);
        self.same(call, "soundness after the call", &sound, &true)?;
        self.compare_work(call)?;
        self.compare_list(call)
    }

    /// Whether the Rust's answer is due: where every dropped flagged record is reported, an ingest on which it is silent is not, since it
    /// reports some of them alone.
    fn judges(&self, rust: &Answer) -> bool {
        self.plain.state.work.mode == 0 || *rust != Answer::Report(None)
    }

    fn compare_work(&self, call: &Call) -> Result<(), Mismatch> {
        let work = &self.plain.state.work;
        let rust = &self.rust;
        let gauge = (work.count, work.bytes);
        self.same(call, "gauge", &gauge, &rust.gauge())?;
        self.same(call, "cutoff", &work.cutoff(), &rust.cutoff())?;
        let overriding = (work.over != 0).then_some(work.overriding);
        self.same(call, "override", &overriding, &rust.separator_override())?;
        if work.regards_page() {
            self.same(call, "low", &Some(work.low), &rust.low())?;
        }
        Ok(())
    }

    /// Entries one by one, places of the pending records, and the store's bytes.
    fn compare_list(&mut self, call: &Call) -> Result<(), Mismatch> {
        let state = &self.plain.state;
        let entries = self.plain.entries();
        let pending = pending::all(state, &self.plain.page);
        let ours = Answer::Dump { entries, pending };
        let mut store = self.rust.insert_values();
        store.resize(state.store.len().max(store.len()), 0);
        if state.store != store {
            return Err(self.differ(call, "store", &state.store, &store));
        }
        let rust = self.rust.answer(&Call::Dump);
        self.same(call, "list and pending records", &ours, &rust)
    }

    /// The scope of keys at, below and above the bounds.
    pub fn read(&mut self, rng: &mut Rng, tally: &mut Tally) -> Result<(), Mismatch> {
        let mut keys = vec![[0; 32], [0xff; 32], rng.key()];
        for key in [self.plain.state.work.cutoff, self.plain.state.work.last] {
            keys.extend([key, made::below(&key), made::above(&key)]);
        }
        self.read_bounds(keys, tally)
    }

    /// The calls that read the work record alone.
    fn read_bounds(&mut self, keys: Vec<Key>, tally: &mut Tally) -> Result<(), Mismatch> {
        let mut calls: Vec<Call> = keys.into_iter().map(|key| Call::Scope { key }).collect();
        calls.push(Call::Separator);
        for call in calls {
            let answer = self.answer(&call, tally)?;
            let rust = self.rust.answer(&call);
            self.same(&call, "answer", &answer, &rust)?;
            tally.answered(Whose::Plain, name(&call), 0);
        }
        Ok(())
    }

    fn same<T: PartialEq + Debug>(
        &self,
        call: &Call,
        what: &'static str,
        plain: &T,
        due: &T,
    ) -> Result<(), Mismatch> {
        if plain == due {
            return Ok(());
        }
        Err(self.differ(call, what, plain, due))
    }

    fn differ<T: Debug>(&self, call: &Call, what: &str, plain: &T, due: &T) -> Mismatch {
        let lines = vec![
            ("differs", what.to_string()),
            ("plain", format!("{plain:?}")),
            ("due", format!("{due:?}")),
        ];
        self.mismatch(call, lines)
    }

    /// The sequence so far can be kept as a recorded one.
    fn mismatch(&self, call: &Call, mut lines: Vec<(&'static str, String)>) -> Mismatch {
        let before = self.accepted.iter().map(|call| ("accepted", call.line()));
        let mut all: Vec<_> = before.collect();
        let work = &self.plain.state.work;
        let bounds = [
            work.latest,
            work.cutoff,
            work.overriding,
            work.floor,
            work.last,
        ];
        let bounds = bounds.map(|key| hex::write(&key)).join(" ");
        all.push(("work now", format!("{work:?}")));
        all.push(("its keys", bounds));
        all.push(("call", call.line()));
        all.append(&mut lines);
        Mismatch {
            call: name(call),
            lines: all,
        }
    }
}

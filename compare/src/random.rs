//! `compare random SECONDS SEED`: made-up calls to both sides until the time is up.
//! The calls depend on the seed alone; the time only says where they stop. `compare sequences CALLS SEED`: sequences of calls on a work alone.

use crate::keys;
use crate::lent::Damage;
use crate::melt;
use crate::overflow;
use crate::pages;
use crate::rng::Rng;
use crate::sequences;
use std::collections::BTreeMap;
use std::fmt;
use std::hint::black_box;
use std::process::ExitCode;
use std::time::{Duration, Instant};

/// One round of calls on a subject. A round covers every case of its subject at least once.
type Subject = fn(&mut Rng, &mut Tally) -> Result<(), Mismatch>;

const SUBJECTS: [Subject; 5] = [keys::round, pages::round, melt::round, overflow::round, sequences::round];

/// A call on which the sides differ: its name, and labelled lines with the inputs and what each side gave.
pub struct Mismatch {
    pub call: &'static str,
    pub lines: Vec<(&'static str, String)>,
}

impl Mismatch {
    /// For a call that damaged what it was lent.
    pub fn damage(
        call: &'static str,
        mut inputs: Vec<(&'static str, String)>,
        damage: Damage,
    ) -> Self {
        inputs.push(("ours", damage.0));
        Mismatch {
            call,
            lines: inputs,
        }
    }
}

/// How many calls of each kind agreed, in the order in which the kinds first came.
#[derive(Default)]
pub struct Tally {
    kinds: Vec<Kind>,
}

struct Kind {
    whose: Whose,
    call: &'static str,
    refused: bool,
    count: u64,
    /// How often each refusal was met, where the calls are refused ones.
    refusals: BTreeMap<u8, u64>,
}

/// Whose calls are counted: the library's, or those of the plain functions.
#[derive(Clone, Copy, PartialEq)]
pub enum Whose {
    Library,
    Plain,
}

impl Tally {
    fn kind(&mut self, whose: Whose, call: &'static str, refused: bool) -> &mut Kind {
        let sought = (whose, call, refused);
        let mut kinds = self.kinds.iter();
        let place = kinds.position(|kind| (kind.whose, kind.call, kind.refused) == sought);
        let place = place.unwrap_or_else(|| {
            self.kinds.push(Kind {
                whose,
                call,
                refused,
                count: 0,
                refusals: BTreeMap::new(),
            });
            self.kinds.len() - 1
        });
        &mut self.kinds[place]
    }

    /// A call of the library that was accepted.
    pub fn agreed(&mut self, call: &'static str) {
        self.agreed_times(call, 1);
    }

    pub fn agreed_times(&mut self, call: &'static str, times: u64) {
        self.kind(Whose::Library, call, false).count += times;
    }

    /// A call that was refused by this number, as it had to be, or accepted where the number is 0.
    pub fn answered(&mut self, whose: Whose, call: &'static str, number: u8) {
        let kind = self.kind(whose, call, number != 0);
        kind.count += 1;
        if number != 0 {
            *kind.refusals.entry(number).or_default() += 1;
        }
    }

    #[cfg(test)]
    pub fn refusals(&mut self, whose: Whose, call: &'static str) -> Vec<u8> {
        let kind = self.kind(whose, call, true);
        kind.refusals.keys().copied().collect()
    }

    #[cfg(test)]
    pub fn accepted(&mut self, call: &'static str) -> u64 {
        self.kind(Whose::Library, call, false).count
    }

    pub fn total(&self) -> u64 {
        self.kinds.iter().map(|kind| kind.count).sum()
    }
}

impl fmt::Display for Kind {
    fn fmt(&self, f: &mut fmt::Formatter) -> fmt::Result {
        let whose = match self.whose {
            Whose::Library => "",
            Whose::Plain => "plain ",
        };
        let refused = if self.refused { ", refused" } else { "" };
        write!(f, "{whose}{}{refused}: {}", self.call, self.count)?;
        for (i, (number, count)) in self.refusals.iter().enumerate() {
            let before = if i == 0 { "; by No." } else { "," };
            write!(f, "{before} {number}: {count}")?;
        }
        Ok(())
    }
}

pub fn run(seconds: u64, seed: u64) -> ExitCode {
    let limit = Duration::from_secs(seconds);
    counted(&format!("seed {seed}"), |tally| rounds(limit, seed, tally))
}

/// Sequences alone, for so many calls at least.
pub fn run_sequences(calls: u64, seed: u64) -> ExitCode {
    counted(&format!("seed {seed}"), |tally| {
        let mut rng = Rng::new(seed);
        while tally.total() < calls {
            sequences::round(&mut rng, tally)?;
        }
        Ok(())
    })
}

/// The C library gives freed memory back to the system, and asks for it again, above a size that grows with the largest block freed so
/// far. What is lent is copied for each call, so that more than half of a run would go into that.
pub fn keep_freed_memory() {
    drop(black_box(vec![0u8; 24 << 20]));
}

/// Runs the calls and says how many of each kind agreed, and which one didn't.
pub fn counted(which: &str, calls: impl FnOnce(&mut Tally) -> Result<(), Mismatch>) -> ExitCode {
    keep_freed_memory();
    let mut tally = Tally::default();
    let outcome = calls(&mut tally);
    for kind in &tally.kinds {
        println!("{kind}");
    }
    let passed = tally.total();
    match outcome {
        Ok(()) => {
            println!("{passed} passed, 0 failed");
            ExitCode::SUCCESS
        }
        Err(mismatch) => {
            let number = passed + 1;
            println!("mismatch: {}, {which}, call {number}", mismatch.call);
            for (label, text) in &mismatch.lines {
                println!("  {label:<12} {text}");
            }
            println!("{passed} passed, 1 failed");
            ExitCode::FAILURE
        }
    }
}

/// Whole rounds, at least one, so that even the shortest run meets every case.
pub fn rounds(limit: Duration, seed: u64, tally: &mut Tally) -> Result<(), Mismatch> {
    let start = Instant::now();
    let mut rng = Rng::new(seed);
    keys::equal_keys_make_the_rust_panic(&mut rng, tally)?;
    loop {
        for subject in SUBJECTS {
            subject(&mut rng, tally)?;
        }
        if start.elapsed() >= limit {
            return Ok(());
        }
    }
}

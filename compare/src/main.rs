//! Runs nomt's unchanged leaf updater and the proved static library in one process and compares them.
//!
//! `oracle` is the Rust, `ours` the library, `plain` document 01 written out as a second opinion. `random` makes up
//! calls, `bad` lends spoilt and random bytes, `card` keeps a row of leaves, `melt` weighs trees in rows, `overflow` splits, joins and frees large values, `vectors` replays recorded calls, `bench`
//! times both sides, `record` writes the Rust's answers to a file, `stack` measures the library's stack.
//!
//! Where a further call goes: its declaration in include/, its guarded wrapper in `ours`, its reference in `oracle`, its
//! random inputs in a module like `keys` (listed in `random::SUBJECTS`), its line in `side` and in both sides.

mod bad;
mod bench;
mod card;
mod hex;
mod keys;
#[path = "../../include/leaf_updater.rs"]
mod leaf_updater;
mod lent;
mod melt;
mod oracle;
mod ours;
mod overflow;
mod pages;
mod plain;
mod random;
mod record;
mod rng;
mod sequences;
mod side;
mod stack;
mod vectors;

// The included Rust names these by `crate::beatree` and `crate::io`.
use oracle::{beatree, io};

use ours::side::Library;
use plain::side::Plain;
use rng::Rng;
use std::path::Path;
use std::process::ExitCode;

const USAGE: &str = "\
usage: compare random SECONDS SEED   made-up calls to both sides, for so many seconds
       compare sequences CALLS SEED  made-up sequences of calls on a work, for so many calls
       compare bad CALLS SEED        calls on spoilt and random works, lists, stores and pages
       compare melt ROUNDS SEED      melt sheets of trees in rows that the updater made, beside the plain ones
       compare card LEAVES CHANGES SEED
                                     so many changes on a row of so many leaves
       compare overflow ROUNDS SEED  large values at every page boundary, then so many rounds of random and damaged ones
       compare exhaustive CALLS      every sequence of so many calls over a few keys and sizes
       compare vectors DIR           the recorded call sequences DIR/*.txt
       compare plain DIR             the same on the plain functions in place of the library
       compare stack SECONDS SEED    stack that each call uses, beside what the header says
       compare bench                 times of both sides (build with --profile timing)
       compare growth                how times grow with what is lent (the same)
       compare record DIR            write the Rust's answers to DIR";

fn main() -> ExitCode {
    let words: Vec<String> = std::env::args().skip(1).collect();
    let words: Vec<&str> = words.iter().map(String::as_str).collect();
    match words[..] {
        ["random", seconds, seed] => match (seconds.parse(), seed.parse()) {
            (Ok(seconds), Ok(seed)) => random::run(seconds, seed),
            _ => usage(),
        },
        ["sequences", calls, seed] => match (calls.parse(), seed.parse()) {
            (Ok(calls), Ok(seed)) => random::run_sequences(calls, seed),
            _ => usage(),
        },
        ["bad", calls, seed] => match (calls.parse(), seed.parse()) {
            (Ok(calls), Ok(seed)) => bad::run(calls, seed),
            _ => usage(),
        },
        ["melt", rounds, seed] => match (rounds.parse(), seed.parse()) {
            (Ok(rounds), Ok(seed)) => random::counted(&format!("seed {seed}"), |tally| {
                melt::run(rounds, &mut Rng::new(seed), tally)
            }),
            _ => usage(),
        },
        ["card", leaves, changes, seed] => match (leaves.parse(), changes.parse(), seed.parse()) {
            (Ok(leaves), Ok(changes), Ok(seed)) => card::run(leaves, changes, seed),
            _ => usage(),
        },
        ["overflow", rounds, seed] => match (rounds.parse(), seed.parse()) {
            (Ok(rounds), Ok(seed)) => overflow::run(rounds, seed),
            _ => usage(),
        },
        ["exhaustive", calls] => match calls.parse() {
            Ok(calls) => random::counted("exhaustive", |tally| {
                sequences::exhaustive::run(calls, tally)
            }),
            _ => usage(),
        },
        ["vectors", dir] => vectors::run(Path::new(dir), Library::default),
        ["plain", dir] => vectors::run(Path::new(dir), Plain::default),
        ["stack", seconds, seed] => match (seconds.parse(), seed.parse()) {
            (Ok(seconds), Ok(seed)) => stack::run(seconds, seed),
            _ => usage(),
        },
        ["bench"] => bench::run(),
        ["growth"] => bench::run_growth(),
        ["record", dir] => record::run(Path::new(dir)),
        _ => usage(),
    }
}

fn usage() -> ExitCode {
    eprintln!("{USAGE}");
    ExitCode::from(2)
}

//! `compare bad CALLS SEED`: bad input at scale. Every exported call that takes a work, list, store or page is lent nearly sound ones, in which
//! a field, a byte, an entry or a length is off, and wholly random bytes. Its answer and every lent byte must be what the plain functions
//! have; refused, it must have changed nothing. The two calls on keys alone take any keys; `compare random` has them.

mod pages;
mod reached;
mod spoilt;
mod works;

use crate::random::{counted, Mismatch, Tally};
use crate::rng::Rng;
use reached::Reached;
use std::process::ExitCode;
use std::time::Instant;

/// So many calls at least, counted as the library's: a twin is one, with its parts.
pub fn run(calls: u64, seed: u64) -> ExitCode {
    let start = Instant::now();
    counted(&format!("seed {seed}"), |tally| {
        rounds(calls, seed, tally)?;
        let rate = tally.total() as f64 / start.elapsed().as_secs_f64();
        println!("seed {seed}, {rate:.0} calls a second");
        Ok(())
    })
}

fn rounds(calls: u64, seed: u64, tally: &mut Tally) -> Result<(), Mismatch> {
    let mut rng = Rng::new(seed);
    let mut reached = Reached::new(&mut rng);
    while tally.total() < calls {
        reached.go_on(&mut rng);
        works::run(&mut rng, &reached, tally)?;
        pages::run(&mut rng, tally)?;
    }
    Ok(())
}

#[cfg(test)]
mod tests {
    use super::*;
    use crate::random::Whose;

    /// Which call answers which refusal: a short run meets each of these, and no other; and each call is accepted too.
    #[test]
    fn every_refusal_of_every_call_is_met() {
        let mut tally = Tally::default();
        assert!(rounds(60_000, 1, &mut tally).is_ok());
        let page = [1, 2, 3, 4, 5];
        for (call, more) in [
            ("opening", &[6, 7][..]),
            ("ingest", &[6, 7, 8, 9, 12, 13, 14, 15, 16]),
            ("digest", &[6, 7, 8, 9, 17]),
            ("next base", &[6, 7, 8, 9, 13, 15, 16]),
            ("twin and part", &[6, 7, 8, 10]),
            ("page check", &[]),
            ("page key", &[10]),
            ("page value", &[10]),
            ("page get", &[]),
            ("page values_size", &[10]),
            ("page rebuild", &[10, 17]),
        ] {
            let due = [&page, more].concat();
            assert_eq!(tally.refusals(Whose::Library, call), due, "{call}");
            assert!(tally.accepted(call) > 0, "{call}");
        }
        let removal = "cutoff removal";
        assert_eq!(tally.refusals(Whose::Library, removal), [7, 8, 9]);
        for call in [removal, "is_in_scope", "separator"] {
            assert!(tally.accepted(call) > 0, "{call}");
        }
    }
}

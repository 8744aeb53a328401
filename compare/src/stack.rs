//! `compare stack SECONDS SEED`: how much stack each call uses at most over made-up calls, beside what include/leaf_updater.h says of it.

use crate::oracle::io::PAGE_SIZE;
use crate::oracle::Key;
use crate::ours::side::Library;
use crate::ours::stack::measure;
use crate::plain::digest::{asked, TICKET};
use crate::random::{rounds, Tally};
use crate::vectors::answers::Answer;
use crate::vectors::calls::{Base, Call, Change, Instead};
use std::process::ExitCode;
use std::time::Duration;

const HEADER: &str = include_str!("../../include/leaf_updater.h");
/// The header's numbers are rounded up, so that a few bytes more or less don't matter.
const ROUNDED_TO: usize = 64;
/// What firmware can spare: no call may use more, whatever the header says.
const DIGEST_MOST: usize = 8192;
const OTHERS_MOST: usize = 3072;
/// Lists over which calls are made on purpose, with few entries in use and with many: random calls meet long ones too seldom.
const LISTS: [usize; 3] = [121, 512, 4096];
const FEW: usize = 2;

/// Fails where a call uses more than the header says or than firmware can spare, or wasn't called.
pub fn run(seconds: u64, seed: u64) -> ExitCode {
    let limit = Duration::from_secs(seconds);
    let (outcome, most) = measure(|| {
        for list in LISTS {
            for used in [FEW, list - 1] {
                calls_on_work(list, used, None);
                calls_on_work(list, used, Some([0xff; 32]));
            }
        }
        rounds(limit, seed, &mut Tally::default())
    });
    if let Err(mismatch) = outcome {
        println!(
            "the sides differ at {}; run `compare random`",
            mismatch.call
        );
        return ExitCode::FAILURE;
    }
    let mut wrong = 0;
    for (call, said) in calls(HEADER) {
        let (used, said) = (most.get(call).copied().unwrap_or(0), said.unwrap_or(0));
        let spare = match call {
            "leaf_digest" => DIGEST_MOST,
            _ => OTHERS_MOST,
        };
        let due = used.next_multiple_of(ROUNDED_TO);
        let remark = match said {
            _ if used == 0 => "error: it was not called".to_string(),
            _ if said < used => format!("error: the header says {said}, and is to say {due}"),
            _ if said > spare => {
                format!("error: the header says {said}, and at most {spare} can be spared")
            }
            _ if said > due => format!("the header says {said}; {due} would do"),
            _ => format!("the header says {said}"),
        };
        wrong += usize::from(used == 0 || said < used || said > spare);
        println!("{call:<22} {used:>6} bytes of stack; {remark}");
    }
    if wrong == 0 {
        ExitCode::SUCCESS
    } else {
        ExitCode::FAILURE
    }
}

/// Opens a work, under a cutoff with an empty base, takes `used` keys into it and digests it. Before that the same calls are made with too short an
/// area, and on a copy whose record is damaged, so that each is refused late.
fn calls_on_work(list: usize, used: usize, cutoff: Option<Key>) {
    let mut library = Library::default();
    let base = |separator| Base {
        page: vec![0; PAGE_SIZE],
        separator,
    };
    accepted(
        &mut library,
        Call::Open {
            every: true,
            base: cutoff.map(|_| base([0; 32])),
            cutoff,
            list,
            store: 65536,
        },
    );
    for index in 1..=used {
        accepted(&mut library, ingest(index));
    }
    refused(&mut library, digest(0));
    let mut damaged = library.clone();
    damaged.state.work.count += 1;
    for call in [digest(used), ingest(used + 1), twin(0)] {
        refused(&mut damaged, call);
    }
    accepted(&mut library, twin(used - 1));
    accepted(&mut library, digest(used));
    if let Some(cutoff) = cutoff {
        accepted(
            &mut library,
            Call::Next {
                base: base(cutoff),
                cutoff: None,
                instead: Instead::default(),
            },
        );
    }
}

/// The key with this index, with an empty value.
fn ingest(index: usize) -> Call {
    let mut key = [0; 32];
    key[..2].copy_from_slice(&(index as u16).to_be_bytes());
    Call::Ingest {
        key,
        change: Change::Put {
            value: Vec::new(),
            flag: false,
        },
        instead: Instead::default(),
    }
}

/// A digest with as many pages as so many records without values ask for.
fn digest(records: usize) -> Call {
    let pages = asked(34 * records);
    Call::Digest {
        area: pages * PAGE_SIZE,
        tickets: pages * TICKET,
        instead: Instead::default(),
    }
}

fn twin(index: usize) -> Call {
    Call::Twin {
        index,
        instead: Instead::default(),
    }
}

fn accepted(library: &mut Library, call: Call) {
    let answer = library.answer(&call);
    let refused = matches!(answer, Err(_) | Ok(Answer::Refused(_)));
    assert!(!refused, "{}: {answer:?}", call.line());
}

fn refused(library: &mut Library, call: Call) {
    let answer = library.answer(&call);
    let refused = matches!(answer, Ok(Answer::Refused(_)));
    assert!(refused, "{}: {answer:?}", call.line());
}

/// The header's calls, each with the bytes of stack that the comment over it says.
fn calls(header: &str) -> Vec<(&str, Option<usize>)> {
    let mut calls = Vec::new();
    let mut said = None;
    for line in header.lines() {
        if let Some(comment) = line.strip_prefix(" * ") {
            said = read_stack(comment).or(said);
        } else if let Some(call) = read_call(line) {
            calls.push((call, said.take()));
        }
    }
    calls
}

/// `Stack: 1,024 bytes.`
fn read_stack(comment: &str) -> Option<usize> {
    let number = comment.strip_prefix("Stack: ")?.strip_suffix(" bytes.")?;
    number.replace(',', "").parse().ok()
}

/// The name in the first line of a declaration, as in `uint8_t leaf_open(LeafWork *work,`.
fn read_call(line: &str) -> Option<&str> {
    let (declared, _) = line.split_once('(')?;
    let (_, name) = declared.split_once(' ')?;
    name.starts_with("leaf_").then_some(name)
}

#[cfg(test)]
mod tests {
    use super::*;

    #[test]
    fn the_header_says_a_number_of_every_call() {
        let calls = calls(HEADER);
        assert_eq!(calls.len(), 22);
        for (call, said) in calls {
            assert!(said.is_some(), "{call}");
        }
    }

    #[test]
    fn a_number_belongs_to_the_call_below_it() {
        let header = "/*\n * Stack: 1,024 bytes.\n */\nuint8_t leaf_a(int x,\n    int y);\nvoid leaf_b(int x);\n";
        assert_eq!(calls(header), [("leaf_a", Some(1024)), ("leaf_b", None)]);
    }
}

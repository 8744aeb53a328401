//! `compare vectors DIR`: the recorded sequences DIR/*.txt, run on the library; each answer must be the recorded one, and a
//! malformed line is a failure. `compare plain DIR`: the same on the plain functions.

pub mod answers;
pub mod calls;
mod fields;
mod written;

use crate::lent::Damage;
use answers::{Answer, Line};
use calls::Call;
use std::path::{Path, PathBuf};
use std::process::ExitCode;
use std::{fs, io};

pub enum Outcome {
    Answered(Answer),
    Damaged(Damage),
}

/// What recorded calls are run on. It keeps the sequence's work between them.
pub trait Side {
    fn run(&mut self, call: &Call) -> Outcome;
}

/// A call and its recorded answer, with the call's line.
struct Step<'a> {
    line: Line<'a>,
    call: Call,
    answer: Answer,
}

/// Something wrong, and the number of the line that it is about.
type Failure = (usize, String);

/// Reads a file's text: its steps, and what is malformed.
fn read_steps(text: &str) -> (Vec<Step<'_>>, Vec<Failure>) {
    let mut groups: Vec<(Line, Vec<Line>)> = Vec::new();
    let mut malformed = Vec::new();
    for (number, line) in (1..).zip(text.lines()) {
        if line.starts_with('#') {
            continue;
        }
        if let Some(call) = line.strip_prefix("> ") {
            groups.push(((number, call), Vec::new()));
            continue;
        }
        match (line.strip_prefix("< "), groups.last_mut()) {
            (Some(answer), Some((_, answers))) => answers.push((number, answer)),
            (Some(_), None) => malformed.push((number, "an answer without a call".to_string())),
            (None, _) => malformed.push((number, "none of `#`, `> `, `< `".to_string())),
        }
    }
    let mut steps = Vec::new();
    for (line, answers) in groups {
        match read_step(line, &answers) {
            Ok(step) => steps.push(step),
            Err(failure) => malformed.push(failure),
        }
    }
    (steps, malformed)
}

fn read_step<'a>(line: Line<'a>, answers: &[Line]) -> Result<Step<'a>, Failure> {
    let call = Call::read(line.1).map_err(|why| (line.0, why))?;
    if answers.is_empty() {
        return Err((line.0, "a call without an answer".to_string()));
    }
    let answer = answers::read(&call, answers)?;
    Ok(Step { line, call, answer })
}

#[derive(Default)]
struct Report {
    passed: usize,
    failed: usize,
}

impl Report {
    /// Counts a file's failures and prints the first: those behind it may be its consequences.
    fn fail(&mut self, file: &str, mut failures: Vec<Failure>) {
        self.failed += failures.len();
        failures.sort();
        if let Some((line, why)) = failures.first() {
            let more = match failures.len() - 1 {
                0 => String::new(),
                more => format!(" (and {more} more in this file)"),
            };
            println!("{file}, line {line}: {why}{more}");
        }
    }

    fn finish(self) -> ExitCode {
        // A run that compared nothing shows nothing, so it is no success.
        if self.passed + self.failed == 0 {
            println!("nothing was compared");
        }
        println!("{} passed, {} failed", self.passed, self.failed);
        if self.failed == 0 && self.passed > 0 {
            ExitCode::SUCCESS
        } else {
            ExitCode::FAILURE
        }
    }
}

/// Each file has a side of its own.
pub fn run<S: Side>(dir: &Path, new_side: impl Fn() -> S) -> ExitCode {
    let files = match text_files(dir) {
        Ok(files) => files,
        Err(e) => {
            eprintln!("{}: {e}", dir.display());
            return ExitCode::FAILURE;
        }
    };
    let mut report = Report::default();
    for path in files {
        let name = path.file_name().unwrap_or_default().to_string_lossy();
        match fs::read_to_string(&path) {
            Ok(text) => run_file(&name, &text, &mut new_side(), &mut report),
            Err(e) => report.fail(&name, vec![(0, e.to_string())]),
        }
    }
    report.finish()
}

fn text_files(dir: &Path) -> io::Result<Vec<PathBuf>> {
    let mut files = Vec::new();
    for entry in fs::read_dir(dir)? {
        let path = entry?.path();
        if path.extension().is_some_and(|extension| extension == "txt") {
            files.push(path);
        }
    }
    files.sort();
    Ok(files)
}

fn run_file(name: &str, text: &str, side: &mut impl Side, report: &mut Report) {
    let (steps, mut failures) = read_steps(text);
    for failure in &mut failures {
        failure.1 = format!("malformed: {}", failure.1);
    }
    for step in steps {
        let got = match side.run(&step.call) {
            Outcome::Answered(answer) if answer == step.answer => {
                report.passed += 1;
                continue;
            }
            Outcome::Answered(answer) => answer.lines().join(" | "),
            Outcome::Damaged(damage) => damage.0,
        };
        let expected = step.answer.lines().join(" | ");
        failures.push((step.line.0, difference(step.line.1, &expected, &got)));
    }
    report.fail(name, failures);
}

/// A line about a wrong answer. Long answers are cut to where they begin to differ.
fn difference(call: &str, expected: &str, got: &str) -> String {
    let same = expected.bytes().zip(got.bytes());
    let same = same.take_while(|(left, right)| left == right).count();
    let call = excerpt(call, 0);
    let from = same.saturating_sub(80);
    let (expected, got) = (excerpt(expected, from), excerpt(got, from));
    format!("{call}: expected {expected}, got {got}")
}

fn excerpt(text: &str, from: usize) -> String {
    const LONGEST: usize = 240;
    if text.len() <= LONGEST {
        return text.to_string();
    }
    let part: String = text.chars().skip(from).take(LONGEST).collect();
    format!("[from character {from}] {part}...")
}

#[cfg(test)]
mod tests {
    use super::*;

    const KEY: &str = "(32*00)";

    fn malformed(text: &str) -> Vec<usize> {
        let (_, failures) = read_steps(text);
        failures.iter().map(|(line, _)| *line).collect()
    }

    #[test]
    fn a_malformed_line_is_found() {
        let good =
            format!("# remark\n> scope key={KEY}\n< ok true\n> uncut dirty=3\n< refused 9\n");
        assert_eq!(malformed(&good), []);
        for (bad, line) in [
            ("\n", 1),
            ("< ok\n", 1),
            ("> uncut\n", 1),
            (">uncut\n< ok\n", 1),
            ("> uncu\n< ok\n", 1),
            ("> uncut \n< ok\n", 1),
            ("> uncut page=00\n< ok\n", 1),
            ("> uncut dirty=1 dirty=1\n< ok\n", 1),
            ("> uncut\n< ok done\n", 2),
            ("> uncut\n< refused 18\n", 2),
            ("> uncut\n< refused 9\n< ok\n", 3),
            ("> scope key=00\n< ok true\n", 1),
            (
                "> open base=none sep=(32*00) cutoff=none list=121 store=4096\n< ok\n",
                1,
            ),
            ("> open base=00 cutoff=none list=121 store=4096\n< ok\n", 1),
            (
                "> ingest key=(32*00) delete put=00 flag=0\n< ok report=none\n",
                1,
            ),
            (
                "> digest area=0 tickets=0\n< ok leaves=1 done asked=1\n< tickets empty\n",
                3,
            ),
            ("> digest area=0 tickets=0\n< ok leaves=0 done asked=0\n", 2),
            (
                "> dump\n< pending holder=store off=0 len=0 flag=0 key=(32*00)\n",
                2,
            ),
        ] {
            assert!(malformed(bad).contains(&line), "{bad}");
        }
    }
}

//! `compare bench`: how long a call takes on either side, on the same inputs, by the same driver, in one run. `compare growth`: how the time
//! grows with what is lent.

mod growth;
mod keys;
mod overflow;
mod pages;
mod works;

use std::hint::black_box;
use std::process::ExitCode;
use std::time::Instant;

const SEED: u64 = 1;
/// Odd, so that the median is one of them. The sides take turns within a round.
const ROUNDS: usize = 51;

pub fn run() -> ExitCode {
    timed(|| {
        println!("median of {ROUNDS} rounds, the two sides in turn; lent buffers are not cleared between calls");
        keys::run() && pages::run() && overflow::run() && works::run()
    })
}

pub fn run_growth() -> ExitCode {
    timed(growth::run)
}

/// Timings, in a build for them. They mean nothing if the sides don't agree.
fn timed(agreed: impl FnOnce() -> bool) -> ExitCode {
    if cfg!(debug_assertions) {
        eprintln!("this build has the Rust's checks on; build with --profile timing");
        return ExitCode::from(2);
    }
    if agreed() {
        ExitCode::SUCCESS
    } else {
        println!("the sides differ; times would mean nothing");
        ExitCode::FAILURE
    }
}

/// Times both sides. Each closure goes once through the same `calls` calls.
fn report(call: &str, inputs: &str, calls: usize, mut rust: impl FnMut(), mut ours: impl FnMut()) {
    let (mut rust_times, mut ours_times) = (Vec::new(), Vec::new());
    // The first round warms up and is not counted.
    for round in 0..=ROUNDS {
        let (rust_time, ours_time) = (time(calls, &mut rust), time(calls, &mut ours));
        if round > 0 {
            rust_times.push(rust_time);
            ours_times.push(ours_time);
        }
    }
    print_both(call, inputs, median(rust_times), median(ours_times));
}

/// A call that uses up what it is made on: things are made before the clock starts, `count` of them, and each is used once.
struct UsedUp<Make, Run> {
    count: usize,
    make: Make,
    run: Run,
}

/// Times both sides on things that each call uses up. `check` is our call where it is refused after all that document 01 has checked at
/// every call.
fn report_used_up<R, O>(
    call: &str,
    inputs: &str,
    rust: UsedUp<impl Fn() -> R, impl Fn(&mut R)>,
    ours: UsedUp<impl Fn() -> O, impl Fn(&mut O)>,
    check: Option<impl Fn(&mut O)>,
) {
    let [rust, ours, checked] = medians(&rust, &ours, check.as_ref());
    print_both(call, inputs, rust, ours);
    if check.is_some() {
        let (share, beside) = (100.0 * checked / ours, (ours - checked) / rust);
        println!(
            "{:<14} {:<44} the check {checked:>8.1} ns, {share:.0} %   beside it, ours/Rust {beside:.2}",
            "", ""
        );
    }
}

/// The median times of both sides, and of the check, where there is one.
fn medians<R, O>(
    rust: &UsedUp<impl Fn() -> R, impl Fn(&mut R)>,
    ours: &UsedUp<impl Fn() -> O, impl Fn(&mut O)>,
    check: Option<&impl Fn(&mut O)>,
) -> [f64; 3] {
    let mut times = [Vec::new(), Vec::new(), Vec::new()];
    for round in 0..=ROUNDS {
        let round_times = [
            time_used_up(rust.count, &rust.make, &rust.run),
            time_used_up(ours.count, &ours.make, &ours.run),
            check.map_or(0.0, |check| time_used_up(ours.count, &ours.make, check)),
        ];
        if round > 0 {
            (times.iter_mut().zip(round_times)).for_each(|(all, time)| all.push(time));
        }
    }
    times.map(median)
}

fn time_used_up<T>(calls: usize, make: &impl Fn() -> T, run: &impl Fn(&mut T)) -> f64 {
    let mut all: Vec<T> = (0..calls).map(|_| make()).collect();
    let elapsed = time(calls, &mut || all.iter_mut().for_each(run));
    drop(black_box(all));
    elapsed
}

fn print_both(call: &str, inputs: &str, rust: f64, ours: f64) {
    let ratio = ours / rust;
    println!(
        "{call:<14} {inputs:<44} the Rust {rust:>8.1} ns   ours {ours:>8.1} ns   ours/Rust {ratio:.2}"
    );
}

/// Times a call that has no other side.
fn alone(call: &str, inputs: &str, calls: usize, mut ours: impl FnMut()) {
    let times = (0..=ROUNDS).map(|_| time(calls, &mut ours));
    let ours = median(times.skip(1).collect());
    println!("{call:<14} {inputs:<44} ours {ours:>8.1} ns");
}

/// Nanoseconds for a call.
fn time(calls: usize, all: &mut impl FnMut()) -> f64 {
    let start = Instant::now();
    all();
    start.elapsed().as_nanos() as f64 / calls as f64
}

fn median(mut times: Vec<f64>) -> f64 {
    times.sort_by(f64::total_cmp);
    times[times.len() / 2]
}

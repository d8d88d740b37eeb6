//! Compares the verified library with the independent receiver on generated cases.
//!
//!     compare calls N     at least N calls, always the same cases
//!     compare soak M      for M minutes, from a seed that the clock gives
//!     compare seed S      the cases of one seed
//!
//! A difference is printed with its seed and the shortest case that still shows it. Everything that
//! can be answered must have been reached by the end, or the comparison fails.

mod calls;
mod case;
mod coverage;
mod packets;
mod random;
mod replay;
mod run;
mod single;
mod starts;
mod states;

use std::process::ExitCode;
use std::time::{Duration, Instant, SystemTime, UNIX_EPOCH};

use case::agrees;
use coverage::Coverage;
use random::Random;

fn main() -> ExitCode {
    let words: Vec<String> = std::env::args().skip(1).collect();
    let number = words.get(1).and_then(|word| word.parse::<u64>().ok());
    match (words.first().map(String::as_str), number) {
        (Some("calls"), Some(calls)) => compare(1, |coverage, _| coverage.calls() >= calls),
        (Some("soak"), Some(minutes)) => {
            let seed = SystemTime::now()
                .duration_since(UNIX_EPOCH)
                .map_or(1, |time| time.as_secs() << 24);
            let end = Duration::from_secs(60 * minutes);
            compare(seed, |_, since| since.elapsed() >= end)
        }
        (Some("seed"), Some(seed)) => match cases(seed, &mut Coverage::default()) {
            true => ExitCode::SUCCESS,
            false => ExitCode::FAILURE,
        },
        _ => {
            eprintln!("usage: compare calls N | compare soak MINUTES | compare seed S");
            ExitCode::from(2)
        }
    }
}

fn compare(first: u64, enough: impl Fn(&Coverage, &Instant) -> bool) -> ExitCode {
    let since = Instant::now();
    let mut coverage = Coverage::default();
    let mut seed = first;
    while !enough(&coverage, &since) {
        if !cases(seed, &mut coverage) {
            return ExitCode::FAILURE;
        }
        seed += 1;
    }
    let missing = coverage.print();
    println!(
        "{} seeds, {} calls, in {:.1} s, without a difference",
        seed - first,
        coverage.calls(),
        since.elapsed().as_secs_f64()
    );
    if missing.is_empty() {
        return ExitCode::SUCCESS;
    }
    println!("never reached: {}", missing.join(", "));
    ExitCode::FAILURE
}

/// Compares on the cases of a seed.
fn cases(seed: u64, coverage: &mut Coverage) -> bool {
    let random = &mut Random::new(seed);
    match random.below(20) {
        0..=7 => agrees(
            seed,
            "a run from a fresh state",
            &run::fresh(random),
            coverage,
        ),
        8..=12 => agrees(
            seed,
            "a run from any state",
            &run::any_state(random),
            coverage,
        ),
        13..=15 => (0..4).all(|_| {
            agrees(
                seed,
                "a run from a spoilt state",
                &run::spoilt(random),
                coverage,
            )
        }),
        16 => agrees(seed, "a replay", &replay::trace(random), coverage),
        17 => (0..20).all(|_| agrees(seed, "the reader", &single::read(random), coverage)),
        18 => (0..20).all(|_| agrees(seed, "the writer", &single::write(random), coverage)),
        _ => (0..5).all(|_| {
            agrees(seed, "set-up", &single::set_up(random), coverage)
                && agrees(seed, "a range of a map", &single::mark(random), coverage)
        }),
    }
}

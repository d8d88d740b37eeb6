//! A case to compare on, and the search for the shortest one that still differs.

use std::ops::Range;

use crate::coverage::Coverage;

/// Input for both receivers. What cannot be made shorter keeps the defaults.
pub trait Case: Clone {
    /// All that a receiver answers and changes.
    type Outcome: PartialEq;

    fn reference(&self) -> Self::Outcome;
    fn verified(&self) -> Self::Outcome;
    fn count(&self, outcome: &Self::Outcome, coverage: &mut Coverage);
    /// The input, then where the two outcomes differ.
    fn describe(&self, reference: &Self::Outcome, verified: &Self::Outcome) -> String;

    /// The calls of the case.
    fn calls(&self) -> usize {
        0
    }

    fn without(&self, _calls: Range<usize>) -> Self {
        self.clone()
    }

    /// The case with one thing less in what it starts from, for each such thing.
    fn simpler(&self) -> Vec<Self> {
        Vec::new()
    }
}

/// Compares both receivers on the case. If they differ, prints the shortest case that shows it.
pub fn agrees<C: Case>(seed: u64, kind: &str, case: &C, coverage: &mut Coverage) -> bool {
    let outcome = case.reference();
    if outcome == case.verified() {
        case.count(&outcome, coverage);
        return true;
    }
    let shortest = shortest(case.clone());
    println!("difference at seed {seed} in {kind}; the shortest case that shows it:");
    println!(
        "{}",
        shortest.describe(&shortest.reference(), &shortest.verified())
    );
    false
}

fn differs<C: Case>(case: &C) -> bool {
    case.reference() != case.verified()
}

fn shortest<C: Case>(case: C) -> C {
    let mut case = fewer_calls(case);
    while let Some(simpler) = case.simpler().into_iter().find(differs) {
        case = fewer_calls(simpler);
    }
    case
}

/// Leaves out calls, many at first and then fewer, as long as the difference stays.
fn fewer_calls<C: Case>(mut case: C) -> C {
    let mut step = case.calls();
    while step > 0 {
        let mut place = 0;
        while place < case.calls() {
            let fewer = case.without(place..(place + step).min(case.calls()));
            if differs(&fewer) {
                case = fewer;
            } else {
                place += step;
            }
        }
        step /= 2;
    }
    case
}

pub fn hex(bytes: &[u8]) -> String {
    let digits: Vec<String> = bytes.iter().map(|byte| format!("{byte:02x}")).collect();
    digits.join(" ")
}

/// The first places at which two slices differ, with what each has there.
pub fn differences<T: PartialEq + std::fmt::Debug>(name: &str, a: &[T], b: &[T]) -> String {
    if a.len() != b.len() {
        return format!("{name}: lengths {} and {}\n", a.len(), b.len());
    }
    let places = (0..a.len()).filter(|place| a[*place] != b[*place]);
    places
        .take(8)
        .map(|place| {
            format!(
                "{name} {place}: reference {:?}, verified {:?}\n",
                a[place], b[place]
            )
        })
        .collect()
}

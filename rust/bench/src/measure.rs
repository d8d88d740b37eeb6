//! Times of two that take turns.

use std::time::{Duration, Instant};

pub const REPETITIONS: usize = 31;

/// The times of one receiver for one workload.
pub struct Times(Vec<Duration>);

impl Times {
    pub fn median(&self) -> Duration {
        self.0[self.0.len() / 2]
    }

    /// Median, least and greatest time, in a unit of which a second has this many.
    pub fn spread(&self, units: f64) -> String {
        let in_units = |time: Duration| time.as_secs_f64() * units;
        let median = in_units(self.median());
        let digits = if median < 100.0 { 1 } else { 0 };
        let (least, most) = (self.0[0], self.0[self.0.len() - 1]);
        format!(
            "{median:.digits$} ({:.digits$} to {:.digits$})",
            in_units(least),
            in_units(most)
        )
    }

    /// How many of `count` go into a second, at the median.
    pub fn per_second(&self, count: usize) -> f64 {
        count as f64 / self.median().as_secs_f64()
    }
}

/// Measures two functions in turn, each being the first in every other repetition. A function is
/// given whether it is the verified one, and measures itself, so that it can prepare unmeasured.
pub fn in_turn(mut run: impl FnMut(bool) -> Duration) -> (Times, Times) {
    run(true);
    run(false);
    let (mut verified, mut reference) = (Vec::new(), Vec::new());
    for repetition in 0..REPETITIONS {
        for turn in 0..2 {
            let is_verified = (repetition + turn) % 2 == 0;
            let time = run(is_verified);
            if is_verified {
                verified.push(time);
            } else {
                reference.push(time);
            }
        }
    }
    verified.sort();
    reference.sort();
    (Times(verified), Times(reference))
}

/// The time of `each` over the maps, in so many rounds; every map is cleared before, unmeasured.
pub fn on_clear_maps<const WORDS: usize>(
    maps: &mut [[u64; WORDS]],
    rounds: usize,
    mut each: impl FnMut(&mut [u64; WORDS]),
) -> Duration {
    let mut total = Duration::ZERO;
    for _ in 0..rounds {
        maps.iter_mut().for_each(|map| map.fill(0));
        let since = Instant::now();
        maps.iter_mut().for_each(&mut each);
        total += since.elapsed();
    }
    total
}

/// The verified one's median time over the other's.
pub fn ratio(verified: &Times, reference: &Times) -> f64 {
    verified.median().as_secs_f64() / reference.median().as_secs_f64()
}

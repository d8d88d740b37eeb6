//! Whole runs through both receivers, and the copying of their bytes alone.

use std::hint::black_box;
use std::time::{Duration, Instant};

use reference::packed::{self, ANSWER_WORDS, CALL_WORDS, STATE_WORDS};

use crate::measure::{in_turn, ratio, Times};
use crate::workload::{self, Workload, AREA};

/// What a receiver is lent to be written.
#[derive(Clone, PartialEq)]
pub struct Lent {
    pub state: Vec<u64>,
    pub arena: Vec<u8>,
    pub map: Vec<u64>,
    pub replies: Vec<u8>,
    pub answers: Vec<u64>,
}

impl Lent {
    pub fn new(n: u64, limit: u64, calls: usize) -> Lent {
        let bytes = (n * AREA) as usize;
        let mut lent = Lent {
            state: vec![0; STATE_WORDS],
            arena: vec![0; bytes],
            map: vec![0; bytes / 64],
            replies: vec![0; 24],
            answers: vec![0; calls * ANSWER_WORDS],
        };
        packed::set_up(n, AREA, limit, &lent.arena, &mut lent.map, &mut lent.state)
            .expect("numbers and lengths are right");
        lent
    }

    /// Runs the calls by one of the receivers and gives how many it ran.
    pub fn run(&mut self, verified: bool, calls: &[u64], bytes: &[u8]) -> usize {
        let run = if verified {
            quagfeather::run
        } else {
            packed::run
        };
        run(
            &mut self.state,
            &mut self.arena,
            &mut self.map,
            calls,
            bytes,
            &mut self.replies,
            &mut self.answers,
        )
    }
}

pub fn print() {
    println!(
        "\nRuns. Posts are part of the time, and not counted as packets; bytes are data bytes.\n"
    );
    println!(
        "| Workload | n | L | Verified, µs | Reference, µs | Verified, packets/s | Reference, packets/s \
         | Verified, MB/s | Reference, MB/s | Time, verified/reference |"
    );
    println!("|---|---|---|---|---|---|---|---|---|---|");
    for n in [1, 8] {
        for limit in [8_192, 1_024] {
            let medium = workload::medium(n, limit);
            row(&medium);
            copy_row(&medium);
        }
        row(&workload::eager(n));
        row(&workload::long(n));
    }
}

fn row(workload: &Workload) {
    let (verified, reference) = measured(workload);
    let packets = |times: &Times| format!("{:.0}", times.per_second(workload.packets));
    let bytes = |times: &Times| format!("{:.0}", times.per_second(workload.data()) / 1e6);
    println!(
        "| {} | {} | {} | {} | {} | {} | {} | {} | {} | {:.2} |",
        workload.name,
        workload.n,
        workload.limit,
        verified.spread(1e6),
        reference.spread(1e6),
        packets(&verified),
        packets(&reference),
        bytes(&verified),
        bytes(&reference),
        ratio(&verified, &reference)
    );
}

/// Runs the workload by both in turn. They must leave the same, with every message done.
fn measured(workload: &Workload) -> (Times, Times) {
    let calls = workload.calls.len() / CALL_WORDS;
    let fresh = Lent::new(workload.n, workload.limit, calls);
    let mut sides = [fresh.clone(), fresh.clone()];
    let times = in_turn(|verified| {
        let lent = &mut sides[usize::from(verified)];
        lent.state.copy_from_slice(&fresh.state);
        let since = Instant::now();
        let ran = lent.run(verified, &workload.calls, &workload.bytes);
        let time = since.elapsed();
        assert_eq!(ran, calls);
        time
    });
    assert!(sides[0] == sides[1], "the receivers differ");
    let answers = sides[0].answers.chunks_exact(ANSWER_WORDS);
    assert!(answers.clone().all(|answer| answer[0] != 0));
    let done = answers.filter(|answer| answer[0] == 5).count();
    assert_eq!(done, workload.messages);
    times
}

/// The same segments copied to the same places, and nothing else.
fn copy_row(workload: &Workload) {
    let mut arena = vec![0_u8; (workload.n * AREA) as usize];
    let (one, other) = in_turn(|_| copied(workload, &mut arena));
    let times = if one.median() < other.median() {
        one
    } else {
        other
    };
    println!(
        "| the same bytes by memcpy alone | {} | {} | {} | | {:.0} | | {:.0} | | |",
        workload.n,
        workload.limit,
        times.spread(1e6),
        times.per_second(workload.packets),
        times.per_second(workload.data()) / 1e6
    );
}

fn copied(workload: &Workload, arena: &mut [u8]) -> Duration {
    let since = Instant::now();
    for &(from, to, length) in &workload.segments {
        arena[to..to + length].copy_from_slice(&workload.bytes[from..from + length]);
        black_box(&mut *arena);
    }
    since.elapsed()
}

//! The overlap test and the marks of one segment, by whole words and bit by bit.
//!
//! The verified library goes by word masks at the ends of a range and whole words between; a plain
//! loop over bits does the same here. Both are held against each other before they are timed.

use std::hint::black_box;
use std::time::Instant;

use crate::measure::{in_turn, on_clear_maps, Times};
use crate::workload::AREA;

/// The bytes of the segment.
const COUNT: usize = 8_000;
/// Where it begins: with a word, and within one.
const STARTS: [usize; 2] = [128, 100];
/// Bit by bit takes at least so many times as long.
const WANTED: f64 = 8.0;

const WORDS: usize = AREA as usize / 64;
const MAPS: usize = 64;
const ROUNDS: usize = 20;

type Map = [u64; WORDS];

#[derive(Clone, Copy, PartialEq)]
enum Marking {
    Test,
    Mark,
    Both,
}

const MARKINGS: [(Marking, &str); 3] = [
    (Marking::Test, "overlap test"),
    (Marking::Mark, "marks"),
    (Marking::Both, "overlap test and marks"),
];

/// Prints the table and gives whether every ratio is as high as wanted.
pub fn print() -> bool {
    compare();
    println!(
        "\nOne segment of {COUNT} bytes in a map of {WORDS} words, by whole words (the verified library) \
         and bit by bit (a loop in Rust, by cargo's release profile), in one run on the same maps, \
         cleared before each round, unmeasured.\n"
    );
    println!(
        "| What | From bit | By words, ns | Bit by bit, ns | Time, bit by bit/by words |\n\
         |---|---|---|---|---|"
    );
    let mut least = f64::INFINITY;
    for at in STARTS {
        for (marking, name) in MARKINGS {
            let (words, bits) = measured(marking, at);
            let ratio = bits.median().as_secs_f64() / words.median().as_secs_f64();
            println!(
                "| {name} | {at} | {} | {} | {ratio:.0} |",
                each(&words),
                each(&bits)
            );
            least = least.min(ratio);
        }
        println!(
            "| the segment's bytes copied by memcpy | {at} | {} | | |",
            each(&copies(at))
        );
    }
    if least < WANTED {
        eprintln!(
            "bench: bit by bit takes {least:.1} times as long as by words; wanted is {WANTED}"
        );
    }
    least >= WANTED
}

fn each(times: &Times) -> String {
    times.spread(1e9 / (MAPS * ROUNDS) as f64)
}

/// By whole words. Answers whether the segment was taken.
fn by_words(marking: Marking, map: &mut [u64], at: usize, count: usize) -> bool {
    match marking {
        Marking::Test => quagfeather::overlap_test(map, at, count),
        Marking::Mark => quagfeather::mark_untested(map, at, count),
        Marking::Both => quagfeather::mark(map, at, count),
    }
    .is_ok()
}

/// Bit by bit.
fn by_bits(marking: Marking, map: &mut [u64], at: usize, count: usize) -> bool {
    match marking {
        Marking::Test => !is_touched(map, at, count),
        Marking::Mark => {
            mark(map, at, count);
            true
        }
        Marking::Both => {
            let free = !is_touched(map, at, count);
            if free {
                mark(map, at, count);
            }
            free
        }
    }
}

fn is_touched(map: &[u64], at: usize, count: usize) -> bool {
    (at..at + count).any(|bit| map[bit / 64] >> (bit % 64) & 1 == 1)
}

fn mark(map: &mut [u64], at: usize, count: usize) {
    for bit in at..at + count {
        map[bit / 64] |= 1 << (bit % 64);
    }
}

/// Both do the same: on a clear map, with any one bit set, and on a full one, for ranges of many
/// starts and lengths.
fn compare() {
    let starts = [0, 1, 63, 64, 65, 100, 127, 128, 191];
    let counts = [0, 1, 2, 63, 64, 65, 128, 129, 1_000, COUNT];
    let mut maps: Vec<Map> = vec![[0; WORDS], [u64::MAX; WORDS]];
    maps.extend((0..64 * WORDS).step_by(31).map(|bit| {
        let mut map = [0; WORDS];
        map[bit / 64] = 1 << (bit % 64);
        map
    }));
    for (marking, name) in MARKINGS {
        for at in starts {
            for count in counts {
                for map in &maps {
                    let (mut one, mut other) = (*map, *map);
                    let words = by_words(marking, &mut one, at, count);
                    let bits = by_bits(marking, &mut other, at, count);
                    assert!(
                        words == bits && one == other,
                        "{name} of {count} bits from {at} on differs"
                    );
                }
            }
        }
    }
}

fn measured(marking: Marking, at: usize) -> (Times, Times) {
    let mut sides = [vec![[0; WORDS]; MAPS], vec![[0; WORDS]; MAPS]];
    let times = in_turn(|words| {
        on_clear_maps(&mut sides[usize::from(words)], ROUNDS, |map| {
            let (map, at) = black_box((map, at));
            let taken = if words {
                by_words(marking, map, at, COUNT)
            } else {
                by_bits(marking, map, at, COUNT)
            };
            assert!(taken);
        })
    });
    assert!(sides[0] == sides[1], "by words and bit by bit differ");
    times
}

/// The segment's bytes copied to their place in an area, from a packet for each map.
fn copies(at: usize) -> Times {
    let packets = vec![[1_u8; COUNT]; MAPS];
    let mut area = vec![0; AREA as usize];
    let (one, other) = in_turn(|_| {
        let since = Instant::now();
        for _ in 0..ROUNDS {
            for packet in &packets {
                area[at..at + COUNT].copy_from_slice(black_box(packet));
                black_box(&mut area);
            }
        }
        since.elapsed()
    });
    if one.median() < other.median() {
        one
    } else {
        other
    }
}

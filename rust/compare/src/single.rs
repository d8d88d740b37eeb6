//! Functions that take no list of calls: set-up, reader, writer, overlap test and marks.

use reference::packed::{self, STATE_WORDS, VALUE_WORDS};

use crate::case::{differences, hex, Case};
use crate::coverage::Coverage;
use crate::packets::{self, Values};
use crate::random::Random;
use crate::run;

/// A refusal's number, 0 if there was none.
fn number(result: Result<(), u8>) -> usize {
    result.map_or_else(usize::from, |()| 0)
}

fn verified_number(result: Result<(), usize>) -> usize {
    result.map_or_else(|number| number, |()| 0)
}

#[derive(Clone)]
pub struct SetUp {
    numbers: (u64, u64, u64),
    arena: Vec<u8>,
    map: Vec<u64>,
    state: Vec<u64>,
}

/// A set-up, mostly with one number or length that may be wrong.
pub fn set_up(random: &mut Random) -> SetUp {
    let (mut n, mut area, mut limit) = run::numbers(random);
    let mut bytes = n * area;
    let mut words = bytes / 64;
    let mut state = STATE_WORDS;
    match random.below(8) {
        0 => n = random.pick(&[0, 1, 8, 9, u64::MAX, 1 << 32]),
        1 => area = random.pick(&[0, 32, 63, 65, 8_256, u64::MAX, 1 << 63]),
        2 => limit = random.pick(&[0, 63, 8_192, 8_193, u64::MAX]),
        3 => bytes = random.pick(&[0, bytes - 1, bytes + 1, 64]),
        4 => words = random.pick(&[0, words - 1, words + 1, 64 * words]),
        5 => state = random.pick(&[0, 3, STATE_WORDS - 1, STATE_WORDS + 1]),
        _ => {}
    }
    if random.chance(30) && n <= 9 && area <= 8_256 {
        // the lengths that the wrong numbers would ask for
        (bytes, words) = (n * area, n * area / 64);
    }
    SetUp {
        numbers: (n, area, limit),
        arena: random.bytes(bytes as usize),
        map: random.map(words as usize),
        state: (0..state).map(|_| random.next()).collect(),
    }
}

impl Case for SetUp {
    type Outcome = (usize, Vec<u64>, Vec<u64>);

    fn reference(&self) -> Self::Outcome {
        let (n, area, limit) = self.numbers;
        let (mut map, mut state) = (self.map.clone(), self.state.clone());
        let result = packed::set_up(n, area, limit, &self.arena, &mut map, &mut state);
        (number(result), map, state)
    }

    fn verified(&self) -> Self::Outcome {
        let (n, area, limit) = self.numbers;
        let (mut map, mut state) = (self.map.clone(), self.state.clone());
        let result = quagfeather::set_up(
            n as usize,
            area as usize,
            limit as usize,
            &self.arena,
            &mut map,
            &mut state,
        );
        (verified_number(result), map, state)
    }

    fn count(&self, outcome: &Self::Outcome, coverage: &mut Coverage) {
        coverage.result("set-up", outcome.0 as u64);
    }

    fn describe(&self, reference: &Self::Outcome, verified: &Self::Outcome) -> String {
        let (arena, map, state) = (self.arena.len(), self.map.len(), self.state.len());
        format!(
            "numbers {:?}, arena {arena}, map {map}, state {state}\nreference {}, verified {}\n",
            self.numbers, reference.0, verified.0
        ) + &differences("map word", &reference.1, &verified.1)
            + &differences("state word", &reference.2, &verified.2)
    }
}

#[derive(Clone)]
pub struct Read {
    packet: Vec<u8>,
    values: Vec<u64>,
}

/// A packet for the reader alone: as written, damaged, or nothing but its first bytes right.
pub fn read(random: &mut Random) -> Read {
    let mut packet = packets::bytes_of(&packets::values(random));
    match random.below(10) {
        0..=3 => {}
        4 => {
            let count = random.below(60) as usize;
            packet.truncate(4);
            packet.extend(random.bytes(count));
        }
        _ => packets::damage(random, &mut packet),
    }
    let length = if random.chance(10) {
        random.below(25) as usize
    } else {
        VALUE_WORDS
    };
    Read {
        packet,
        values: (0..length).map(|_| random.next()).collect(),
    }
}

impl Case for Read {
    type Outcome = (usize, Vec<u64>);

    fn reference(&self) -> Self::Outcome {
        let mut values = self.values.clone();
        (number(packed::read(&self.packet, &mut values)), values)
    }

    fn verified(&self) -> Self::Outcome {
        let mut values = self.values.clone();
        let result = quagfeather::read(&self.packet, &mut values);
        (verified_number(result), values)
    }

    fn count(&self, outcome: &Self::Outcome, coverage: &mut Coverage) {
        coverage.result("read", outcome.0 as u64);
        if packets::empty_start(&self.packet).is_some() {
            coverage.result("read of an empty start", outcome.0 as u64);
        }
    }

    fn describe(&self, reference: &Self::Outcome, verified: &Self::Outcome) -> String {
        format!(
            "packet {}\n{} values\nreference {}, verified {}\n",
            hex(&self.packet),
            self.values.len(),
            reference.0,
            verified.0
        ) + &differences("value", &reference.1, &verified.1)
    }
}

#[derive(Clone)]
pub struct Write {
    values: Values,
    out: Vec<u8>,
    /// What stands where the packet's length goes.
    length: usize,
}

/// Values for the writer alone, of a packet or spoilt, and a buffer about as long as it needs.
pub fn write(random: &mut Random) -> Write {
    let mut values = packets::values(random);
    let length = packets::bytes_of(&values).len() as u64;
    if random.chance(50) {
        packets::spoil(random, &mut values);
    }
    let out = match random.below(6) {
        0 => random.below(length + 1),
        1 => length,
        _ => length + random.below(40),
    };
    Write {
        values,
        out: random.bytes(out as usize),
        length: random.next() as usize,
    }
}

impl Case for Write {
    /// The refusal, the packet's length and the buffer.
    type Outcome = (usize, usize, Vec<u8>);

    fn reference(&self) -> Self::Outcome {
        let mut out = self.out.clone();
        let Values {
            words,
            address,
            data,
        } = &self.values;
        match packed::write(words, address, data, &mut out) {
            Ok(length) => (0, length, out),
            Err(number) => (number.into(), self.length, out),
        }
    }

    fn verified(&self) -> Self::Outcome {
        let mut out = self.out.clone();
        let mut length = self.length;
        let Values {
            words,
            address,
            data,
        } = &self.values;
        let result = quagfeather::write(words, address, data, &mut out, &mut length);
        (verified_number(result), length, out)
    }

    fn count(&self, outcome: &Self::Outcome, coverage: &mut Coverage) {
        coverage.result("write", outcome.0 as u64);
        let words = &self.values.words;
        let wide = |place: usize| words.get(place).is_some_and(|word| word >> 32 != 0);
        if [1, 2, 3, 8].into_iter().any(wide) {
            coverage.result("write of a wide field", outcome.0 as u64);
        } else if wide(16) {
            coverage.result("write of a wide connid", outcome.0 as u64);
        } else if self.values.are_empty_start() {
            coverage.result("write of an empty start", outcome.0 as u64);
        }
    }

    fn describe(&self, reference: &Self::Outcome, verified: &Self::Outcome) -> String {
        format!(
            "values {:?}\naddress {}\ndata {}\nbuffer of {}\n\
             reference {}, length {}; verified {}, length {}\n",
            self.values.words,
            hex(&self.values.address),
            hex(&self.values.data),
            self.out.len(),
            reference.0,
            reference.1,
            verified.0,
            verified.1
        ) + &differences("byte", &reference.2, &verified.2)
    }
}

/// What is done with a range of a map.
#[derive(Clone, Copy)]
enum Marking {
    Test,
    Mark,
    Both,
}

impl Marking {
    fn name(self) -> &'static str {
        match self {
            Marking::Test => "overlap test",
            Marking::Mark => "mark untested",
            Marking::Both => "mark",
        }
    }
}

#[derive(Clone)]
pub struct Mark {
    marking: Marking,
    map: Vec<u64>,
    at: usize,
    count: usize,
}

/// A range of a map, mostly inside it.
pub fn mark(random: &mut Random) -> Mark {
    let words = random.pick(&[0, 1, 2, 3, 16, 128, 1_023, 1_024, 1_025]);
    let map = random.map(words);
    let bits = 64 * words as u64;
    let at = random.below(bits + 1);
    let left = bits - at;
    let count = match random.below(5) {
        0 => left,
        1 => random.pick(&[0, left + 1, u64::MAX, u64::MAX - at + 1]),
        _ => random.below(left.min(200) + 1),
    };
    let at = if random.chance(3) { random.wild() } else { at };
    Mark {
        marking: random.pick(&[Marking::Test, Marking::Mark, Marking::Both]),
        map,
        at: at as usize,
        count: count as usize,
    }
}

impl Case for Mark {
    type Outcome = (usize, Vec<u64>);

    fn reference(&self) -> Self::Outcome {
        let mut map = self.map.clone();
        let result = match self.marking {
            Marking::Test => packed::overlap_test(&map, self.at, self.count),
            Marking::Mark => packed::mark_untested(&mut map, self.at, self.count),
            Marking::Both => packed::mark(&mut map, self.at, self.count),
        };
        (number(result), map)
    }

    fn verified(&self) -> Self::Outcome {
        let mut map = self.map.clone();
        let result = match self.marking {
            Marking::Test => quagfeather::overlap_test(&map, self.at, self.count),
            Marking::Mark => quagfeather::mark_untested(&mut map, self.at, self.count),
            Marking::Both => quagfeather::mark(&mut map, self.at, self.count),
        };
        (verified_number(result), map)
    }

    fn count(&self, outcome: &Self::Outcome, coverage: &mut Coverage) {
        coverage.result(self.marking.name(), outcome.0 as u64);
    }

    fn describe(&self, reference: &Self::Outcome, verified: &Self::Outcome) -> String {
        format!(
            "{}: map of {} words, {} bits from {} on\nreference {}, verified {}\n",
            self.marking.name(),
            self.map.len(),
            self.count,
            self.at,
            reference.0,
            verified.0
        ) + &differences("map word", &reference.1, &verified.1)
    }
}

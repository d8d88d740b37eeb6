//! Replays of generated traces.

use std::ops::Range;

use reference::engine;
use reference::replay;
use reference::trace::{read_entry, write_entry, write_set_up, Entry};

use crate::calls::{Call, Guide, Kinds};
use crate::case::{hex, Case};
use crate::coverage::{answer_in, Coverage, EMPTY_IN_REPLAY};
use crate::random::Random;
use crate::run;
use crate::starts::Starts;

/// The entries that one replay takes at most.
const BUDGET: usize = 512;
/// The largest set-up: eight peers with areas of 8,192 bytes.
const ARENA: usize = 65_536;

/// A trace in parts, so that entries can be left out: the set-up numbers, then each entry.
#[derive(Clone)]
pub struct Trace {
    set_up: Vec<u8>,
    entries: Vec<Vec<u8>>,
}

/// A trace of at most some entries more than a replay takes.
pub fn trace(random: &mut Random) -> Trace {
    if random.chance(10) {
        return odd_set_up(random);
    }
    let (n, area, limit) = run::numbers(random);
    let mut set_up = Vec::new();
    write_set_up(n, area, limit, &mut set_up);
    let bytes = (n * area) as usize;
    let mut map = vec![0; bytes / 64];
    let engine = engine::set_up(n, area, limit, bytes, &mut map).expect("the lengths are right");
    let count = random.pick(&[20, 100, 300, BUDGET + 3]);
    let mut guide = Guide::new(random, engine, vec![0; bytes], map, Kinds::Trace);
    let mut entries: Vec<Vec<u8>> = (0..count).map(|_| entry(&guide.next())).collect();
    if random.chance(20) {
        // a last entry that may be bad, and bytes behind it
        let last = random.within(1, 12) as usize;
        entries.push(random.bytes(last));
    }
    Trace { set_up, entries }
}

/// Set-up numbers that are outside the limits, or malformed.
fn odd_set_up(random: &mut Random) -> Trace {
    let mut set_up = Vec::new();
    if random.chance(50) {
        let n = random.pick(&[0, 1, 8, 9, u64::MAX]);
        let area = random.pick(&[0, 63, 64, 65, 8_192, 8_256, 1 << 40]);
        let limit = random.pick(&[0, 63, 64, 8_192, 8_193, 1 << 63]);
        write_set_up(n, area, limit, &mut set_up);
    } else {
        let count = random.below(8) as usize;
        set_up = random.bytes(count);
    }
    Trace {
        set_up,
        entries: Vec::new(),
    }
}

fn entry(call: &Call) -> Vec<u8> {
    let entry = match call {
        Call::Post { peer, receive } => Entry::Post {
            peer: *peer,
            receive: *receive,
        },
        Call::Packet { peer, bytes, .. } => Entry::Packet { peer: *peer, bytes },
        Call::Cancel { peer, slot } => Entry::Cancel {
            peer: *peer,
            slot: *slot,
        },
        Call::Report { .. } => unreachable!("a trace has no reports"),
    };
    let mut bytes = Vec::new();
    write_entry(&entry, &mut bytes);
    bytes
}

impl Trace {
    fn bytes(&self) -> Vec<u8> {
        [self.set_up.clone(), self.entries.concat()].concat()
    }
}

impl Case for Trace {
    /// The text.
    type Outcome = Vec<u8>;

    fn reference(&self) -> Vec<u8> {
        replay::replay(&self.bytes(), BUDGET).text
    }

    fn verified(&self) -> Vec<u8> {
        let mut arena = vec![0; ARENA];
        let mut map = vec![0; ARENA / 64];
        // its first and last line, and a line for each entry
        let mut text = vec![0; 64 + 80 * BUDGET];
        let written = quagfeather::replay(
            &self.bytes(),
            BUDGET,
            &mut arena,
            &mut map,
            &mut [0; quagfeather::REPLY_LENGTH],
            &mut text,
        );
        text.truncate(written);
        text
    }

    fn count(&self, outcome: &Vec<u8>, coverage: &mut Coverage) {
        coverage.text(outcome);
        let mut starts = Starts::in_place(EMPTY_IN_REPLAY);
        let text = String::from_utf8_lossy(outcome);
        // the line of the set-up is no entry's
        for (entry, line) in self.entries.iter().zip(text.lines().skip(1)) {
            let entry = read_entry(entry, 0).map(|(entry, _)| entry);
            if let (Some(Entry::Packet { peer, bytes }), Some(answer)) = (entry, answer_in(line)) {
                starts.packet(peer, bytes, &answer, coverage);
            }
        }
    }

    fn calls(&self) -> usize {
        self.entries.len()
    }

    fn without(&self, calls: Range<usize>) -> Trace {
        let mut trace = self.clone();
        trace.entries.drain(calls);
        trace
    }

    fn describe(&self, reference: &Vec<u8>, verified: &Vec<u8>) -> String {
        let entries: String = self
            .entries
            .iter()
            .map(|entry| format!("entry  {}\n", hex(entry)))
            .collect();
        format!(
            "set-up {}\n{entries}reference:\n{}verified:\n{}",
            hex(&self.set_up),
            String::from_utf8_lossy(reference),
            String::from_utf8_lossy(verified)
        )
    }
}

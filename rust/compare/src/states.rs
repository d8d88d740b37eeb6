//! States that no run reaches: ones that can be, and ones that can't.

use reference::engine::{Engine, Message, Peer, Receive, Slot, SLOTS};
use reference::packed::{self, PEER_WORDS, SLOT_WORDS, STATE_WORDS};
use reference::packet::Shape;

use crate::calls::tag;
use crate::random::Random;

/// An id for next, often one at which the ids' circle closes or turns.
pub fn next_id(random: &mut Random) -> u32 {
    let any = random.next() as u32;
    let edge: u32 = random.pick(&[0, 0x8000_0000, any]);
    edge.wrapping_add(random.below(8) as u32).wrapping_sub(4)
}

/// A state that can be, but for a rare double age or id. Peers from n on have slots too.
pub fn any(random: &mut Random, n: u64, area: u64, limit: u64) -> Vec<u64> {
    let mut engine = Engine {
        n,
        area,
        limit,
        ..Engine::IMPOSSIBLE
    };
    for peer in &mut engine.peers {
        *peer = any_peer(random, area);
    }
    let mut words = vec![0; STATE_WORDS];
    packed::write_state(&engine, &mut words);
    words
}

fn any_peer(random: &mut Random, area: u64) -> Peer {
    let mut peer = Peer {
        next: next_id(random),
        ..Peer::FRESH
    };
    let busy = random.pick(&[20, 60, 100]);
    for number in 0..SLOTS {
        if random.chance(busy) {
            peer.slots[number] = any_slot(random, area, number as u64, peer.next);
        }
    }
    peer
}

fn any_slot(random: &mut Random, area: u64, number: u64, next: u32) -> Slot {
    // each slot has an eighth of the area for itself
    let part = area / 8;
    let inset = random.pick(&[0, 0, 1]);
    let room = part - inset;
    let capacity = random.pick(&[room, room, room / 2, 0]);
    let receive = Receive {
        tagged: random.chance(50),
        tag: tag(random),
        ignore: random.pick(&[0, 0x0F, u64::MAX]),
        start: number * part + inset,
        capacity,
    };
    if random.chance(50) {
        let age = random.pick(&[number, 100 - number, u64::MAX - number, 1 << (7 * number)]);
        return Slot::Posted { receive, age };
    }
    let length = random.pick(&[capacity, capacity / 2, capacity.min(3)]);
    let message = Message {
        shape: random.pick(&[
            Shape::Medium,
            Shape::Long,
            Shape::Medium,
            Shape::Long,
            Shape::Eager,
            Shape::CtsData,
            Shape::Cts,
        ]),
        tagged: random.chance(50),
        id: next.wrapping_sub(number as u32 + 1 - random.below(2) as u32),
        tag: tag(random),
        length,
        granted: random.pick(&[length, length / 2, 1.min(length), 0]),
        send_id: random.next() as u32,
        credit_request: random.pick(&[0, 1, 2, 16, 17, u32::MAX]),
        cq_data: random.chance(50).then(|| random.wild()),
    };
    Slot::Open { receive, message }
}

/// Changes words of a state, mostly so that it can't be.
pub fn spoil(random: &mut Random, state: &mut Vec<u64>) {
    let peer = 3 + PEER_WORDS * random.below(8) as usize;
    match random.below(12) {
        // two open messages with one id, two posted receives of one age, overlapping ranges
        0 => repeat(random, state, peer, OPEN, 8),
        1 => repeat(random, state, peer, POSTED, 6),
        2 => {
            let phase = random.pick(&[POSTED, OPEN]);
            repeat(random, state, peer, phase, 4);
        }
        // beyond the area, the capacity or the length
        3 => {
            let used = slot_in(random, state, peer, POSTED);
            state[used + 4 + random.below(2) as usize] = random.wild();
        }
        4 | 5 => {
            let open = slot_in(random, state, peer, OPEN);
            let (above, limit) = random.pick(&[(10, 5), (11, 10)]);
            let past = random.pick(&[1, 1, u64::MAX]);
            state[open + above] = state[open + limit].wrapping_add(past);
        }
        // numbers outside the limits
        6 => state[0] = random.pick(&[0, 9, u64::MAX]),
        7 => state[1] = random.pick(&[0, 32, 65, 8_256, 1 << 63, u64::MAX]),
        8 => state[2] = random.pick(&[0, 63, 8_193, u64::MAX]),
        // a form that no state has
        9 | 10 => {
            let phase = random.pick(&[FREE, POSTED, OPEN]);
            let slot = slot_in(random, state, peer, phase);
            let word = random.below(SLOT_WORDS as u64) as usize;
            let place = random.pick(&[peer, slot + word, slot + word]);
            state[place] = random.wild();
        }
        _ => {
            let length = random.pick(&[0, 3, STATE_WORDS - 1, STATE_WORDS + 1]);
            state.resize(length, random.below(2));
        }
    }
}

const FREE: u64 = 0;
const POSTED: u64 = 1;
const OPEN: u64 = 2;

/// Where the words of one of the peer's slots in this phase begin, of any slot if there is none.
fn slot_in(random: &mut Random, state: &[u64], peer: usize, phase: u64) -> usize {
    let slots = (peer + 1..peer + PEER_WORDS).step_by(SLOT_WORDS);
    let all: Vec<usize> = slots.collect();
    let those: Vec<usize> = all
        .iter()
        .copied()
        .filter(|slot| state[*slot] == phase)
        .collect();
    random.pick(if those.is_empty() { &all } else { &those })
}

/// Makes a word of one slot equal to that of another in the same phase.
fn repeat(random: &mut Random, state: &mut [u64], peer: usize, phase: u64, word: usize) {
    let one = slot_in(random, state, peer, phase);
    let other = slot_in(random, state, peer, phase);
    state[one + word] = state[other + word];
}

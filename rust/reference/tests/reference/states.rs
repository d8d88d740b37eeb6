//! States that no run reaches: which are refused, and what the others answer.

use reference::engine::{Answer::*, Message, Peer, Receive, Slot};
use reference::packet::{Shape, TABLE};

use crate::support::*;

fn posted(start: u64, capacity: u64, age: u64) -> Slot {
    Slot::Posted {
        receive: plain(start, capacity),
        age,
    }
}

fn open(start: u64, capacity: u64, id: u32, length: u64, granted: u64) -> Slot {
    let message = Message {
        shape: Shape::Long,
        tagged: false,
        id,
        tag: 0,
        length,
        granted,
        send_id: 0,
        credit_request: 0,
        cq_data: None,
    };
    Slot::Open {
        receive: plain(start, capacity),
        message,
    }
}

/// Whether all four calls refuse the state with 2. They must agree, and change nothing.
fn refused(r: &Receiver) -> bool {
    let mut after = r.clone();
    let answers = [
        after.post(9, 0, 0),
        after.packet(9, &[]),
        after.cancel(9, 9),
        after.report(9, 9),
    ];
    assert_eq!(&after, r);
    assert!(answers.iter().all(|answer| *answer == answers[0]));
    assert!(matches!(answers[0], Refused(2) | Refused(4)));
    answers[0] == Refused(2)
}

/// A receiver with these slots at a peer, the other slots free.
fn with_slots(peer: usize, slots: &[Slot]) -> Receiver {
    placed(peer, slots, 1, 0)
}

/// The same with the slots at other places: from `first` on, each `step` after the one before. An
/// odd step reaches all of them, so all pairs of places come up.
fn placed(peer: usize, slots: &[Slot], step: usize, first: usize) -> Receiver {
    let mut r = Receiver::usual();
    for (number, slot) in slots.iter().enumerate() {
        r.engine.peers[peer].slots[(first + number * step) % 8] = *slot;
    }
    r
}

/// Every way of `placed`.
fn everywhere(peer: usize, slots: &[Slot]) -> Vec<Receiver> {
    (1..8)
        .filter(|step| step % 2 == 1 || slots.len() <= 2)
        .flat_map(|step| (0..8).map(move |first| placed(peer, slots, step, first)))
        .collect()
}

#[test]
fn slots_that_cannot_be() {
    let most = u64::MAX;
    let wrong: [&[Slot]; 19] = [
        &[posted(0, 257, 0)],
        &[posted(257, 0, 0)],
        &[posted(1, 256, 0)],
        &[posted(most, 1, 0)],
        &[posted(most, most, 0)],
        &[posted(1, most, 0)],
        &[open(0, 257, 0, 0, 0)],
        &[open(257, 0, 0, 0, 0)],
        &[open(2, most, 0, 0, 0)],
        &[posted(0, 10, 0), posted(9, 1, 1)],
        &[posted(0, 10, 0), open(0, 1, 0, 1, 1)],
        &[open(5, 20, 1, 1, 1), open(3, 3, 0, 1, 1)],
        &[posted(0, 1, 7), posted(1, 1, 7)],
        &[posted(0, 1, most), posted(1, 1, 3), posted(2, 0, most)],
        &[open(0, 1, 7, 1, 1), open(1, 1, 7, 1, 1)],
        &[
            open(0, 0, 7, 0, 0),
            open(1, 0, 6, 0, 0),
            open(1, 1, 7, 1, 1),
        ],
        &[open(0, 10, 0, 11, 1)],
        &[open(0, 10, 0, 9, 10)],
        &[open(0, 10, 0, most, most)],
    ];
    for (number, slots) in wrong.iter().enumerate() {
        for peer in 0..2 {
            for r in everywhere(peer, slots) {
                assert!(refused(&r), "case {number}, peer {peer}");
            }
        }
        // Peers from n on are not looked at.
        assert!(!refused(&with_slots(2, slots)), "case {number}");
    }
}

#[test]
fn slots_that_can_be() {
    let right: [&[Slot]; 8] = [
        &[posted(0, 256, u64::MAX)],
        &[posted(256, 0, 0)],
        &[open(256, 0, u32::MAX, 0, 0)],
        &[open(0, 256, 0, 256, 256)],
        &[posted(0, 10, 0), posted(10, 1, 1)],
        &[
            posted(0, 10, 0),
            posted(5, 0, 1),
            open(5, 0, 1, 0, 0),
            open(10, 246, 0, 0, 0),
        ],
        &[posted(0, 1, 7), open(1, 1, 7, 1, 1)],
        &[open(0, 10, 3, 5, 0), posted(10, 10, 9)],
    ];
    for (number, slots) in right.iter().enumerate() {
        for r in everywhere(0, slots) {
            assert!(!refused(&r), "case {number}");
        }
    }
    // Two peers may have the same.
    let mut r = with_slots(0, &[posted(0, 10, 0), open(20, 9, 1, 9, 9)]);
    r.engine.peers[1] = r.engine.peers[0];
    assert!(!refused(&r));
}

#[test]
fn a_granted_end_above_the_length_counts_for_every_kind() {
    for row in &TABLE {
        for (granted, wrong) in [(10, false), (11, true)] {
            let mut slot = open(0, 100, 0, 10, granted);
            if let Slot::Open { message, .. } = &mut slot {
                message.shape = row.shape;
                message.tagged = row.tagged;
            }
            assert_eq!(refused(&with_slots(0, &[slot])), wrong);
        }
    }
}

#[test]
fn set_up_numbers_outside_the_limits() {
    for n in [0, 9, u64::MAX] {
        let mut r = Receiver::usual();
        r.engine.n = n;
        assert!(refused(&r), "n {n}");
    }
    for area in [0, 63, 100, 8_256, u64::MAX - 63] {
        let mut r = Receiver::usual();
        r.engine.area = area;
        assert!(refused(&r), "A {area}");
    }
    for limit in [0, 63, 8_193, u64::MAX] {
        let mut r = Receiver::usual();
        r.engine.limit = limit;
        assert!(refused(&r), "L {limit}");
    }
}

/// Any state, any map and any call: no panic, and a refusal leaves all as it was.
#[test]
fn any_state_gets_an_answer() {
    let mut random = Random::new(5);
    let mut kinds = [0; 9];
    for _ in 0..300_000 {
        let mut r = Receiver::usual();
        for peer in 0..2 {
            r.engine.peers[peer] = any_peer(&mut random);
        }
        for word in &mut r.map {
            *word = if random.chance(3) {
                u64::MAX
            } else {
                random.next()
            };
        }
        if random.chance(2) {
            r.map.fill(0);
        }
        let before = r.clone();
        let peer = random.below(3);
        let answer = match random.below(8) {
            0 => r.post(peer, random.below(250), random.below(12)),
            1 => r.cancel(peer, random.below(9)),
            2 => r.report(peer, random.below(9)),
            _ => {
                let bytes = any_packet(&mut random);
                r.packet(peer, &bytes)
            }
        };
        kinds[match answer {
            Refused(2) => 0,
            Refused(_) => 1,
            Posted(_) => 2,
            Cancelled(_) => 3,
            Stored => 4,
            Granted(_) => 5,
            Done { .. } => 6,
            Truncated { .. } => 7,
            Missing { .. } => 8,
        }] += 1;
        match answer {
            Refused(_) | Missing { .. } => assert_eq!(r, before),
            Granted(_) => assert_ne!(r.reply, before.reply),
            _ => assert_eq!(r.reply, before.reply),
        }
        // A state that can be is followed by one that can be.
        if answer != Refused(2) {
            assert!(!refused(&r), "{before:?} {answer:?}");
        }
        // Only the call's own peer changes.
        let other = 1 - peer.min(1) as usize;
        if peer < 2 {
            assert_eq!(r.engine.peers[other], before.engine.peers[other]);
            let bytes = other * 256..other * 256 + 256;
            assert_eq!(r.arena[bytes.clone()], before.arena[bytes]);
            let words = other * 4..other * 4 + 4;
            assert_eq!(r.map[words.clone()], before.map[words]);
        }
    }
    assert!(
        kinds.iter().all(|count| *count > 300),
        "answers too rare: {kinds:?}"
    );
}

pub fn any_peer(random: &mut Random) -> Peer {
    let mut peer = Peer {
        next: random.below(4) as u32,
        ..Peer::FRESH
    };
    for (number, slot) in peer.slots.iter_mut().enumerate() {
        let start = number as u64 * 30 + random.below(10);
        let capacity = if random.chance(150) {
            random.any()
        } else {
            random.below(20)
        };
        let receive = Receive {
            tagged: random.chance(2),
            tag: random.below(2),
            ignore: random.below(2),
            start,
            capacity,
        };
        *slot = match random.below(3) {
            0 => Slot::Free,
            1 => Slot::Posted {
                receive,
                age: if random.chance(150) { 3 } else { random.next() },
            },
            _ => {
                let length = random.below(capacity.saturating_add(1).max(1));
                let granted = if random.chance(150) {
                    random.any()
                } else {
                    random.below(length + 1)
                };
                let message = Message {
                    shape: TABLE[random.below(TABLE.len() as u64) as usize].shape,
                    tagged: random.chance(2),
                    id: if random.chance(20) {
                        random.below(4) as u32
                    } else {
                        number as u32
                    },
                    tag: random.below(2),
                    length,
                    granted,
                    send_id: random.next() as u32,
                    credit_request: random.any() as u32,
                    cq_data: random.chance(2).then(|| random.any()),
                };
                Slot::Open { receive, message }
            }
        };
    }
    peer
}

fn any_packet(random: &mut Random) -> Vec<u8> {
    let id = random.below(8) as u32;
    let count = 1 + random.below(9);
    let data = random.bytes(count);
    let offset = random.below(10);
    let length = offset + count + random.below(3);
    let tag = random.below(2);
    match random.below(7) {
        0 => eager(id, &data),
        1 => eager_tagged(id, tag, &data),
        2 => medium(id, length, offset, &data),
        3 => medium_tagged(id, tag, length, offset, &data),
        4 => {
            let data = if random.chance(4) { &[] } else { &data[..] };
            long(id, length, 1, random.any() as u32, data)
        }
        _ => ctsdata(id, offset, &data),
    }
}

//! Whole runs with generated calls. What has been accepted is followed from the calls and their
//! answers alone, never from the map, and compared with what the receiver reports.

use reference::engine::Answer::{self, *};
use reference::engine::{Peer, Receive, Slot};
use reference::packet::{self, Packet, Shape};

use crate::support::*;

/// The area of the runs' peers.
const AREA: u64 = 512;
/// The length of most segments, if no other byte is in the way.
const SEGMENT: u64 = 12;

/// A call of a run, without what the run hands from call to call.
#[derive(Clone, Debug)]
enum Call {
    Post {
        peer: u64,
        receive: Receive,
    },
    Packet {
        peer: u64,
        bytes: Vec<u8>,
        reply: usize,
    },
    Cancel {
        peer: u64,
        slot: u64,
    },
    Report {
        peer: u64,
        slot: u64,
    },
}

/// What is compared of a call: its answer, its reply packet, the message's bytes if it is done.
type Outcome = (Answer, Option<Vec<u8>>, Option<Vec<u8>>);

struct Run {
    receiver: Receiver,
    /// Of each peer and slot, the start of the latest post.
    starts: Vec<[u64; 8]>,
}

impl Run {
    fn new(n: u64, area: u64, limit: u64) -> Run {
        Run {
            receiver: Receiver::new(n, area, limit),
            starts: vec![[0; 8]; n as usize],
        }
    }

    fn state(&self, peer: u64) -> &Peer {
        &self.receiver.engine.peers[peer.min(7) as usize]
    }

    /// The first gap below the granted end of an open long message, below the length of others.
    fn gap(&self, peer: u64, id: u32) -> Option<(u64, u64)> {
        let r = &self.receiver;
        if peer >= r.engine.n {
            return None;
        }
        let (receive, message) = self.state(peer).slots.iter().find_map(|slot| match slot {
            Slot::Open { receive, message } if message.id == id => Some((receive, message)),
            _ => None,
        })?;
        let end = if message.shape == Shape::Long {
            message.granted
        } else {
            message.length
        };
        let missing = |offset: &u64| !r.bit((peer * AREA + receive.start + *offset) as usize);
        let first = (0..end).find(missing)?;
        Some((first, (first..end).take_while(missing).count() as u64))
    }

    fn call(&mut self, call: &Call) -> Outcome {
        let r = &mut self.receiver;
        let before = r.clone();
        let mut message = None;
        let answer = match call {
            Call::Post { peer, receive } => {
                let answer = r.post_receive(*peer, *receive);
                if let Posted(slot) = answer {
                    self.starts[*peer as usize][slot as usize] = receive.start;
                }
                answer
            }
            Call::Packet { peer, bytes, reply } => {
                r.reply = vec![0xEE; *reply];
                let answer = r.packet(*peer, bytes);
                if let Done { slot, length, .. } = answer {
                    let start = self.starts[*peer as usize][slot as usize];
                    let from = (*peer * r.engine.area + start) as usize;
                    message = Some(r.arena[from..from + length as usize].to_vec());
                }
                answer
            }
            Call::Cancel { peer, slot } => r.cancel(*peer, *slot),
            Call::Report { peer, slot } => r.report(*peer, *slot),
        };
        if matches!(answer, Refused(_) | Missing { .. }) {
            assert_eq!(r.engine, before.engine);
            assert_eq!((&r.arena, &r.map), (&before.arena, &before.map));
        }
        let reply = matches!(answer, Granted(_)).then(|| r.reply[..24].to_vec());
        if reply.is_none() {
            assert!(
                !matches!(call, Call::Packet { .. }) || r.reply.iter().all(|byte| *byte == 0xEE)
            );
        }
        (answer, reply, message)
    }
}

/// The type of the RTM with this id.
fn rtm_of(id: u32) -> u8 {
    [66, 68, 65, 69, 67, 64, 68, 66][(id % 8) as usize]
}

impl Call {
    fn peer(&self) -> u64 {
        match self {
            Call::Post { peer, .. }
            | Call::Packet { peer, .. }
            | Call::Cancel { peer, .. }
            | Call::Report { peer, .. } => *peer,
        }
    }

    /// A call that is likely to mean something, with a mistake now and then.
    fn any(random: &mut Random, run: &Run, peer: u64) -> Call {
        match random.below(40) {
            0..=7 if random.chance(3) => Call::Post {
                peer,
                receive: Receive {
                    tagged: random.chance(2),
                    tag: random.below(3),
                    ignore: random.below(3),
                    start: random.mostly_below(AREA - 64, AREA + 10),
                    capacity: random.below(80),
                },
            },
            // Mostly one that the next message fits, so that the run goes on.
            0..=7 => Call::Post {
                peer,
                receive: Receive {
                    tagged: random.chance(4)
                        || packet::row(rtm_of(run.state(peer).next)).unwrap().tagged,
                    tag: random.below(3),
                    ignore: 3,
                    start: random.below(8) * 64,
                    capacity: 64,
                },
            },
            8..=9 => Call::Cancel {
                peer,
                slot: random.below(9),
            },
            10..=11 => Call::Report {
                peer,
                slot: random.below(9),
            },
            _ => Call::any_packet(random, run, peer),
        }
    }

    /// A packet with an open id or one near next. Type, length and tag follow from the id, as they
    /// would from one sender, and segments mostly fill a gap, so that many messages come whole.
    fn any_packet(random: &mut Random, run: &Run, peer: u64) -> Call {
        let state = run.state(peer);
        let id = match (random.below(30), state.slots[random.below(8) as usize]) {
            (0, _) => state.next.wrapping_add(random.any() as u32),
            (1, _) => state.next.wrapping_add(1),
            (2, _) => state.next.wrapping_sub(1 + random.below(4) as u32),
            (3..=20, Slot::Open { message, .. }) => message.id,
            _ => state.next,
        };
        let mut msg_length = 1 + u64::from(id.wrapping_mul(0x9E37_79B9) >> 26);
        if random.chance(30) {
            msg_length += 1;
        }
        let mut kind = rtm_of(id);
        if kind >= 68 && id != state.next && !random.chance(20) || random.chance(40) {
            kind = packet::CTSDATA;
        }
        let (seg_offset, count) = match run.gap(peer, id) {
            Some((first, length)) if !random.chance(3) => (first, SEGMENT.min(length)),
            _ => {
                let seg_offset = random.below(msg_length);
                (
                    seg_offset,
                    1 + random.below(SEGMENT.min(msg_length - seg_offset)),
                )
            }
        };
        // A gap is that of the open message, whose length may have been one of the mistakes.
        msg_length = msg_length.max(seg_offset + count);
        // The limit leaves room for this much data behind any of the headers.
        let data = random.bytes(count.min(24));
        let row = packet::row(kind).unwrap();
        let mut values = Packet {
            kind,
            data: &data,
            ..Packet::default()
        };
        if row.is_rtm() {
            values.msg_id = id;
            values.cq_data = random.chance(4).then(|| random.any());
            values.tag = if row.tagged { u64::from(id % 3) } else { 0 };
        }
        match kind {
            packet::CTSDATA => {
                values.recv_id = id;
                values.seg_length = data.len() as u64;
                values.seg_offset = seg_offset;
            }
            66 | 67 => {
                values.msg_length = msg_length;
                values.seg_offset = seg_offset;
            }
            68 | 69 => {
                if random.chance(4) {
                    values.data = &[];
                }
                values.msg_length = msg_length;
                values.send_id = random.any() as u32;
                values.credit_request = random.below(3) as u32;
            }
            _ => {}
        }
        let mut bytes = written(&values);
        if random.chance(40) {
            let place = random.below(bytes.len() as u64) as usize;
            bytes[place] ^= 1 << random.below(8);
        }
        let reply = if random.chance(50) {
            23
        } else {
            24 + random.below(3) as usize
        };
        Call::Packet { peer, bytes, reply }
    }
}

/// A message as the calls and answers tell it.
#[derive(Clone)]
struct Seen {
    id: u32,
    slot: usize,
    covered: Vec<Option<u8>>,
    rtm_data: u64,
    /// Its grants, if it is long.
    grants: Option<Vec<u64>>,
}

impl Seen {
    fn cover(&mut self, offset: u64, data: &[u8]) {
        for (place, byte) in data.iter().enumerate() {
            let covered = &mut self.covered[offset as usize + place];
            assert_eq!(*covered, None, "a byte was accepted twice");
            *covered = Some(*byte);
        }
    }

    fn report(&self) -> Answer {
        let received = self.covered.iter().flatten().count() as u64;
        let first = self
            .covered
            .iter()
            .position(Option::is_none)
            .unwrap_or(self.covered.len());
        Missing {
            received,
            first: first as u64,
        }
    }
}

/// Follows one peer: which messages are open and what they have been sent.
#[derive(Default)]
struct Follower {
    open: Vec<Seen>,
    counts: Counts,
}

/// What a run came to, to see that it was worth following.
#[derive(Default, Debug)]
struct Counts {
    done: u64,
    done_in_segments: u64,
    done_by_many_grants: u64,
    done_from_an_empty_start: u64,
    truncated: u64,
    refused: [u64; 22],
}

impl Counts {
    fn add(&mut self, other: &Counts) {
        self.done += other.done;
        self.done_in_segments += other.done_in_segments;
        self.done_by_many_grants += other.done_by_many_grants;
        self.done_from_an_empty_start += other.done_from_an_empty_start;
        self.truncated += other.truncated;
        for (number, count) in other.refused.iter().enumerate() {
            self.refused[number] += count;
        }
    }
}

impl Follower {
    fn follow(&mut self, run: &Run, call: &Call, outcome: &Outcome) {
        let (answer, reply, message) = outcome;
        match (call, answer) {
            (_, Refused(number)) => self.counts.refused[*number as usize] += 1,
            (_, Truncated { .. }) => self.counts.truncated += 1,
            (_, Cancelled(slot)) => self.open.retain(|seen| seen.slot as u64 != *slot),
            (Call::Report { slot, .. }, Missing { .. }) => {
                let seen = self
                    .open
                    .iter()
                    .find(|seen| seen.slot as u64 == *slot)
                    .unwrap();
                assert_eq!(*answer, seen.report());
            }
            (Call::Packet { peer, bytes, .. }, Stored | Granted(_) | Done { .. }) => {
                let packet = packet::read(bytes).unwrap();
                let number = self.segment(run, *peer, &packet, answer);
                let seen = &mut self.open[number];
                let whole = seen.covered.iter().all(Option::is_some);
                assert_eq!(
                    whole,
                    matches!(answer, Done { .. }),
                    "done exactly when all is covered"
                );
                if let Granted(length) = answer {
                    let cts = packet::read(reply.as_ref().unwrap()).unwrap();
                    assert_eq!((cts.recv_id, cts.recv_length), (seen.id, *length));
                    // All that was granted before is in.
                    let grants = seen.grants.as_mut().unwrap();
                    let end = seen.rtm_data + grants.iter().sum::<u64>();
                    assert!(seen.covered[..end as usize].iter().all(Option::is_some));
                    assert!(seen.covered[end as usize..].iter().all(Option::is_none));
                    grants.push(*length);
                }
                if let Done { id, length, .. } = answer {
                    let seen = self.open.remove(number);
                    assert_eq!((seen.id, seen.covered.len() as u64), (*id, *length));
                    let covered: Vec<u8> = seen.covered.iter().map(|byte| byte.unwrap()).collect();
                    assert_eq!(message.as_ref(), Some(&covered));
                    self.counts.done += 1;
                    self.counts.done_in_segments += u64::from(seen.rtm_data < *length);
                    if let Some(grants) = seen.grants {
                        assert_eq!(seen.rtm_data + grants.iter().sum::<u64>(), *length);
                        let room = run.receiver.engine.limit - 32;
                        assert!(grants.len() as u64 <= (*length - seen.rtm_data).div_ceil(room));
                        self.counts.done_by_many_grants += u64::from(grants.len() > 1);
                        self.counts.done_from_an_empty_start += u64::from(seen.rtm_data == 0);
                    }
                }
            }
            _ => {}
        }
        // Between calls every open message is reported as it was followed.
        for seen in &self.open {
            assert_eq!(
                run.receiver.report(call.peer(), seen.slot as u64),
                seen.report()
            );
        }
    }

    /// Covers an accepted segment's bytes, in a new message if none is open with its id.
    fn segment(&mut self, run: &Run, peer: u64, packet: &Packet, answer: &Answer) -> usize {
        let row = packet::row(packet.kind).unwrap();
        let id = if row.is_rtm() {
            packet.msg_id
        } else {
            packet.recv_id
        };
        let number = self
            .open
            .iter()
            .position(|seen| seen.id == id)
            .unwrap_or_else(|| {
                assert!(row.is_rtm());
                let length = if packet.kind < 66 {
                    packet.data.len() as u64
                } else {
                    packet.msg_length
                };
                let slot = match answer {
                    Done { slot, .. } => *slot as usize,
                    _ => self.new_slot(run, peer),
                };
                self.open.push(Seen {
                    id,
                    slot,
                    covered: vec![None; length as usize],
                    rtm_data: packet.data.len() as u64,
                    grants: (packet.kind >= 68).then(Vec::new),
                });
                self.open.len() - 1
            });
        self.open[number].cover(packet.seg_offset, packet.data);
        number
    }

    /// The open slot that wasn't open before.
    fn new_slot(&self, run: &Run, peer: u64) -> usize {
        let r = &run.receiver;
        (0..8)
            .find(|slot| {
                matches!(r.report(peer, *slot as u64), Missing { .. })
                    && self.open.iter().all(|seen| seen.slot != *slot)
            })
            .unwrap()
    }
}

#[test]
fn runs_are_as_their_calls_and_answers_tell() {
    let mut counts = Counts::default();
    for seed in 0..300 {
        let mut random = Random::new(1_000 + seed);
        let mut run = Run::new(3, AREA, 64 + random.below(20));
        for peer in &mut run.receiver.engine.peers {
            peer.next = [0, u32::MAX - 5, 0x7FFF_FFFA][random.below(3) as usize];
        }
        let mut followers: Vec<Follower> = (0..3).map(|_| Follower::default()).collect();
        for _ in 0..1_500 {
            let peer = random.below(3);
            let call = Call::any(&mut random, &run, peer);
            let outcome = run.call(&call);
            followers[peer as usize].follow(&run, &call, &outcome);
        }
        followers
            .iter()
            .for_each(|follower| counts.add(&follower.counts));
    }
    assert!(
        counts.done > 2_000 && counts.done_in_segments > 1_000,
        "{counts:?}"
    );
    assert!(
        counts.done_by_many_grants > 100 && counts.truncated > 100,
        "{counts:?}"
    );
    assert!(counts.done_from_an_empty_start > 100, "{counts:?}");
    // All but the calls with a wrong state, wrong lengths, a wrong peer or too long a packet.
    for number in [5, 7, 8, 9, 10, 11, 12, 13, 14, 15, 16, 17, 18, 19, 20] {
        assert!(counts.refused[number] > 10, "{number} in {counts:?}");
    }
}

/// One peer's calls among two different lists of the others' have the same outcomes.
#[test]
fn a_peer_cannot_tell_what_the_others_do() {
    for seed in 0..100 {
        let mut random = Random::new(2_000 + seed);
        let n = 2 + random.below(7);
        let limit = 64 + random.below(20);
        let peer = random.below(n);

        let mut first = Run::new(n, AREA, limit);
        let mut calls = Vec::new();
        for _ in 0..600 {
            if random.chance(2) {
                let call = Call::any(&mut random, &first, peer);
                let outcome = first.call(&call);
                calls.push((call, outcome));
            } else {
                others_call(&mut first, &mut random, peer);
            }
        }

        let mut second = Run::new(n, AREA, limit);
        second.receiver.arena.fill(0x11);
        for (number, (call, outcome)) in calls.iter().enumerate() {
            for _ in 0..random.below(4) {
                others_call(&mut second, &mut random, peer);
            }
            assert_eq!(
                second.call(call),
                *outcome,
                "seed {seed}, call {number}: {call:?}"
            );
        }
        let own = peer as usize;
        assert_eq!(
            first.receiver.engine.peers[own],
            second.receiver.engine.peers[own]
        );
    }
}

/// A call of any other peer, of one that isn't below n too.
fn others_call(run: &mut Run, random: &mut Random, peer: u64) {
    let n = run.receiver.engine.n;
    let other = (peer + 1 + random.below(n)) % (n + 1);
    let other = if other == peer { n } else { other };
    let call = Call::any(random, run, other);
    run.call(&call);
}

//! Calls that reach deep into a run: most are such as a sender and a receiver make, guided by the
//! state that the calls before them left; the rest are early, late, repeated, too large or damaged.

use reference::bits;
use reference::engine::{Answer, Engine, Message, Receive, Slot, CTS_LENGTH};
use reference::packed::{self, Call as Packed};
use reference::packet::{Packet, Shape, TABLE};

use crate::packets;
use crate::random::Random;

/// A call with what it lends. A packet's reply buffer is given by its length.
#[derive(Clone)]
pub enum Call {
    Post {
        peer: u64,
        receive: Receive,
    },
    Packet {
        peer: u64,
        bytes: Vec<u8>,
        reply: usize,
    },
    Cancel {
        peer: u64,
        slot: u64,
    },
    Report {
        peer: u64,
        slot: u64,
    },
}

/// The calls that are made: all that a run takes, or those that a trace can record.
#[derive(Clone, Copy, PartialEq)]
pub enum Kinds {
    Run,
    Trace,
}

pub struct Guide<'a> {
    pub random: &'a mut Random,
    pub engine: Engine,
    pub arena: Vec<u8>,
    pub map: Vec<u64>,
    pub kinds: Kinds,
    /// A packet to offer again: one that was refused early, or one that was taken already.
    kept: Option<(u64, Vec<u8>)>,
}

impl<'a> Guide<'a> {
    pub fn new(
        random: &'a mut Random,
        engine: Engine,
        arena: Vec<u8>,
        map: Vec<u64>,
        kinds: Kinds,
    ) -> Guide<'a> {
        Guide {
            random,
            engine,
            arena,
            map,
            kinds,
            kept: None,
        }
    }

    /// The next call, which the guide's own state has then taken.
    pub fn next(&mut self) -> Call {
        let call = self.call();
        let mut reply = [0; 40];
        let packed = match &call {
            Call::Post { peer, receive } => Packed::Post {
                peer: *peer,
                receive: *receive,
            },
            Call::Packet {
                peer,
                bytes,
                reply: length,
            } => Packed::Packet {
                peer: *peer,
                bytes,
                reply: &mut reply[..*length],
            },
            Call::Cancel { peer, slot } => Packed::Cancel {
                peer: *peer,
                slot: *slot,
            },
            Call::Report { peer, slot } => Packed::Report {
                peer: *peer,
                slot: *slot,
            },
        };
        let engine = std::mem::replace(&mut self.engine, Engine::IMPOSSIBLE);
        let (engine, answer) = packed::run_call(engine, packed, &mut self.arena, &mut self.map);
        self.engine = engine;
        if let Call::Packet { peer, bytes, .. } = &call {
            if matches!(answer, Answer::Refused(12 | 13)) || self.random.chance(10) {
                self.kept = Some((*peer, bytes.clone()));
            }
        }
        call
    }

    /// The peers to choose from. A state that can't be may have any number of them.
    fn peers(&self) -> u64 {
        self.engine.n.clamp(1, 8)
    }

    fn area(&self) -> u64 {
        self.engine.area.clamp(64, 8_192)
    }

    fn limit(&self) -> u64 {
        self.engine.limit.clamp(64, 8_192)
    }

    fn call(&mut self) -> Call {
        let peer = if self.random.chance(2) {
            self.random.pick(&[self.peers(), 8, 9, u64::MAX])
        } else {
            self.random.below(self.peers())
        };
        let slot = self.slot(peer);
        match self.random.below(100) {
            0..=24 => Call::Post {
                peer,
                receive: self.receive(),
            },
            25..=29 => Call::Cancel { peer, slot },
            30..=36 if self.kinds == Kinds::Run => Call::Report { peer, slot },
            30..=42 => match self.kept.clone() {
                Some((peer, bytes)) => self.offer(peer, bytes),
                None => self.packet(peer),
            },
            _ => self.packet(peer),
        }
    }

    fn offer(&mut self, peer: u64, bytes: Vec<u8>) -> Call {
        let reply = if self.kinds == Kinds::Run && self.random.chance(20) {
            self.random.below(41) as usize
        } else {
            CTS_LENGTH
        };
        Call::Packet { peer, bytes, reply }
    }

    /// A slot to cancel or to report: mostly one that is used.
    fn slot(&mut self, peer: u64) -> u64 {
        let slots = self.engine.peers[(peer % self.peers()) as usize].slots;
        let used = (0..8).filter(|slot| slots[*slot as usize] != Slot::Free);
        let used: Vec<u64> = used.collect();
        match self.random.below(10) {
            0 => self.random.pick(&[8, 9, u64::MAX]),
            1..=6 if !used.is_empty() => self.random.pick(&used),
            _ => self.random.below(8),
        }
    }

    fn receive(&mut self) -> Receive {
        let area = self.area();
        let (start, capacity) = if self.random.chance(5) {
            (
                self.random.pick(&[0, area, area + 1, u64::MAX]),
                self.random.pick(&[0, 1, area, u64::MAX]),
            )
        } else {
            // an eighth of the area, more or less, so that eight receives can be apart
            let part = area / 8;
            let start = part * self.random.below(8);
            let capacities = [0, 1, part / 2, part - 1, part, part, part, part + 1];
            (start, self.random.pick(&capacities).min(area - start))
        };
        Receive {
            tagged: self.random.chance(50),
            tag: tag(self.random),
            ignore: self.random.pick(&[0, 0, 0x0F, u64::MAX]),
            start,
            capacity,
        }
    }

    /// A packet of a peer: mostly one that goes on with an open message, or begins the next.
    fn packet(&mut self, peer: u64) -> Call {
        let index = (peer % self.peers()) as usize;
        let open: Vec<(Receive, Message)> = self.engine.peers[index]
            .slots
            .iter()
            .filter_map(|slot| match slot {
                Slot::Open { receive, message } => Some((*receive, *message)),
                _ => None,
            })
            .collect();
        let mut bytes = if !open.is_empty() && self.random.chance(55) {
            let (receive, message) = self.random.pick(&open);
            self.more(index, receive, message)
        } else {
            self.first(index)
        };
        if self.random.chance(12) {
            packets::damage(self.random, &mut bytes);
        }
        self.offer(peer, bytes)
    }

    /// A packet that begins a message, whose id is mostly the next.
    fn first(&mut self, index: usize) -> Vec<u8> {
        let far = self.random.next() as u32;
        let distance = if self.random.chance(65) {
            0
        } else {
            self.random
                .pick(&[1, u32::MAX, 0x7FFF_FFFF, 0x8000_0000, far])
        };
        let (tag, room) = self.tag_and_room(index);
        let length = if self.random.chance(8) {
            room + 1
        } else {
            self.random.within(room.min(1), room.max(1))
        };
        let most = (self.limit() - 32).min(length.max(1));
        let size = self.random.within(1, most);
        let kind = self.random.pick(&[64, 65, 66, 67, 66, 67, 68, 69, 68, 69]);
        let packet = Packet {
            kind,
            msg_id: self.engine.peers[index].next.wrapping_add(distance),
            tag,
            msg_length: length,
            seg_offset: self.random.below(length.saturating_sub(size) + 1),
            send_id: self.random.next() as u32,
            credit_request: self.random.pick(&[0, 1, 2, 16, 17, u32::MAX]),
            ..Packet::default()
        };
        let data = match kind {
            64 | 65 => length.min(most),
            // a long message that starts empty; its data is asked for from offset 0 on
            68 | 69 if self.random.chance(25) => 0,
            _ => size,
        };
        packets::with_data(self.random, packet, data as usize)
    }

    /// The tag and the room of a receive that is posted, or any.
    fn tag_and_room(&mut self, index: usize) -> (u64, u64) {
        let posted: Vec<Receive> = self.engine.peers[index]
            .slots
            .iter()
            .filter_map(|slot| match slot {
                Slot::Posted { receive, .. } => Some(*receive),
                _ => None,
            })
            .collect();
        if posted.is_empty() || self.random.chance(15) {
            let area = self.area();
            return (tag(self.random), self.random.below(area + 1));
        }
        let receive = self.random.pick(&posted);
        (receive.tag, receive.capacity.min(8_192))
    }

    /// A packet of an open message: a segment of its own, or one of another message.
    fn more(&mut self, index: usize, receive: Receive, message: Message) -> Vec<u8> {
        let long = message.shape == Shape::Long;
        let end = if long {
            message.granted
        } else {
            message.length
        };
        let most = (self.limit() - 32).min(end.max(1));
        let size = self.random.within(1, most);
        let (offset, size) = match self.random.below(10) {
            0 => {
                let past = end.saturating_sub(size).saturating_add(1);
                let places = [end, past, u64::MAX - size + 1, u64::MAX];
                (self.random.pick(&places), size)
            }
            1..=5 => {
                let first = self.first_missing(index, receive, end);
                (first, size.min(end.saturating_sub(first)).max(1))
            }
            _ => (self.random.below(end.saturating_sub(size) + 1), size),
        };
        let mut packet = Packet {
            kind: if long { 4 } else { segment_kind(&message) },
            msg_id: message.id,
            recv_id: message.id,
            tag: message.tag,
            msg_length: message.length,
            seg_length: size,
            seg_offset: offset,
            ..Packet::default()
        };
        match self.random.below(50) {
            0 => packet.recv_id = message.id.wrapping_add(1),
            1 => packet.tag ^= 1,
            2 => packet.msg_length = message.length.saturating_add(1),
            3 => packet.kind = self.random.pick(&[64, 65, 66, 67, 68, 69]),
            _ => {}
        }
        packets::with_data(self.random, packet, size as usize)
    }

    /// The first offset below `end` whose bit is clear, if the range is one of the map.
    fn first_missing(&self, index: usize, receive: Receive, end: u64) -> u64 {
        let from = (index as u64 * self.area()).saturating_add(receive.start);
        let to = from.saturating_add(end);
        if to > 64 * self.map.len() as u64 {
            return 0;
        }
        bits::first_clear(&self.map, from as usize, to as usize) as u64 - from
    }
}

/// A few tags, so that receives and messages meet.
pub fn tag(random: &mut Random) -> u64 {
    random.pick(&[0, 0x10, 0x1A, 0x2A, u64::MAX])
}

/// The type of which a further segment of this message is, or any if no type begins such a message.
fn segment_kind(message: &Message) -> u8 {
    TABLE
        .iter()
        .find(|row| (row.shape, row.tagged) == (message.shape, message.tagged))
        .map_or(66, |row| row.kind)
}

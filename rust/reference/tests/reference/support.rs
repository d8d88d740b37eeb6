//! What the tests share: a generator, a receiver with all it is lent, packets as bytes.

use reference::engine::{self, Answer, Engine, Receive};
use reference::packet::{self, Packet};

/// A deterministic generator (xorshift, 64 bits).
pub struct Random(u64);

impl Random {
    pub fn new(seed: u64) -> Random {
        Random(seed.wrapping_mul(0x9E37_79B9_7F4A_7C15) | 1)
    }

    pub fn next(&mut self) -> u64 {
        self.0 ^= self.0 << 13;
        self.0 ^= self.0 >> 7;
        self.0 ^= self.0 << 17;
        self.0
    }

    /// A number below `bound`.
    pub fn below(&mut self, bound: u64) -> u64 {
        (self.next() >> 11) % bound
    }

    pub fn chance(&mut self, one_in: u64) -> bool {
        self.below(one_in) == 0
    }

    /// A number below `usual`, once in ten times one below `rare`.
    pub fn mostly_below(&mut self, usual: u64, rare: u64) -> u64 {
        let bound = if self.chance(10) { rare } else { usual };
        self.below(bound)
    }

    pub fn bytes(&mut self, count: u64) -> Vec<u8> {
        (0..count).map(|_| self.next() as u8).collect()
    }

    /// A number of any size: as often a small one as one near 2^64.
    pub fn any(&mut self) -> u64 {
        let shift = self.below(64);
        match self.below(8) {
            0 => u64::MAX - self.below(3),
            1 => self.below(3),
            _ => self.next() >> shift,
        }
    }
}

/// A receiver with the memory it is lent.
#[derive(Clone, PartialEq, Debug)]
pub struct Receiver {
    pub engine: Engine,
    pub arena: Vec<u8>,
    pub map: Vec<u64>,
    pub reply: Vec<u8>,
}

impl Receiver {
    /// The set-up of the worked cases: n = 2, A = 256, L = 96.
    pub fn usual() -> Receiver {
        Receiver::new(2, 256, 96)
    }

    pub fn new(n: u64, area: u64, limit: u64) -> Receiver {
        let bytes = (n * area) as usize;
        let mut map = vec![u64::MAX; bytes / 64];
        let engine = engine::set_up(n, area, limit, bytes, &mut map).unwrap();
        Receiver {
            engine,
            arena: vec![0xEE; bytes],
            map,
            reply: vec![0xEE; 30],
        }
    }

    /// Posts a plain receive.
    pub fn post(&mut self, peer: u64, start: u64, capacity: u64) -> Answer {
        self.post_receive(peer, plain(start, capacity))
    }

    pub fn post_tagged(
        &mut self,
        peer: u64,
        tag: u64,
        ignore: u64,
        start: u64,
        capacity: u64,
    ) -> Answer {
        let receive = Receive {
            tagged: true,
            tag,
            ignore,
            start,
            capacity,
        };
        self.post_receive(peer, receive)
    }

    pub fn post_receive(&mut self, peer: u64, receive: Receive) -> Answer {
        let engine = self.engine.clone();
        self.keep(engine.post(peer, receive, &self.arena, &self.map))
    }

    pub fn packet(&mut self, peer: u64, bytes: &[u8]) -> Answer {
        let engine = self.engine.clone();
        let step = engine.packet(peer, bytes, &mut self.reply, &mut self.arena, &mut self.map);
        self.keep(step)
    }

    pub fn cancel(&mut self, peer: u64, slot: u64) -> Answer {
        let engine = self.engine.clone();
        self.keep(engine.cancel(peer, slot, &self.arena, &self.map))
    }

    /// Asks for a report, which must leave the state as it was.
    pub fn report(&self, peer: u64, slot: u64) -> Answer {
        let engine = self.engine.clone();
        let (after, answer) = engine.report(peer, slot, &self.arena, &self.map);
        assert_eq!(after, self.engine);
        answer
    }

    fn keep(&mut self, (engine, answer): (Engine, Answer)) -> Answer {
        self.engine = engine;
        answer
    }

    pub fn bit(&self, byte: usize) -> bool {
        self.map[byte / 64] >> (byte % 64) & 1 == 1
    }
}

/// A plain receive.
pub fn plain(start: u64, capacity: u64) -> Receive {
    Receive {
        tagged: false,
        tag: 0,
        ignore: 0,
        start,
        capacity,
    }
}

/// The bytes of a packet that the writer takes.
pub fn written(packet: &Packet) -> Vec<u8> {
    let mut out = vec![0; packet::MAX_PACKET];
    let length = packet::write(packet, &mut out).unwrap();
    out.truncate(length);
    out
}

pub fn eager(id: u32, data: &[u8]) -> Vec<u8> {
    written(&Packet {
        kind: packet::EAGER_MSGRTM,
        msg_id: id,
        data,
        ..Packet::default()
    })
}

pub fn eager_tagged(id: u32, tag: u64, data: &[u8]) -> Vec<u8> {
    written(&Packet {
        kind: packet::EAGER_TAGRTM,
        msg_id: id,
        tag,
        data,
        ..Packet::default()
    })
}

pub fn medium(id: u32, msg_length: u64, seg_offset: u64, data: &[u8]) -> Vec<u8> {
    let kind = packet::MEDIUM_MSGRTM;
    written(&Packet {
        kind,
        msg_id: id,
        msg_length,
        seg_offset,
        data,
        ..Packet::default()
    })
}

pub fn medium_tagged(id: u32, tag: u64, msg_length: u64, seg_offset: u64, data: &[u8]) -> Vec<u8> {
    let kind = packet::MEDIUM_TAGRTM;
    written(&Packet {
        kind,
        msg_id: id,
        tag,
        msg_length,
        seg_offset,
        data,
        ..Packet::default()
    })
}

pub fn long(id: u32, msg_length: u64, send_id: u32, credit_request: u32, data: &[u8]) -> Vec<u8> {
    let kind = packet::LONGCTS_MSGRTM;
    written(&Packet {
        kind,
        msg_id: id,
        msg_length,
        send_id,
        credit_request,
        data,
        ..Packet::default()
    })
}

pub fn ctsdata(recv_id: u32, seg_offset: u64, data: &[u8]) -> Vec<u8> {
    let kind = packet::CTSDATA;
    let seg_length = data.len() as u64;
    written(&Packet {
        kind,
        recv_id,
        seg_offset,
        seg_length,
        data,
        ..Packet::default()
    })
}

pub fn done(slot: u64, id: u32, length: u64) -> Answer {
    Answer::Done {
        slot,
        id,
        length,
        cq_data: None,
    }
}

//! Lists of calls, prepared in the packed form.

use reference::engine::{Receive, CTSDATA_HEADER};
use reference::packed;
use reference::packet::{self, Packet};

/// Segments of an area's own size leave no byte of it out.
pub const AREA: u64 = 8_192;

/// A list of calls with the packets' bytes.
pub struct Workload {
    pub name: &'static str,
    pub n: u64,
    pub limit: u64,
    pub calls: Vec<u64>,
    pub bytes: Vec<u8>,
    pub messages: usize,
    pub packets: usize,
    /// Where each packet's data stands in `bytes`, and where in the arena it goes.
    pub segments: Vec<(usize, usize, usize)>,
}

/// A call before its bytes have a place. A packet comes with where its data goes in the area.
enum Planned {
    Post(u64),
    Packet(Vec<u8>, usize, usize),
}

impl Workload {
    pub fn data(&self) -> usize {
        self.segments.iter().map(|(_, _, length)| length).sum()
    }

    /// The peers' lists taken in turn, a call of each.
    fn of(name: &'static str, n: u64, limit: u64, message: impl Fn(u32) -> Vec<Planned>) -> Self {
        let mut workload = Workload {
            name,
            n,
            limit,
            calls: Vec::new(),
            bytes: Vec::new(),
            messages: 0,
            packets: 0,
            segments: Vec::new(),
        };
        let mut id = 0;
        while workload.bytes.len() < 2_000_000 && workload.calls.len() < 100_000 {
            for call in message(id) {
                (0..n).for_each(|peer| workload.add(peer, &call));
            }
            workload.messages += n as usize;
            id += 1;
        }
        workload
    }

    fn add(&mut self, peer: u64, call: &Planned) {
        let words = match call {
            Planned::Post(capacity) => packed::post_words(
                peer,
                &Receive {
                    tagged: false,
                    tag: 0,
                    ignore: 0,
                    start: 0,
                    capacity: *capacity,
                },
            ),
            Planned::Packet(bytes, offset, data) => {
                let place = self.bytes.len();
                self.bytes.extend_from_slice(bytes);
                self.packets += 1;
                let from = self.bytes.len() - data;
                let to = (peer * AREA) as usize + offset;
                self.segments.push((from, to, *data));
                packed::packet_words(peer, (place as u64, bytes.len() as u64), (0, 24))
            }
        };
        self.calls.extend_from_slice(&words);
    }
}

/// Medium messages that fill an area, each in as few packets as the limit allows, shuffled.
pub fn medium(n: u64, limit: u64) -> Workload {
    Workload::of("medium, shuffled", n, limit, |id| {
        let most = limit as usize - 24;
        let mut offsets: Vec<usize> = (0..AREA as usize).step_by(most).collect();
        shuffle(&mut offsets, id);
        let packets = offsets.into_iter().map(|offset| {
            let data = content(id, offset, most.min(AREA as usize - offset));
            planned(Packet {
                kind: packet::MEDIUM_MSGRTM,
                msg_id: id,
                msg_length: AREA,
                seg_offset: offset as u64,
                data: &data,
                ..Packet::default()
            })
        });
        [Planned::Post(AREA)].into_iter().chain(packets).collect()
    })
}

/// Eager messages of 100 bytes.
pub fn eager(n: u64) -> Workload {
    Workload::of("eager, 100 bytes", n, 1_024, |id| {
        let data = content(id, 0, 100);
        let packet = planned(Packet {
            kind: packet::EAGER_MSGRTM,
            msg_id: id,
            data: &data,
            ..Packet::default()
        });
        vec![Planned::Post(100), packet]
    })
}

/// Long messages that fill an area. Each grant is known beforehand, and so is the data it asks for.
pub fn long(n: u64) -> Workload {
    let (limit, credit_request) = (1_024, 4);
    Workload::of("long, with grants", n, limit, |id| {
        let first = limit as usize - 24;
        let data = content(id, 0, first);
        let mut calls = vec![Planned::Post(AREA)];
        calls.push(planned(Packet {
            kind: packet::LONGCTS_MSGRTM,
            msg_id: id,
            msg_length: AREA,
            send_id: id,
            credit_request,
            data: &data,
            ..Packet::default()
        }));
        // Packets that fill what a grant counts with end where the grants do.
        let step = (limit - CTSDATA_HEADER) as usize;
        for offset in (first..AREA as usize).step_by(step) {
            let data = content(id, offset, step.min(AREA as usize - offset));
            calls.push(planned(Packet {
                kind: packet::CTSDATA,
                recv_id: id,
                seg_length: data.len() as u64,
                seg_offset: offset as u64,
                data: &data,
                ..Packet::default()
            }));
        }
        calls
    })
}

fn planned(packet: Packet) -> Planned {
    let offset = packet.seg_offset as usize;
    Planned::Packet(written(&packet), offset, packet.data.len())
}

/// The bytes of a packet that breaks no rule.
pub fn written(packet: &Packet) -> Vec<u8> {
    let mut out = vec![0; packet::MAX_PACKET];
    let length = packet::write(packet, &mut out).expect("a packet within the rules");
    out.truncate(length);
    out
}

/// Bytes that tell a message and an offset from others.
pub fn content(id: u32, offset: usize, length: usize) -> Vec<u8> {
    let byte = |place: usize| (place as u32 ^ id.wrapping_mul(31)) as u8;
    (offset..offset + length).map(byte).collect()
}

fn shuffle(items: &mut [usize], seed: u32) {
    let mut number = u64::from(seed) + 1;
    for place in (1..items.len()).rev() {
        number = number.wrapping_mul(0x5851_F42D_4C95_7F2D).wrapping_add(1);
        items.swap(place, (number >> 33) as usize % (place + 1));
    }
}

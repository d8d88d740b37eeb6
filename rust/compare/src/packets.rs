//! Packets: values for the writer, bytes for the reader, and damage.

use reference::packed::{self, VALUE_WORDS};
use reference::packet::{self, Packet, Shape};

use crate::random::Random;

/// What the writer is lent to be read.
#[derive(Clone)]
pub struct Values {
    pub words: Vec<u64>,
    pub address: Vec<u8>,
    pub data: Vec<u8>,
}

impl Values {
    /// Whether they are those of a long RTM without data.
    pub fn are_empty_start(&self) -> bool {
        matches!(self.words.first(), Some(68 | 69)) && self.data.is_empty()
    }
}

/// The values of a packet of any type that breaks no rule.
pub fn values(random: &mut Random) -> Values {
    let kind = random.pick(&[3, 4, 64, 65, 66, 67, 68, 69]);
    let count = data_length(random, kind);
    let offset = random.pick(&[0, 0, 1, 100, u64::MAX - count]);
    let mut words = vec![0; VALUE_WORDS];
    words[0] = kind;
    for place in [1, 2, 3, 8] {
        words[place] = random.wild() & 0xFFFF_FFFF;
    }
    words[4] = if matches!(kind, 66 | 67) {
        offset + count
    } else {
        // a long message may start empty, but has a byte
        (count + random.below(50)).max(1)
    };
    words[5] = count;
    words[6] = random.wild().max(1);
    words[7] = offset;
    words[9] = random.wild();
    let rtm = kind >= 64;
    words[10] = u64::from(rtm && random.chance(40));
    words[13] = u64::from(rtm && random.chance(40));
    words[14] = random.wild();
    words[15] = u64::from(random.chance(40));
    words[16] = random.wild() & 0xFFFF_FFFF;
    let address = random.below(10) as usize;
    Values {
        words,
        address: random.bytes(address),
        data: random.bytes(count as usize),
    }
}

/// How much data a packet of this type carries; only some types may carry none.
fn data_length(random: &mut Random, kind: u64) -> u64 {
    let count = match random.below(20) {
        0 => random.within(8_100, 8_200),
        1..=4 => 1,
        _ => random.within(1, 60),
    };
    match kind {
        3 => 0,
        64 | 65 if random.chance(20) => 0,
        68 | 69 if random.chance(25) => 0,
        _ => count,
    }
}

/// Words that are no type, some of them a type's number with more before it.
const NO_TYPES: [u64; 8] = [0, 5, 6, 63, 70, 255, 256 + 3, 1 << 32 | 64];

/// Changes some of the values, mostly so that a rule is broken, or several at once.
pub fn spoil(random: &mut Random, values: &mut Values) {
    for _ in 0..random.pick(&[1, 1, 2, 3]) {
        spoil_one(random, values);
    }
}

fn spoil_one(random: &mut Random, values: &mut Values) {
    let any = random.below(VALUE_WORDS as u64) as usize;
    let (place, word) = match random.below(15) {
        0 => return values.words.truncate(random.below(25) as usize),
        1 => return values.words.push(random.next()),
        2 => return values.data.truncate(random.below(3) as usize),
        3 => return values.address = random.bytes(8_180),
        4 | 5 => (0, random.pick(&NO_TYPES)),
        // a number of more than 32 bits in a field that the type has or has not
        6 | 7 => (random.pick(&[1, 2, 3, 8]), wide(random)),
        // an optional header, whether the type can have it or not
        8 | 9 => (random.pick(&[10, 13]), random.pick(&[1, 2, 1 << 63])),
        10 => {
            set(values, 15, random.below(3));
            (16, wide(random))
        }
        // a message without a length, which may not even start empty
        11 => (4, 0),
        _ => (any, random.wild()),
    };
    set(values, place, word);
}

fn set(values: &mut Values, place: usize, word: u64) {
    if let Some(target) = values.words.get_mut(place) {
        *target = word;
    }
}

/// A number of more than 32 bits, often one that is small without them.
fn wide(random: &mut Random) -> u64 {
    let high = random.pick(&[1 << 32, 1 << 40, 1 << 63]);
    high | random.pick(&[0, 1, u64::from(u32::MAX)])
}

/// The bytes of these values; if they are refused, something that begins like a packet.
pub fn bytes_of(values: &Values) -> Vec<u8> {
    let mut out = vec![0; packet::MAX_PACKET];
    match packed::write(&values.words, &values.address, &values.data, &mut out) {
        Ok(length) => {
            out.truncate(length);
            out
        }
        Err(_) => begun(
            values.words.first().map_or(64, |kind| *kind as u8),
            &values.data,
        ),
    }
}

/// A packet with some optional headers and this much data, or something that begins like it.
pub fn with_data(random: &mut Random, packet: Packet, size: usize) -> Vec<u8> {
    let data = random.bytes(size);
    let address_length = random.below(5) as usize;
    let address = random.bytes(address_length);
    let rtm = packet.kind >= 64;
    let packet = Packet {
        raw_address: (rtm && random.chance(8)).then_some(&address[..]),
        cq_data: (rtm && random.chance(15)).then(|| random.next()),
        connid: random.chance(8).then(|| random.next() as u32),
        data: &data,
        ..packet
    };
    let mut out = [0; packet::MAX_PACKET];
    match packet::write(&packet, &mut out) {
        Ok(length) => out[..length].to_vec(),
        Err(_) => begun(packet.kind, &data),
    }
}

fn begun(kind: u8, data: &[u8]) -> Vec<u8> {
    let mut bytes = vec![kind, packet::VERSION, packet::FLAG_MESSAGE as u8, 0];
    bytes.extend_from_slice(data);
    bytes
}

/// The id of the message that a packet begins, if it is a long RTM without data. The message may be
/// without a length too, which is then all that is wrong with the packet.
pub fn empty_start(bytes: &[u8]) -> Option<u64> {
    let mut bytes = bytes.to_vec();
    // the first byte of the message's length
    *bytes.get_mut(8)? = 1;
    let packet = packet::read(&bytes).ok()?;
    let row = packet::row(packet.kind)?;
    let empty = row.shape == Shape::Long && packet.data.is_empty();
    empty.then_some(packet.msg_id.into())
}

/// Damages a packet: cuts it, lengthens it, or changes its first bytes, a field or a bit.
pub fn damage(random: &mut Random, bytes: &mut Vec<u8>) {
    match random.below(8) {
        0 => {
            let length = random.below(bytes.len() as u64 + 1) as usize;
            bytes.truncate(length);
        }
        1 => {
            let count = random.pick(&[1, 2, 40, 200, 8_192]);
            let more = random.bytes(count);
            bytes.extend_from_slice(&more);
        }
        2 => {
            // the type, the version or the flags
            let place = random.below(4) as usize;
            let byte = random.pick(&[0, 1, 3, 4, 5, 6, 64, 69, 70, 0x80, 0xFF]);
            if let Some(target) = bytes.get_mut(place) {
                *target = byte;
            }
        }
        3 | 4 => damage_field(random, bytes),
        _ => {
            if !bytes.is_empty() {
                let place = random.below((bytes.len() as u64).min(64)) as usize;
                bytes[place] ^= 1 << random.below(8);
            }
        }
    }
}

/// Changes a field of the headers, as often as not to give the message no length.
fn damage_field(random: &mut Random, bytes: &mut [u8]) {
    let (place, field) = if random.chance(50) {
        (8, 0)
    } else {
        (4 * random.within(1, 8) as usize, random.wild())
    };
    if let Some(target) = bytes.get_mut(place..place + 8) {
        target.copy_from_slice(&field.to_le_bytes());
    }
}

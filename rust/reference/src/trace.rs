//! The trace of a recorded run: numbers in groups of seven bits, the set-up numbers, the entries.
//!
//! The readers take the trace and a place in it and give what stands there with the place after
//! it, or none if it is malformed or the bytes end early.

use crate::engine::Receive;

/// Ten groups hold 70 bits; the tenth has room for the 64th bit only.
const MAX_GROUPS: usize = 10;

const POST: u64 = 1;
const PACKET: u64 = 2;
const CANCEL: u64 = 3;

/// An entry of a trace.
#[derive(Clone, Copy, PartialEq, Eq, Debug)]
pub enum Entry<'a> {
    Post { peer: u64, receive: Receive },
    Packet { peer: u64, bytes: &'a [u8] },
    Cancel { peer: u64, slot: u64 },
}

/// Reads a number: groups of seven bits, least first, the top bit set when more follow.
pub fn read_number(trace: &[u8], place: usize) -> Option<(u64, usize)> {
    let mut value = 0;
    for group in 0..MAX_GROUPS {
        let byte = *trace.get(place.checked_add(group)?)?;
        if group == MAX_GROUPS - 1 && byte > 1 {
            return None; // not below 2^64, or an eleventh group
        }
        value |= u64::from(byte & 0x7F) << (7 * group);
        if byte & 0x80 == 0 {
            // Only the shortest form is taken, and a last group of zero could have been left out.
            let shortest = group == 0 || byte != 0;
            return shortest.then_some((value, place + group + 1));
        }
    }
    None
}

/// Reads the numbers n, A and L that a trace begins with.
pub fn read_set_up(trace: &[u8]) -> Option<((u64, u64, u64), usize)> {
    let (n, place) = read_number(trace, 0)?;
    let (area, place) = read_number(trace, place)?;
    let (limit, place) = read_number(trace, place)?;
    Some(((n, area, limit), place))
}

/// Reads the entry at a place.
pub fn read_entry(trace: &[u8], place: usize) -> Option<(Entry<'_>, usize)> {
    let (kind, place) = read_number(trace, place)?;
    match kind {
        POST => {
            let (peer, place) = read_number(trace, place)?;
            let (tagged, place) = read_number(trace, place)?;
            let tagged = match tagged {
                0 => false,
                1 => true,
                _ => return None,
            };
            let (tag, place) = read_number(trace, place)?;
            let (ignore, place) = read_number(trace, place)?;
            let (start, place) = read_number(trace, place)?;
            let (capacity, place) = read_number(trace, place)?;
            let receive = Receive {
                tagged,
                tag,
                ignore,
                start,
                capacity,
            };
            Some((Entry::Post { peer, receive }, place))
        }
        PACKET => {
            let (peer, place) = read_number(trace, place)?;
            let (count, place) = read_number(trace, place)?;
            let end = place.checked_add(usize::try_from(count).ok()?)?;
            let bytes = trace.get(place..end)?;
            Some((Entry::Packet { peer, bytes }, end))
        }
        CANCEL => {
            let (peer, place) = read_number(trace, place)?;
            let (slot, place) = read_number(trace, place)?;
            Some((Entry::Cancel { peer, slot }, place))
        }
        _ => None,
    }
}

/// Writes a number in its shortest form.
pub fn write_number(mut value: u64, trace: &mut Vec<u8>) {
    while value >= 0x80 {
        trace.push(value as u8 | 0x80);
        value >>= 7;
    }
    trace.push(value as u8);
}

/// Writes the three numbers that a trace begins with.
pub fn write_set_up(n: u64, area: u64, limit: u64, trace: &mut Vec<u8>) {
    for number in [n, area, limit] {
        write_number(number, trace);
    }
}

/// Writes an entry.
pub fn write_entry(entry: &Entry, trace: &mut Vec<u8>) {
    match *entry {
        Entry::Post { peer, receive } => {
            for number in [
                POST,
                peer,
                u64::from(receive.tagged),
                receive.tag,
                receive.ignore,
                receive.start,
                receive.capacity,
            ] {
                write_number(number, trace);
            }
        }
        Entry::Packet { peer, bytes } => {
            for number in [PACKET, peer, bytes.len() as u64] {
                write_number(number, trace);
            }
            trace.extend_from_slice(bytes);
        }
        Entry::Cancel { peer, slot } => {
            for number in [CANCEL, peer, slot] {
                write_number(number, trace);
            }
        }
    }
}

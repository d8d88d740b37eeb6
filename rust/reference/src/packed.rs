//! The packed form: state, calls, answers and packet values as 64-bit words, the form in which a
//! message layer and the engine exchange them.
//!
//! A state takes 1,035 words, a call and an answer eight each, a packet's values 19.

use crate::engine::{self, Answer, Engine, Message, Peer, Receive, Slot, MAX_PEERS, SLOTS};
use crate::packet::{self, Packet, Shape};
use crate::{bits, refusal};

pub const SLOT_WORDS: usize = 16;
/// The next id, then the slots.
pub const PEER_WORDS: usize = 1 + SLOTS * SLOT_WORDS;
/// The set-up numbers, then the peers.
pub const STATE_WORDS: usize = 3 + MAX_PEERS * PEER_WORDS;
pub const CALL_WORDS: usize = 8;
pub const ANSWER_WORDS: usize = 8;
pub const VALUE_WORDS: usize = 19;
/// The words of the largest map that can be marked: that of eight areas of 8,192 bytes.
pub const MAX_MAP_WORDS: usize = 1_024;

const FREE: u64 = 0;
const POSTED: u64 = 1;
const OPEN: u64 = 2;

/// A call as a run takes it.
#[derive(Debug)]
pub enum Call<'a> {
    Post {
        peer: u64,
        receive: Receive,
    },
    Packet {
        peer: u64,
        bytes: &'a [u8],
        reply: &'a mut [u8],
    },
    Cancel {
        peer: u64,
        slot: u64,
    },
    Report {
        peer: u64,
        slot: u64,
    },
}

/// The state of these words, none if no state has this form.
pub fn read_state(words: &[u64]) -> Option<Engine> {
    if words.len() != STATE_WORDS {
        return None;
    }
    let mut peers = [Peer::FRESH; MAX_PEERS];
    for (peer, words) in peers.iter_mut().zip(words[3..].chunks_exact(PEER_WORDS)) {
        peer.next = u32::try_from(words[0]).ok()?;
        for (slot, words) in peer
            .slots
            .iter_mut()
            .zip(words[1..].chunks_exact(SLOT_WORDS))
        {
            *slot = read_slot(words)?;
        }
    }
    Some(Engine {
        peers,
        n: words[0],
        area: words[1],
        limit: words[2],
    })
}

fn read_slot(words: &[u64]) -> Option<Slot> {
    let zero = |words: &[u64]| words.iter().all(|word| *word == 0);
    match words[0] {
        FREE => zero(&words[1..]).then_some(Slot::Free),
        POSTED => {
            let receive = read_receive(&words[1..6])?;
            let age = words[6];
            zero(&words[7..]).then_some(Slot::Posted { receive, age })
        }
        OPEN => {
            let receive = read_receive(&words[1..6])?;
            let message = read_message(&words[7..])?;
            (words[6] == 0).then_some(Slot::Open { receive, message })
        }
        _ => None,
    }
}

/// A receive of five words, as a slot and a call have them.
fn read_receive(words: &[u64]) -> Option<Receive> {
    Some(Receive {
        tagged: read_flag(words[0])?,
        tag: words[1],
        ignore: words[2],
        start: words[3],
        capacity: words[4],
    })
}

fn read_message(words: &[u64]) -> Option<Message> {
    let (shape, tagged) = read_sort(words[0])?;
    Some(Message {
        shape,
        tagged,
        id: u32::try_from(words[1]).ok()?,
        tag: words[2],
        length: words[3],
        granted: words[4],
        send_id: u32::try_from(words[5]).ok()?,
        credit_request: u32::try_from(words[6]).ok()?,
        cq_data: match (read_flag(words[7])?, words[8]) {
            (true, cq_data) => Some(cq_data),
            (false, 0) => None,
            (false, _) => return None,
        },
    })
}

/// The shapes in the order of their numbers in a state's words.
const SHAPES: [Shape; 5] = [
    Shape::Cts,
    Shape::CtsData,
    Shape::Eager,
    Shape::Medium,
    Shape::Long,
];

/// Shape and tagged from one word: twice the shape's number, and one more if tagged.
fn read_sort(word: u64) -> Option<(Shape, bool)> {
    let number = usize::try_from(word / 2).ok()?;
    Some((*SHAPES.get(number)?, word % 2 == 1))
}

fn sort_word(message: &Message) -> u64 {
    let number = SHAPES.iter().position(|shape| *shape == message.shape);
    2 * number.unwrap_or_default() as u64 + u64::from(message.tagged)
}

fn read_flag(word: u64) -> Option<bool> {
    match word {
        0 => Some(false),
        1 => Some(true),
        _ => None,
    }
}

/// Writes a state to its words.
pub fn write_state(engine: &Engine, words: &mut [u64]) {
    words[..3].copy_from_slice(&[engine.n, engine.area, engine.limit]);
    for (peer, words) in engine
        .peers
        .iter()
        .zip(words[3..].chunks_exact_mut(PEER_WORDS))
    {
        words[0] = u64::from(peer.next);
        for (slot, words) in peer
            .slots
            .iter()
            .zip(words[1..].chunks_exact_mut(SLOT_WORDS))
        {
            words.copy_from_slice(&slot_words(slot));
        }
    }
}

fn slot_words(slot: &Slot) -> [u64; SLOT_WORDS] {
    let mut words = [0; SLOT_WORDS];
    match slot {
        Slot::Free => {}
        Slot::Posted { receive, age } => {
            words[0] = POSTED;
            words[1..6].copy_from_slice(&receive_words(receive));
            words[6] = *age;
        }
        Slot::Open { receive, message } => {
            words[0] = OPEN;
            words[1..6].copy_from_slice(&receive_words(receive));
            words[7..].copy_from_slice(&[
                sort_word(message),
                u64::from(message.id),
                message.tag,
                message.length,
                message.granted,
                u64::from(message.send_id),
                u64::from(message.credit_request),
                u64::from(message.cq_data.is_some()),
                message.cq_data.unwrap_or(0),
            ]);
        }
    }
    words
}

fn receive_words(receive: &Receive) -> [u64; 5] {
    [
        u64::from(receive.tagged),
        receive.tag,
        receive.ignore,
        receive.start,
        receive.capacity,
    ]
}

/// The words of a post.
pub fn post_words(peer: u64, receive: &Receive) -> [u64; CALL_WORDS] {
    let [tagged, tag, ignore, start, capacity] = receive_words(receive);
    [1, peer, tagged, tag, ignore, start, capacity, 0]
}

/// The words of a packet, whose bytes and reply buffer are `(place, length)`.
pub fn packet_words(peer: u64, bytes: (u64, u64), reply: (u64, u64)) -> [u64; CALL_WORDS] {
    [2, peer, bytes.0, bytes.1, reply.0, reply.1, 0, 0]
}

/// The words of a cancel.
pub fn cancel_words(peer: u64, slot: u64) -> [u64; CALL_WORDS] {
    [3, peer, slot, 0, 0, 0, 0, 0]
}

/// The words of a missing-byte report.
pub fn report_words(peer: u64, slot: u64) -> [u64; CALL_WORDS] {
    [4, peer, slot, 0, 0, 0, 0, 0]
}

/// The call of these words, none if they are no call's.
pub fn read_call<'a>(words: &[u64], bytes: &'a [u8], replies: &'a mut [u8]) -> Option<Call<'a>> {
    let (peer, slot) = (words[1], words[2]);
    Some(match words[0] {
        1 => Call::Post {
            peer,
            receive: read_receive(&words[2..7])?,
        },
        2 => Call::Packet {
            peer,
            bytes: &bytes[inside(words[2], words[3], bytes.len())?],
            reply: {
                let range = inside(words[4], words[5], replies.len())?;
                &mut replies[range]
            },
        },
        3 => Call::Cancel { peer, slot },
        4 => Call::Report { peer, slot },
        _ => return None,
    })
}

/// The range of a place and a length, none if it is not inside `0..end`.
fn inside(place: u64, length: u64, end: usize) -> Option<std::ops::Range<usize>> {
    let from = usize::try_from(place).ok()?;
    let to = from.checked_add(usize::try_from(length).ok()?)?;
    (to <= end).then_some(from..to)
}

/// The words of an answer.
pub fn answer_words(answer: &Answer) -> [u64; ANSWER_WORDS] {
    match *answer {
        Answer::Refused(number) => [0, u64::from(number), 0, 0, 0, 0, 0, 0],
        Answer::Posted(slot) => [1, slot, 0, 0, 0, 0, 0, 0],
        Answer::Cancelled(slot) => [2, slot, 0, 0, 0, 0, 0, 0],
        Answer::Stored => [3, 0, 0, 0, 0, 0, 0, 0],
        Answer::Granted(length) => [4, length, 0, 0, 0, 0, 0, 0],
        Answer::Done {
            slot,
            id,
            length,
            cq_data,
        } => {
            let present = u64::from(cq_data.is_some());
            let data = cq_data.unwrap_or(0);
            [5, slot, u64::from(id), length, present, data, 0, 0]
        }
        Answer::Truncated { slot, id, length } => [6, slot, u64::from(id), length, 0, 0, 0, 0],
        Answer::Missing { received, first } => [7, received, first, 0, 0, 0, 0, 0],
    }
}

/// Writes the fresh state and clears the map.
pub fn set_up(
    n: u64,
    area: u64,
    limit: u64,
    arena: &[u8],
    map: &mut [u64],
    state: &mut [u64],
) -> Result<(), u8> {
    if state.len() != STATE_WORDS {
        return Err(refusal::SET_UP);
    }
    let engine = engine::set_up(n, area, limit, arena.len(), map)?;
    write_state(&engine, state);
    Ok(())
}

/// Runs calls, as many as there are words for in `calls` and `answers`, and ends before the first
/// that is none. Gives the number run.
pub fn run(
    state: &mut [u64],
    arena: &mut [u8],
    map: &mut [u64],
    calls: &[u64],
    bytes: &[u8],
    replies: &mut [u8],
    answers: &mut [u64],
) -> usize {
    let known = read_state(state);
    let keeps_form = known.is_some();
    let mut engine = known.unwrap_or(Engine::IMPOSSIBLE);
    let mut count = 0;
    for (words, out) in calls
        .chunks_exact(CALL_WORDS)
        .zip(answers.chunks_exact_mut(ANSWER_WORDS))
    {
        let Some(call) = read_call(words, bytes, replies) else {
            break;
        };
        let answer;
        (engine, answer) = run_call(engine, call, arena, map);
        out.copy_from_slice(&answer_words(&answer));
        count += 1;
    }
    if keeps_form {
        write_state(&engine, state);
    }
    count
}

/// Runs one call.
#[inline]
pub fn run_call(engine: Engine, call: Call, arena: &mut [u8], map: &mut [u64]) -> (Engine, Answer) {
    match call {
        Call::Post { peer, receive } => engine.post(peer, receive, arena, map),
        Call::Packet { peer, bytes, reply } => engine.packet(peer, bytes, reply, arena, map),
        Call::Cancel { peer, slot } => engine.cancel(peer, slot, arena, map),
        Call::Report { peer, slot } => engine.report(peer, slot, arena, map),
    }
}

/// Reads a packet into the first 19 words.
pub fn read(bytes: &[u8], values: &mut [u64]) -> Result<(), u8> {
    let values = values
        .get_mut(..VALUE_WORDS)
        .ok_or(refusal::OUT_TOO_SHORT)?;
    let packet = packet::read(bytes)?;
    let data_place = bytes.len() - packet.data.len();
    // The raw address is the first optional header, behind its size.
    let address = match (packet.raw_address, packet::row(packet.kind)) {
        (Some(address), Some(row)) => [1, row.header as u64 + 4, address.len() as u64],
        _ => [0, 0, 0],
    };
    values[..10].copy_from_slice(&[
        u64::from(packet.kind),
        u64::from(packet.msg_id),
        u64::from(packet.recv_id),
        u64::from(packet.send_id),
        packet.msg_length,
        packet.seg_length,
        packet.recv_length,
        packet.seg_offset,
        u64::from(packet.credit_request),
        packet.tag,
    ]);
    values[10..13].copy_from_slice(&address);
    values[13..].copy_from_slice(&[
        u64::from(packet.cq_data.is_some()),
        packet.cq_data.unwrap_or(0),
        u64::from(packet.connid.is_some()),
        packet.connid.map_or(0, u64::from),
        data_place as u64,
        packet.data.len() as u64,
    ]);
    Ok(())
}

/// Writes the packet of these values and gives its length. A field that its type doesn't have is
/// not looked at.
pub fn write(values: &[u64], address: &[u8], data: &[u8], out: &mut [u8]) -> Result<usize, u8> {
    if values.len() < VALUE_WORDS {
        return Err(refusal::OUT_TOO_SHORT);
    }
    let kind = u8::try_from(values[0]).ok();
    let row = kind.and_then(packet::row).ok_or(refusal::TYPE)?;
    let there = |place: usize| values[place] != 0;
    if !row.is_rtm() && (there(10) || there(13)) {
        return Err(refusal::FLAGS);
    }
    let own_ids: &[usize] = match row.shape {
        Shape::Cts => &[2, 3],
        Shape::CtsData => &[2],
        Shape::Eager | Shape::Medium => &[1],
        Shape::Long => &[1, 3, 8],
    };
    let narrow = |place: usize| u32::try_from(values[place]).map_err(|_| refusal::LENGTH);
    let own = |place: usize| match own_ids.contains(&place) {
        true => narrow(place),
        false => Ok(0),
    };
    let packet = Packet {
        kind: row.kind,
        msg_id: own(1)?,
        recv_id: own(2)?,
        send_id: own(3)?,
        msg_length: values[4],
        seg_length: values[5],
        recv_length: values[6],
        seg_offset: values[7],
        credit_request: own(8)?,
        tag: values[9],
        raw_address: there(10).then_some(address),
        cq_data: there(13).then_some(values[14]),
        connid: there(15).then(|| narrow(16)).transpose()?,
        data,
    };
    packet::write(&packet, out)
}

/// Where a range of a map's bits ends, if it lies in a map that a set-up can have.
fn end_in(map: &[u64], at: usize, count: usize) -> Result<usize, u8> {
    at.checked_add(count)
        .filter(|end| map.len() <= MAX_MAP_WORDS && *end <= 64 * map.len())
        .ok_or(refusal::LENT_LENGTH)
}

/// Refuses a range of bits of which one is set already.
pub fn overlap_test(map: &[u64], at: usize, count: usize) -> Result<(), u8> {
    let end = end_in(map, at, count)?;
    if bits::any(map, at, end) {
        return Err(refusal::SEGMENT_OVERLAP);
    }
    Ok(())
}

/// Sets a range of bits, whether they are set already or not.
pub fn mark_untested(map: &mut [u64], at: usize, count: usize) -> Result<(), u8> {
    let end = end_in(map, at, count)?;
    bits::mark(map, at, end);
    Ok(())
}

/// Sets a range of bits, unless one of them is set already.
pub fn mark(map: &mut [u64], at: usize, count: usize) -> Result<(), u8> {
    overlap_test(map, at, count)?;
    mark_untested(map, at, count)
}

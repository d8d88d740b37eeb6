//! The receive engine: posted receives, matching, storing of segments, grants.
//!
//! The state holds no memory of its own for messages. The caller lends an arena and a map of one
//! bit per arena byte with every call, and the map's bits are what tells which bytes have come.

use crate::bits;
use crate::packet::{self, Packet, Row, Shape};
use crate::refusal;

pub const MAX_PEERS: usize = 8;
pub const SLOTS: usize = 8;
/// A CTS, the only packet the engine writes; so the least reply buffer.
pub const CTS_LENGTH: usize = 24;
/// The longest CTSDATA header. A grant counts in packets that have room for it.
pub const CTSDATA_HEADER: u64 = 32;
/// The most packets one CTS grants, whatever the sender requests.
pub const MAX_CREDIT: u32 = 16;
/// An id up to this far ahead of next is early, one further ahead is late.
pub const FARTHEST_EARLY: u32 = 0x7FFF_FFFF;

/// What a call answers.
#[derive(Clone, Copy, PartialEq, Eq, Debug)]
pub enum Answer {
    Refused(u8),
    Posted(u64),
    Cancelled(u64),
    Stored,
    Granted(u64),
    Done {
        slot: u64,
        id: u32,
        length: u64,
        cq_data: Option<u64>,
    },
    Truncated {
        slot: u64,
        id: u32,
        length: u64,
    },
    Missing {
        received: u64,
        first: u64,
    },
}

/// The whole state. Peers from `n` on are never looked at.
#[derive(Clone, PartialEq, Eq, Debug)]
pub struct Engine {
    pub peers: [Peer; MAX_PEERS],
    pub n: u64,
    pub area: u64,
    pub limit: u64,
}

#[derive(Clone, Copy, PartialEq, Eq, Debug)]
pub struct Peer {
    /// The id of the next message to match.
    pub next: u32,
    pub slots: [Slot; SLOTS],
}

#[derive(Clone, Copy, PartialEq, Eq, Debug)]
pub enum Slot {
    Free,
    Posted { receive: Receive, age: u64 },
    Open { receive: Receive, message: Message },
}

/// A receive as posted. `start` counts from the beginning of the peer's area; `tag` and `ignore`
/// mean nothing if it isn't tagged.
#[derive(Clone, Copy, PartialEq, Eq, Debug)]
pub struct Receive {
    pub tagged: bool,
    pub tag: u64,
    pub ignore: u64,
    pub start: u64,
    pub capacity: u64,
}

/// A message of which segments are still to come. Shape and tagged are those of its RTM's type; a
/// field that this type doesn't have is zero.
#[derive(Clone, Copy, PartialEq, Eq, Debug)]
pub struct Message {
    pub shape: Shape,
    pub tagged: bool,
    pub id: u32,
    pub tag: u64,
    pub length: u64,
    /// The granted end: the data of the matching RTM, which may be none, plus all grants.
    pub granted: u64,
    pub send_id: u32,
    pub credit_request: u32,
    /// CQ data of the matching RTM.
    pub cq_data: Option<u64>,
}

/// The entry of a range that overlaps nothing.
const NO_RANGE: (u64, u64) = (u64::MAX, 0);

/// What no two slots may share: a posted receive's age or an open message's id, with a number for
/// which of the two it is. From `NO_NAME` on, each number stands for a free slot.
type Name = (u64, u64);
const AGE: u64 = 0;
const ID: u64 = 1;
const NO_NAME: u64 = 2;

/// Whether any two of the items clash. All pairs are looked at without leaving early: clashes are
/// rare, and a loop with no way out is the quicker one.
fn any_pair<T>(items: &[T; SLOTS], clash: impl Fn(&T, &T) -> bool) -> bool {
    let mut found = false;
    for number in 0..SLOTS {
        for other in number + 1..SLOTS {
            found |= clash(&items[number], &items[other]);
        }
    }
    found
}

/// What a peer's step gives: the peer as it is then, and the answer.
type Step = (Peer, Answer);

/// One peer's own part of what the caller lends: all that a packet of this peer can change.
struct Part<'a> {
    arena: &'a mut [u8],
    map: &'a mut [u64],
}

fn numbers_allowed(n: u64, area: u64, limit: u64) -> bool {
    (1..=MAX_PEERS as u64).contains(&n)
        && (64..=8_192).contains(&area)
        && area.is_multiple_of(64)
        && (64..=8_192).contains(&limit)
}

/// The arena's length in bytes for these set-up numbers, none if they are outside the limits.
pub fn arena_length(n: u64, area: u64, limit: u64) -> Option<usize> {
    numbers_allowed(n, area, limit).then(|| (n * area) as usize)
}

/// Checks the numbers and what is lent, clears the map and gives the fresh state.
pub fn set_up(
    n: u64,
    area: u64,
    limit: u64,
    arena_len: usize,
    map: &mut [u64],
) -> Result<Engine, u8> {
    let bytes = arena_length(n, area, limit).ok_or(refusal::SET_UP)?;
    if arena_len != bytes || map.len() != bytes / 64 {
        return Err(refusal::SET_UP);
    }
    map.fill(0);
    Ok(Engine {
        peers: [Peer::FRESH; MAX_PEERS],
        n,
        area,
        limit,
    })
}

impl Engine {
    /// A state that can't be, since it has no peer: every call is refused.
    pub const IMPOSSIBLE: Engine = Engine {
        peers: [Peer::FRESH; MAX_PEERS],
        n: 0,
        area: 0,
        limit: 0,
    };

    /// Posts a receive in the peer's lowest free slot.
    pub fn post(
        mut self,
        peer: u64,
        receive: Receive,
        arena: &[u8],
        map: &[u64],
    ) -> (Engine, Answer) {
        let step = self
            .check(peer, arena.len(), map.len())
            .and_then(|peer| Ok((peer, self.peers[peer].post(receive, self.area)?)));
        let answer = self.keep(step);
        (self, answer)
    }

    /// Takes a packet of the peer. Only the answer granted writes to the reply buffer.
    pub fn packet(
        mut self,
        peer: u64,
        bytes: &[u8],
        reply: &mut [u8],
        arena: &mut [u8],
        map: &mut [u64],
    ) -> (Engine, Answer) {
        let step = self.packet_step(peer, bytes, reply, arena, map);
        let answer = self.keep(step);
        (self, answer)
    }

    fn packet_step(
        &self,
        peer: u64,
        bytes: &[u8],
        reply: &mut [u8],
        arena: &mut [u8],
        map: &mut [u64],
    ) -> Result<(usize, Step), u8> {
        let number = self.check(peer, arena.len(), map.len())?;
        if reply.len() < CTS_LENGTH {
            return Err(refusal::REPLY_BUFFER);
        }
        let (row, packet) = packet::read_served(bytes, self.limit as usize)?;

        // The area is a multiple of 64, so a peer's bits begin and end where words do.
        let area = self.area as usize;
        let part = Part {
            arena: &mut arena[number * area..(number + 1) * area],
            map: &mut map[number * area / 64..(number + 1) * area / 64],
        };
        let peer = self.peers[number];
        let step = if row.is_rtm() {
            peer.rtm(row, &packet, self.limit, reply, part)?
        } else {
            peer.ctsdata(&packet, self.limit, reply, part)?
        };
        Ok((number, step))
    }

    /// Frees a posted or open slot. Arena and map stay as they are.
    pub fn cancel(mut self, peer: u64, slot: u64, arena: &[u8], map: &[u64]) -> (Engine, Answer) {
        let step = self
            .check(peer, arena.len(), map.len())
            .and_then(|peer| Ok((peer, self.peers[peer].cancel(slot)?)));
        let answer = self.keep(step);
        (self, answer)
    }

    /// Counts the bytes that have come of an open message and finds the first one missing.
    pub fn report(self, peer: u64, slot: u64, arena: &[u8], map: &[u64]) -> (Engine, Answer) {
        let answer = self
            .missing(peer, slot, arena, map)
            .unwrap_or_else(Answer::Refused);
        (self, answer)
    }

    fn missing(&self, peer: u64, slot: u64, arena: &[u8], map: &[u64]) -> Result<Answer, u8> {
        let peer = self.check(peer, arena.len(), map.len())?;
        let Some(Slot::Open { receive, message }) = self.peers[peer].slot(slot) else {
            return Err(refusal::SLOT);
        };
        let from = peer * self.area as usize + receive.start as usize;
        let to = from + message.length as usize;
        Ok(Answer::Missing {
            received: bits::count(map, from, to) as u64,
            first: (bits::first_clear(map, from, to) - from) as u64,
        })
    }

    /// Puts the peer back that made a step, none if it was refused, and gives the answer.
    fn keep(&mut self, step: Result<(usize, Step), u8>) -> Answer {
        match step {
            Ok((number, (peer, answer))) => {
                self.peers[number] = peer;
                answer
            }
            Err(number) => Answer::Refused(number),
        }
    }

    /// What every call checks first: the state, the lengths of what is lent, the peer's number.
    fn check(&self, peer: u64, arena_len: usize, map_len: usize) -> Result<usize, u8> {
        let bytes = self.checked_arena_length().ok_or(refusal::STATE)?;
        if arena_len != bytes || map_len != bytes / 64 {
            return Err(refusal::LENT_LENGTH);
        }
        if peer >= self.n {
            return Err(refusal::PEER);
        }
        Ok(peer as usize)
    }

    /// The arena's length, none for a state that can't be.
    fn checked_arena_length(&self) -> Option<usize> {
        let bytes = arena_length(self.n, self.area, self.limit)?;
        let peers = &self.peers[..self.n as usize];
        peers
            .iter()
            .all(|peer| peer.can_be(self.area))
            .then_some(bytes)
    }
}

impl Peer {
    pub const FRESH: Peer = Peer {
        next: 0,
        slots: [Slot::Free; SLOTS],
    };

    /// Whether the peer's slots can be as they are, each alone and all together.
    fn can_be(&self, area: u64) -> bool {
        let used = self.slots.iter().filter(|slot| !slot.is_free());
        self.slots.iter().all(|slot| slot.can_be(area)) && (used.count() < 2 || !self.has_clash())
    }

    /// Whether two used ranges overlap, two open messages have one id or two posted receives one
    /// age. Every call asks this of all peers, so what is compared pair by pair is first put side
    /// by side, in arrays of a fixed length. A free slot has entries there that clash with no other.
    fn has_clash(&self) -> bool {
        let mut ranges = [NO_RANGE; SLOTS];
        let mut names: [Name; SLOTS] = std::array::from_fn(|number| (NO_NAME + number as u64, 0));
        for (number, slot) in self.slots.iter().enumerate() {
            let receive = match slot {
                Slot::Free => continue,
                Slot::Posted { receive, age } => {
                    names[number] = (AGE, *age);
                    receive
                }
                Slot::Open { receive, message } => {
                    names[number] = (ID, u64::from(message.id));
                    receive
                }
            };
            if receive.capacity > 0 {
                ranges[number] = (receive.start, receive.end());
            }
        }
        any_pair(&ranges, |a, b| (a.0 < b.1) & (b.0 < a.1))
            || any_pair(&names, |a, b| (a.0 == b.0) & (a.1 == b.1))
    }

    fn slot(&self, number: u64) -> Option<&Slot> {
        self.slots.get(usize::try_from(number).ok()?)
    }

    fn post(self, receive: Receive, area: u64) -> Result<Step, u8> {
        if !receive.is_within(area) {
            return Err(refusal::LENGTH);
        }
        let mut used = self.slots.iter().filter_map(Slot::receive);
        if used.any(|used| used.overlaps(&receive)) {
            return Err(refusal::POST_OVERLAP);
        }
        let free = self
            .slots
            .iter()
            .position(Slot::is_free)
            .ok_or(refusal::NO_FREE_SLOT)?;

        // Ages are counted afresh at every post. So they stay below 8 and can't run out, and the
        // order doesn't depend on how many posts came before.
        let (peer, age) = self.with_ages_renumbered();
        let peer = peer.with_slot(free, Slot::Posted { receive, age });
        Ok((peer, Answer::Posted(free as u64)))
    }

    /// The peer with each posted receive's age the number of older ones, and the number of them all.
    fn with_ages_renumbered(mut self) -> (Peer, u64) {
        let ages = self.slots.map(|slot| slot.age());
        for slot in &mut self.slots {
            if let Slot::Posted { age, .. } = slot {
                let older = ages.iter().flatten().filter(|other| **other < *age);
                *age = older.count() as u64;
            }
        }
        (self, ages.iter().flatten().count() as u64)
    }

    fn with_slot(mut self, number: usize, slot: Slot) -> Peer {
        self.slots[number] = slot;
        self
    }

    fn cancel(self, slot: u64) -> Result<Step, u8> {
        match self.slot(slot) {
            None | Some(Slot::Free) => Err(refusal::SLOT),
            Some(_) => {
                let peer = self.with_slot(slot as usize, Slot::Free);
                Ok((peer, Answer::Cancelled(slot)))
            }
        }
    }

    /// The slot of the open message with this id. There is at most one.
    fn open_slot(&self, id: u32) -> Option<(usize, Receive, Message)> {
        self.slots
            .iter()
            .enumerate()
            .find_map(|(slot, content)| match content {
                Slot::Open { receive, message } if message.id == id => {
                    Some((slot, *receive, *message))
                }
                _ => None,
            })
    }

    /// The posted receive that a message matches: of those that fit, the one posted first.
    fn oldest_fitting(&self, row: &Row, tag: u64) -> Option<(usize, Receive)> {
        self.slots
            .iter()
            .enumerate()
            .filter_map(|(slot, content)| match content {
                Slot::Posted { receive, age } if receive.fits(row, tag) => {
                    Some((*age, slot, *receive))
                }
                _ => None,
            })
            .min_by_key(|(age, ..)| *age)
            .map(|(_, slot, receive)| (slot, receive))
    }

    fn rtm(
        self,
        row: &Row,
        packet: &Packet,
        limit: u64,
        reply: &mut [u8],
        part: Part,
    ) -> Result<Step, u8> {
        // An open id goes first, even if it equals next after having come round.
        match self.open_slot(packet.msg_id) {
            Some((slot, receive, message)) => {
                self.further_segment(slot, receive, message, row, packet, part)
            }
            None => self.first_segment(row, packet, limit, reply, part),
        }
    }

    /// An RTM whose id is not open: if its turn has come, it begins a message.
    fn first_segment(
        mut self,
        row: &Row,
        packet: &Packet,
        limit: u64,
        reply: &mut [u8],
        mut part: Part,
    ) -> Result<Step, u8> {
        self.check_turn(packet.msg_id)?;
        let (slot, receive) = self
            .oldest_fitting(row, packet.tag)
            .ok_or(refusal::NO_RECEIVE)?;
        let message = Message::begun_by(row, packet);
        self.next = self.next.wrapping_add(1);
        if message.length > receive.capacity {
            let answer = Answer::Truncated {
                slot: slot as u64,
                id: message.id,
                length: message.length,
            };
            return Ok((self.with_slot(slot, Slot::Free), answer));
        }

        // The whole range is cleared, so that no bit of an earlier message counts for this one.
        bits::clear(part.map, receive.start as usize, receive.end() as usize);
        part.store(receive.start + packet.seg_offset, packet.data);
        // A long message has at least one byte, so one that starts empty is not done here.
        if message.granted == message.length {
            return Ok(self.done(slot, &message));
        }
        let (message, answer) = match row.shape {
            Shape::Long => message.grant(limit, reply),
            _ => (message, Answer::Stored),
        };
        Ok((
            self.with_slot(slot, Slot::Open { receive, message }),
            answer,
        ))
    }

    /// Whether it is the turn of an id that is not open.
    fn check_turn(&self, id: u32) -> Result<(), u8> {
        match id.wrapping_sub(self.next) {
            0 => Ok(()),
            1..=FARTHEST_EARLY => Err(refusal::EARLY),
            _ => Err(refusal::LATE),
        }
    }

    /// An RTM whose id is open: it must be a further segment of that medium message.
    fn further_segment(
        self,
        slot: usize,
        receive: Receive,
        message: Message,
        row: &Row,
        packet: &Packet,
        mut part: Part,
    ) -> Result<Step, u8> {
        // A plain packet's tag is read as 0, and so is that of every plain message of a run.
        let belongs = row.shape == Shape::Medium
            && (message.shape, message.tagged) == (row.shape, row.tagged)
            && packet.msg_length == message.length
            && packet.tag == message.tag;
        if !belongs {
            return Err(refusal::NOT_THIS_MESSAGE);
        }
        part.store_if_new(receive.start + packet.seg_offset, packet.data)?;
        Ok(if part.has_all(receive.start, message.length) {
            self.done(slot, &message)
        } else {
            (self, Answer::Stored)
        })
    }

    fn ctsdata(
        self,
        packet: &Packet,
        limit: u64,
        reply: &mut [u8],
        mut part: Part,
    ) -> Result<Step, u8> {
        let (slot, receive, message) = self
            .open_slot(packet.recv_id)
            .filter(|(_, _, message)| message.is_long())
            .ok_or(refusal::LATE)?;
        // A sum that doesn't fit in 64 bits is beyond every granted end.
        let end = packet.seg_offset.checked_add(packet.data.len() as u64);
        if end.is_none_or(|end| end > message.granted) {
            return Err(refusal::BEYOND_GRANT);
        }
        part.store_if_new(receive.start + packet.seg_offset, packet.data)?;
        if !part.has_all(receive.start, message.granted) {
            return Ok((self, Answer::Stored));
        }
        // No run has bits set beyond the granted end; a state that does has all the bytes too.
        if part.has_all(receive.start, message.length) {
            return Ok(self.done(slot, &message));
        }
        let (message, answer) = message.grant(limit, reply);
        Ok((
            self.with_slot(slot, Slot::Open { receive, message }),
            answer,
        ))
    }

    /// Frees the slot of a message that has come whole. Its bits stay.
    fn done(self, slot: usize, message: &Message) -> Step {
        let answer = Answer::Done {
            slot: slot as u64,
            id: message.id,
            length: message.length,
            cq_data: message.cq_data,
        };
        (self.with_slot(slot, Slot::Free), answer)
    }
}

impl Slot {
    fn is_free(&self) -> bool {
        matches!(self, Slot::Free)
    }

    /// Whether the slot can be as it is, whatever the others hold.
    fn can_be(&self, area: u64) -> bool {
        match self {
            Slot::Free => true,
            Slot::Posted { receive, .. } => receive.is_within(area),
            Slot::Open { receive, message } => {
                receive.is_within(area)
                    && message.length <= receive.capacity
                    && message.granted <= message.length
            }
        }
    }

    fn receive(&self) -> Option<&Receive> {
        match self {
            Slot::Free => None,
            Slot::Posted { receive, .. } | Slot::Open { receive, .. } => Some(receive),
        }
    }

    fn age(&self) -> Option<u64> {
        match self {
            Slot::Posted { age, .. } => Some(*age),
            _ => None,
        }
    }
}

impl Receive {
    /// The end of its range. It saturates, which is as far outside every area as the true sum.
    fn end(&self) -> u64 {
        self.start.saturating_add(self.capacity)
    }

    fn is_within(&self, area: u64) -> bool {
        self.end() <= area
    }

    /// Whether the two ranges share a byte; an empty one shares none.
    fn overlaps(&self, other: &Receive) -> bool {
        self.capacity > 0
            && other.capacity > 0
            && self.start < other.end()
            && other.start < self.end()
    }

    /// Whether an RTM of this type and tag fits. The capacity doesn't count: too small a receive
    /// is matched and the message truncated.
    fn fits(&self, row: &Row, tag: u64) -> bool {
        self.tagged == row.tagged && (!self.tagged || (self.tag ^ tag) & !self.ignore == 0)
    }
}

impl Message {
    fn is_long(&self) -> bool {
        self.shape == Shape::Long
    }

    /// The message that an RTM begins, with the RTM's own data granted.
    fn begun_by(row: &Row, packet: &Packet) -> Message {
        let data = packet.data.len() as u64;
        Message {
            shape: row.shape,
            tagged: row.tagged,
            id: packet.msg_id,
            tag: packet.tag,
            length: match row.shape {
                Shape::Eager => data,
                _ => packet.msg_length,
            },
            granted: data,
            send_id: packet.send_id,
            credit_request: packet.credit_request,
            cq_data: packet.cq_data,
        }
    }

    /// Grants the next bytes: moves the granted end and writes the CTS. Some length must be left.
    fn grant(mut self, limit: u64, reply: &mut [u8]) -> (Message, Answer) {
        let packets = u64::from(self.credit_request.clamp(1, MAX_CREDIT));
        let left = self.length - self.granted;
        let recv_length = left.min(packets * (limit - CTSDATA_HEADER));
        self.granted += recv_length;

        let cts = Packet {
            kind: packet::CTS,
            send_id: self.send_id,
            recv_id: self.id,
            recv_length,
            ..Packet::default()
        };
        let written = packet::write(&cts, reply);
        // The buffer's length was checked, and the grant is at least one byte.
        debug_assert_eq!(written, Ok(CTS_LENGTH));
        (self, Answer::Granted(recv_length))
    }
}

impl Part<'_> {
    /// Copies a segment's data in and marks its bytes.
    fn store(&mut self, at: u64, data: &[u8]) {
        let from = at as usize;
        let to = from + data.len();
        self.arena[from..to].copy_from_slice(data);
        bits::mark(self.map, from, to);
    }

    /// The same for a segment that must not share a byte with one already accepted.
    fn store_if_new(&mut self, at: u64, data: &[u8]) -> Result<(), u8> {
        let from = at as usize;
        if bits::any(self.map, from, from + data.len()) {
            return Err(refusal::SEGMENT_OVERLAP);
        }
        self.store(at, data);
        Ok(())
    }

    /// Whether the first `length` bytes from `start` on have all come.
    fn has_all(&self, start: u64, length: u64) -> bool {
        bits::all(self.map, start as usize, (start + length) as usize)
    }
}

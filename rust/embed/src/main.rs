//! A message layer that receives two messages of one peer: a medium one, whose last segment comes
//! first and twice, and a long one, for which it sends the CTS that the engine writes. The packets
//! stand here as they come off the wire. `embed/receive.c` is the same in C.

use quagfeather::{ANSWER_WORDS, CALL_WORDS, REPLY_LENGTH, STATE_WORDS};

const PEERS: usize = 2;
const AREA: usize = 256;
const LIMIT: usize = 96;
const PEER: usize = 1;

/// Type, version, flags; id; length; offset; data.
const LAST_SEGMENT: &[u8] =
    b"\x42\x04\x04\0\0\0\0\0\x1f\0\0\0\0\0\0\0\x14\0\0\0\0\0\0\0 any order.";
const FIRST_SEGMENT: &[u8] =
    b"\x42\x04\x04\0\0\0\0\0\x1f\0\0\0\0\0\0\0\0\0\0\0\0\0\0\0Segments may come in";
/// Type, version, flags; id; length; send_id, credit request; data.
const REQUEST: &[u8] =
    b"\x44\x04\x04\0\x01\0\0\0\x36\0\0\0\0\0\0\0\x07\0\0\0\x01\0\0\0A long one begins, and";
/// Type, version, flags; recv_id; length and offset of the segment; data.
const REST: &[u8] =
    b"\x04\x04\0\0\x01\0\0\0\x20\0\0\0\0\0\0\0\x16\0\0\0\0\0\0\0 goes on when it is granted more";

/// What the layer lends at every run, and keeps from one to the next.
struct Layer {
    arena: [u8; PEERS * AREA],
    map: [u64; PEERS * AREA / 64],
    state: [u64; STATE_WORDS],
}

impl Layer {
    /// A plain receive at the start of the peer's area.
    fn post(&mut self, capacity: u64) {
        self.make([1, PEER as u64, 0, 0, 0, 0, capacity, 0], b"");
    }

    fn feed(&mut self, packet: &[u8]) {
        let (length, room) = (packet.len() as u64, REPLY_LENGTH as u64);
        self.make([2, PEER as u64, 0, length, 0, room, 0, 0], packet);
    }

    fn report(&mut self, slot: u64) {
        self.make([4, PEER as u64, slot, 0, 0, 0, 0, 0], b"");
    }

    /// Makes one call. A layer that has several at hand lends them together.
    fn make(&mut self, call: [u64; CALL_WORDS], packet: &[u8]) {
        let mut reply = [0; REPLY_LENGTH];
        let mut answer = [0; ANSWER_WORDS];
        let (state, arena, map) = (&mut self.state, &mut self.arena, &mut self.map);
        match quagfeather::run(state, arena, map, &call, packet, &mut reply, &mut answer) {
            1 => self.show(&answer, &reply),
            _ => println!("no call"),
        }
    }

    /// Says what was answered. A layer would send the reply; this one says which send it is for.
    fn show(&self, answer: &[u64; ANSWER_WORDS], reply: &[u8]) {
        match *answer {
            [0, number, ..] => println!("refused {number}"),
            [1, slot, ..] => println!("posted in slot {slot}"),
            [3, ..] => println!("stored"),
            [4, length, ..] => println!("granted {length}, CTS for send {}", reply[8]),
            [5, _, _, length, ..] => {
                let message = &self.arena[PEER * AREA..][..length as usize];
                println!("done: {}", String::from_utf8_lossy(message));
            }
            [7, received, first, ..] => println!("{received} in, first missing {first}"),
            _ => {}
        }
    }
}

fn main() {
    let mut layer = Layer {
        arena: [0; PEERS * AREA],
        map: [0; PEERS * AREA / 64],
        state: [0; STATE_WORDS],
    };
    let (arena, map, state) = (&layer.arena, &mut layer.map, &mut layer.state);
    let set_up = quagfeather::set_up(PEERS, AREA, LIMIT, arena, map, state);
    println!("set-up {}", set_up.map_or_else(|number| number, |()| 0));

    layer.post(31);
    layer.feed(LAST_SEGMENT);
    layer.feed(LAST_SEGMENT);
    layer.report(0);
    layer.feed(FIRST_SEGMENT);

    layer.post(54);
    layer.feed(REQUEST);
    layer.feed(REST);

    layer.state[4] = 3; // a phase that no slot has: a state that can't be
    layer.report(0);
}

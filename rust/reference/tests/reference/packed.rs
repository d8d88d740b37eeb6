//! The packed form: words of states, calls, answers and packet values.

use reference::engine::{Message, Receive, Slot};
use reference::packed::{self, *};
use reference::packet::{self, Packet, Shape};

use crate::support::*;

/// What a run is lent, in words and bytes.
#[derive(Clone, PartialEq, Debug)]
struct Lent {
    state: Vec<u64>,
    arena: Vec<u8>,
    map: Vec<u64>,
    replies: Vec<u8>,
    answers: Vec<u64>,
}

impl Lent {
    /// The set-up of the worked cases, with room for eight answers.
    fn usual() -> Lent {
        let mut lent = Lent {
            state: vec![7; STATE_WORDS],
            arena: vec![0xEE; 512],
            map: vec![7; 8],
            replies: vec![0xEE; 40],
            answers: vec![7; 8 * ANSWER_WORDS],
        };
        let taken = packed::set_up(2, 256, 96, &lent.arena, &mut lent.map, &mut lent.state);
        assert_eq!(taken, Ok(()));
        lent
    }

    fn run(&mut self, calls: &[[u64; CALL_WORDS]], bytes: &[u8]) -> usize {
        packed::run(
            &mut self.state,
            &mut self.arena,
            &mut self.map,
            &calls.concat(),
            bytes,
            &mut self.replies,
            &mut self.answers,
        )
    }

    fn answer(&self, call: usize) -> &[u64] {
        &self.answers[call * ANSWER_WORDS..(call + 1) * ANSWER_WORDS]
    }
}

/// Where the words of a slot begin.
fn slot_at(peer: usize, slot: usize) -> usize {
    4 + 129 * peer + 16 * slot
}

#[test]
fn a_fresh_state_is_three_numbers_and_zeros() {
    let lent = Lent::usual();
    assert_eq!(lent.state.len(), 1_035);
    assert_eq!(lent.state[..3], [2, 256, 96]);
    assert!(lent.state[3..].iter().all(|word| *word == 0));
    assert!(lent.map.iter().all(|word| *word == 0));
}

#[test]
fn a_refused_set_up_changes_nothing() {
    for (n, area, limit, map_words, state_words) in [
        (0, 256, 96, 8, 1_035),
        (2, 255, 96, 8, 1_035),
        (2, 256, 63, 8, 1_035),
        (2, 256, 96, 7, 1_035),
        (2, 256, 96, 8, 1_034),
        (2, 256, 96, 8, 1_036),
    ] {
        let (mut map, mut state) = (vec![7; map_words], vec![7; state_words]);
        let refused = packed::set_up(n, area, limit, &[0; 512], &mut map, &mut state);
        assert_eq!(refused, Err(1));
        assert!(map.iter().chain(&state).all(|word| *word == 7));
    }
}

/// Every word of a posted and an open slot, at its place.
#[test]
fn the_words_of_a_state() {
    let mut engine = Receiver::new(3, 128, 70).engine;
    let receive = Receive {
        tagged: true,
        tag: 11,
        ignore: 12,
        start: 13,
        capacity: 14,
    };
    let message = Message {
        shape: Shape::Long,
        tagged: true,
        id: 21,
        tag: 22,
        length: 23,
        granted: 24,
        send_id: 25,
        credit_request: 26,
        cq_data: Some(27),
    };
    engine.peers[1].next = 9;
    engine.peers[1].slots[2] = Slot::Posted { receive, age: 15 };
    engine.peers[7].slots[7] = Slot::Open { receive, message };
    let mut words = vec![7; STATE_WORDS];
    packed::write_state(&engine, &mut words);

    let mut expected = vec![0; STATE_WORDS];
    expected[..3].copy_from_slice(&[3, 128, 70]);
    expected[3 + 129] = 9;
    let posted = [1, 1, 11, 12, 13, 14, 15, 0, 0, 0, 0, 0, 0, 0, 0, 0];
    expected[slot_at(1, 2)..][..16].copy_from_slice(&posted);
    let open = [2, 1, 11, 12, 13, 14, 0, 9, 21, 22, 23, 24, 25, 26, 1, 27];
    expected[slot_at(7, 7)..].copy_from_slice(&open);
    assert_eq!(words, expected);
    assert_eq!(packed::read_state(&words), Some(engine));
}

#[test]
fn words_that_no_state_has() {
    let above = u64::from(u32::MAX) + 1;
    let free = slot_at(0, 0);
    let posted = slot_at(0, 1);
    let open = slot_at(5, 0);
    let mut words = Lent::usual().state;
    words[posted] = 1;
    words[open] = 2;
    assert!(packed::read_state(&words).is_some());

    let mut wrong = vec![
        (3, above),
        (3 + 7 * 129, above),
        (posted, 3),
        (posted + 1, 2),
        (open + 6, 1),
        (open + 7, 10),
        (open + 8, above),
        (open + 12, above),
        (open + 13, above),
        (open + 14, 2),
        (open + 15, 1),
    ];
    wrong.extend((1..16).map(|word| (free + word, 1)));
    wrong.extend((7..16).map(|word| (posted + word, 1)));
    for (place, word) in wrong {
        let mut words = words.clone();
        words[place] = word;
        assert_eq!(packed::read_state(&words), None, "word {place}");
    }
    assert_eq!(packed::read_state(&words[1..]), None);
    words.push(0);
    assert_eq!(packed::read_state(&words), None);
}

/// Any state goes to words and back.
#[test]
fn states_survive_their_words() {
    let mut random = Random::new(6);
    for _ in 0..2_000 {
        let mut r = Receiver::usual();
        for peer in &mut r.engine.peers {
            *peer = crate::states::any_peer(&mut random);
        }
        r.engine.n = random.any();
        let mut words = vec![7; STATE_WORDS];
        packed::write_state(&r.engine, &mut words);
        assert_eq!(packed::read_state(&words), Some(r.engine));
    }
}

#[test]
fn the_words_of_every_answer() {
    let mut lent = Lent::usual();
    let mut bytes = Vec::new();
    let mut packet = |packet: &[u8], reply: u64| {
        let place = (bytes.len() as u64, packet.len() as u64);
        bytes.extend_from_slice(packet);
        packed::packet_words(0, place, (reply, 24))
    };
    let rtm = Packet {
        kind: packet::MEDIUM_MSGRTM,
        msg_length: 2,
        cq_data: Some(77),
        data: b"a",
        ..Packet::default()
    };
    let calls = [
        packed::post_words(0, &plain(0, 200)),
        packet(&written(&rtm), 0),
        packed::report_words(0, 0),
        packet(&medium(0, 2, 1, b"b"), 0),
        packed::post_words(0, &plain(0, 200)),
        packet(&long(1, 200, 7, 2, &[1; 40]), 9),
        packed::cancel_words(0, 0),
        packed::cancel_words(0, 0),
    ];
    assert_eq!(lent.run(&calls, &bytes), 8);
    let expected: [&[u64]; 8] = [
        &[1, 0],
        &[3],
        &[7, 1, 1],
        &[5, 0, 0, 2, 1, 77],
        &[1, 0],
        &[4, 128],
        &[2, 0],
        &[0, 20],
    ];
    for (call, words) in expected.iter().enumerate() {
        let mut whole = [0; ANSWER_WORDS];
        whole[..words.len()].copy_from_slice(words);
        assert_eq!(lent.answer(call), whole, "call {call}");
    }
    assert_eq!(lent.replies[..9], [0xEE; 9]);
    assert_eq!(packet::read(&lent.replies[9..33]).unwrap().recv_length, 128);
    assert_eq!(lent.replies[33..], [0xEE; 7]);
    assert_eq!(lent.state[3], 2, "the state was written back");
    assert_eq!(lent.arena[..2], [1, 1]);

    let cut = lent.run(
        &[
            packed::post_words(1, &plain(0, 1)),
            packed::packet_words(1, (0, 11), (0, 24)),
        ],
        &eager(0, b"abc"),
    );
    assert_eq!(cut, 2);
    assert_eq!(lent.answer(1), [6, 0, 0, 3, 0, 0, 0, 0]);
}

#[test]
fn a_run_ends_before_what_is_no_call() {
    let post = packed::post_words(0, &plain(0, 1));
    let none = [
        [0; 8],
        [5, 0, 0, 0, 0, 0, 0, 0],
        [1, 0, 2, 0, 0, 0, 0, 0],
        packed::packet_words(0, (0, 5), (0, 24)),
        packed::packet_words(0, (5, 0), (0, 24)),
        packed::packet_words(0, (u64::MAX, 1), (0, 24)),
        packed::packet_words(0, (0, 4), (17, 24)),
        packed::packet_words(0, (0, 4), (41, 0)),
        packed::packet_words(0, (0, 4), (1, u64::MAX)),
    ];
    for call in none {
        let mut lent = Lent::usual();
        assert_eq!(lent.run(&[post, call, post], &[0; 4]), 1, "{call:?}");
        assert_eq!(lent.answer(0), [1, 0, 0, 0, 0, 0, 0, 0]);
        assert_eq!(lent.answers[8..], [7; 56], "the others' answers stay");
        assert_eq!(lent.state[slot_at(0, 0)], 1);
    }
    // Empty slices at the very end are inside.
    let call = packed::packet_words(0, (4, 0), (40, 0));
    assert_eq!(Lent::usual().run(&[call], &[0; 4]), 1);
}

#[test]
fn a_run_ends_where_calls_or_answers_do() {
    let report = packed::report_words(0, 0);
    let mut lent = Lent::usual();
    assert_eq!(lent.run(&[report; 9], &[]), 8);
    lent.answers.truncate(23);
    assert_eq!(lent.run(&[report; 9], &[]), 2);
    let calls = [report; 9].concat();
    let ran = packed::run(
        &mut lent.state,
        &mut lent.arena,
        &mut lent.map,
        &calls[..15],
        &[],
        &mut [],
        &mut [0; 64],
    );
    assert_eq!(ran, 1);
}

/// A state that can't be, whether by its form or by its numbers, refuses every call with 2.
#[test]
fn a_state_that_cannot_be_stays_as_it_was() {
    let calls = [
        packed::post_words(0, &plain(0, 1)),
        packed::packet_words(0, (0, 0), (0, 0)),
        packed::cancel_words(9, 9),
        packed::report_words(9, 9),
    ];
    for (place, word) in [(2, 63), (slot_at(0, 0), 3), (slot_at(7, 0), 3)] {
        let mut lent = Lent::usual();
        lent.state[place] = word;
        let mut expected = lent.clone();
        for answer in expected.answers.chunks_exact_mut(8).take(4) {
            answer.copy_from_slice(&[0, 2, 0, 0, 0, 0, 0, 0]);
        }
        assert_eq!(lent.run(&calls, &[]), 4);
        assert_eq!(lent, expected);
    }
    for length in [0, STATE_WORDS - 1, STATE_WORDS + 1] {
        let mut lent = Lent::usual();
        lent.state.resize(length, 0);
        let before = lent.state.clone();
        assert_eq!(lent.run(&calls, &[]), 4);
        assert_eq!(lent.answer(3), [0, 2, 0, 0, 0, 0, 0, 0]);
        assert_eq!(lent.state, before);
    }
}

#[test]
fn the_values_of_a_packet() {
    let bytes = written(&Packet {
        kind: packet::LONGCTS_TAGRTM,
        msg_id: 1,
        send_id: 3,
        msg_length: 40,
        credit_request: 8,
        tag: 9,
        raw_address: Some(b"abcde"),
        cq_data: Some(14),
        connid: Some(16),
        data: b"data",
        ..Packet::default()
    });
    let mut values = [7; 21];
    assert_eq!(packed::read(&bytes, &mut values), Ok(()));
    let expected = [
        69, 1, 0, 3, 40, 0, 0, 0, 8, 9, 1, 36, 5, 1, 14, 1, 16, 53, 4, 7, 7,
    ];
    assert_eq!(values, expected);
    assert_eq!(&bytes[36..41], b"abcde");
    assert_eq!(&bytes[53..], b"data");

    let mut out = [0xEE; 60];
    let length = packed::write(&values, b"abcde", b"data", &mut out);
    assert_eq!(length, Ok(bytes.len()));
    assert_eq!(out[..bytes.len()], bytes);
    assert_eq!(out[bytes.len()..], [0xEE; 3]);

    // The places of address and data mean nothing to the writer, and any word but 0 is a yes.
    values[10] = u64::MAX;
    values[11..13].fill(0);
    values[17..].fill(0);
    assert_eq!(
        packed::write(&values, b"abcde", b"data", &mut out),
        Ok(bytes.len())
    );
    assert_eq!(out[..bytes.len()], bytes);
}

#[test]
fn what_an_empty_start_reads_as() {
    let bytes = long(1, 40, 3, 8, b"");
    let mut values = [7; VALUE_WORDS];
    assert_eq!(packed::read(&bytes, &mut values), Ok(()));
    assert_eq!(
        values,
        [68, 1, 0, 3, 40, 0, 0, 0, 8, 0, 0, 0, 0, 0, 0, 0, 0, 24, 0]
    );
    let mut out = [0xEE; 24];
    assert_eq!(packed::write(&values, &[], &[], &mut out), Ok(24));
    assert_eq!(out[..], bytes);
    values[4] = 0;
    assert_eq!(packed::write(&values, &[], &[], &mut out), Err(11));
}

#[test]
fn what_a_cts_reads_as() {
    let bytes = written(&Packet {
        kind: packet::CTS,
        send_id: 3,
        recv_id: 2,
        recv_length: 6,
        ..Packet::default()
    });
    let mut values = [7; VALUE_WORDS];
    assert_eq!(packed::read(&bytes, &mut values), Ok(()));
    assert_eq!(
        values,
        [3, 0, 2, 3, 0, 0, 6, 0, 0, 0, 0, 0, 0, 0, 0, 0, 0, 24, 0]
    );
}

#[test]
fn refusals_of_reader_and_writer() {
    let mut short = [7; 18];
    assert_eq!(packed::read(&[], &mut short), Err(21));
    assert_eq!(packed::write(&short, &[], &[], &mut [0; 99]), Err(21));
    let mut values = [7; VALUE_WORDS];
    assert_eq!(packed::read(&[64, 4, 4], &mut values), Err(7));
    assert_eq!(values, [7; VALUE_WORDS]);

    let mut eager = [0; VALUE_WORDS];
    eager[0] = 64;
    let refused = |place: usize, word: u64| {
        let mut values = eager;
        values[place] = word;
        packed::write(&values, &[], &[], &mut [0; 99])
    };
    assert_eq!(refused(0, 256), Err(9));
    assert_eq!(refused(0, 6), Err(9));
    assert_eq!(refused(1, 1 << 32), Err(11));
    assert_eq!(refused(1, (1 << 32) - 1), Ok(8));
    assert_eq!(refused(16, 1 << 32), Ok(8), "no connid is there");
    let mut values = eager;
    values[15..17].copy_from_slice(&[1, 1 << 32]);
    assert_eq!(packed::write(&values, &[], &[], &mut []), Err(11));
    for kind in [6, 256, u64::MAX] {
        values[0] = kind;
        assert_eq!(packed::write(&values, &[], &[], &mut []), Err(9));
    }
}

/// The words of the fields of 32 bits that each type has.
const OWN_IDS: [(u64, &[usize]); 8] = [
    (3, &[2, 3]),
    (4, &[2]),
    (64, &[1]),
    (65, &[1]),
    (66, &[1]),
    (67, &[1]),
    (68, &[1, 3, 8]),
    (69, &[1, 3, 8]),
];

#[test]
fn only_own_fields_are_looked_at() {
    for (kind, own) in OWN_IDS {
        let mut values = [0; VALUE_WORDS];
        values[0] = kind;
        values[4..7].fill(1);
        let data: &[u8] = if kind == 3 { &[] } else { &[7] };
        let mut right = [0; 99];
        let length = packed::write(&values, &[], data, &mut right);
        assert!(length.is_ok(), "type {kind}");
        for place in [1, 2, 3, 8] {
            let mut values = values;
            values[place] = 1 << 40;
            let mut out = [0; 99];
            let answer = packed::write(&values, &[], data, &mut out);
            if own.contains(&place) {
                assert_eq!(answer, Err(11), "type {kind}, word {place}");
            } else {
                assert_eq!((answer, out), (length, right), "type {kind}, word {place}");
            }
        }
    }
}

#[test]
fn a_header_that_the_type_cant_have_comes_before_its_numbers() {
    for kind in [3, 4] {
        for place in [10, 13] {
            let mut values = [1 << 40; VALUE_WORDS];
            values[0] = kind;
            values[10] = 0;
            values[13] = 0;
            assert_eq!(packed::write(&values, &[], &[], &mut []), Err(11));
            values[place] = 5;
            assert_eq!(packed::write(&values, &[], &[], &mut []), Err(10));
        }
    }
}

#[test]
fn marks() {
    let mut map = [0; 3];
    assert_eq!(packed::mark(&mut map, 60, 70), Ok(()));
    assert_eq!(map, [0xF << 60, u64::MAX, 0b11]);
    assert_eq!(packed::mark(&mut map, 129, 2), Err(16));
    assert_eq!(packed::mark(&mut map, 130, 63), Err(3));
    assert_eq!(packed::mark(&mut map, usize::MAX, 2), Err(3));
    assert_eq!(map, [0xF << 60, u64::MAX, 0b11]);
    assert_eq!(packed::mark(&mut map, 130, 62), Ok(()));
    assert_eq!(map, [0xF << 60, u64::MAX, u64::MAX]);
    assert_eq!(packed::mark(&mut map, 100, 0), Ok(()));
    assert_eq!(packed::mark(&mut map, 193, 0), Err(3));
    assert_eq!(packed::mark(&mut [0; 1_024], 0, 65_536), Ok(()));
    assert_eq!(packed::mark(&mut [0; 1_025], 0, 1), Err(3));
}

#[test]
fn tests_without_marks_and_marks_without_a_test() {
    let mut map = [0, 1 << 5, 0];
    assert_eq!(packed::overlap_test(&map, 60, 9), Ok(()));
    assert_eq!(packed::overlap_test(&map, 60, 10), Err(16));
    assert_eq!(packed::overlap_test(&map, 70, 122), Ok(()));
    assert_eq!(packed::overlap_test(&map, 70, 123), Err(3));
    assert_eq!(packed::mark_untested(&mut map, 60, 10), Ok(()));
    assert_eq!(map, [0xF << 60, 0x3F, 0]);
    assert_eq!(packed::mark_untested(&mut map, 192, 1), Err(3));
    assert_eq!(map, [0xF << 60, 0x3F, 0]);
}

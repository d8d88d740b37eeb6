//! Which receive a message matches, what a match changes, ages, cancels and the ids' circle.

use reference::engine::{Answer::*, Message, Receive, Slot};
use reference::packet::{self, Packet, Shape};

use crate::support::*;

#[test]
fn a_fresh_peer() {
    let r = Receiver::usual();
    for peer in r.engine.peers {
        assert_eq!(peer.next, 0);
        assert!(peer.slots.iter().all(|slot| *slot == Slot::Free));
    }
    assert!(
        r.arena.iter().all(|byte| *byte == 0xEE),
        "set-up leaves the arena"
    );
}

#[test]
fn the_oldest_fitting_receive_matches() {
    let mut r = Receiver::usual();
    assert_eq!(r.post(0, 0, 10), Posted(0));
    assert_eq!(r.post(0, 10, 10), Posted(1));
    assert_eq!(r.cancel(0, 0), Cancelled(0));
    assert_eq!(r.post(0, 20, 10), Posted(0));
    // Slot 1 was posted before what is now in slot 0.
    assert_eq!(r.packet(0, &eager(0, b"a")), done(1, 0, 1));
    assert_eq!(r.packet(0, &eager(1, b"a")), done(0, 1, 1));
}

#[test]
fn plain_and_tagged_receives_are_apart() {
    let mut r = Receiver::usual();
    assert_eq!(r.post_tagged(0, 0, u64::MAX, 0, 10), Posted(0));
    assert_eq!(r.packet(0, &eager(0, b"a")), Refused(13));
    // A plain receive's tag and ignore mean nothing.
    let receive = Receive {
        tag: 77,
        ..plain(10, 10)
    };
    assert_eq!(r.post_receive(0, receive), Posted(1));
    assert_eq!(r.packet(0, &eager(0, b"a")), done(1, 0, 1));
    assert_eq!(r.packet(0, &eager_tagged(1, 12345, b"a")), done(0, 1, 1));
}

#[test]
fn too_small_a_receive_is_not_passed_over() {
    let mut r = Receiver::usual();
    r.post(0, 0, 2);
    r.post(0, 10, 200);
    assert_eq!(
        r.packet(0, &eager(0, b"abc")),
        Truncated {
            slot: 0,
            id: 0,
            length: 3
        }
    );
    assert_eq!(r.packet(0, &eager(1, b"abc")), done(1, 1, 3));
}

#[test]
fn truncated_messages_of_every_kind() {
    let mut r = Receiver::usual();
    let length = u64::MAX;
    let messages = [
        medium(0, length, 5, b"ab"),
        long(1, length, 1, 1, b"ab"),
        long(2, length, 1, 1, b""),
    ];
    for (id, bytes) in messages.iter().enumerate() {
        assert_eq!(r.post(0, 0, 100), Posted(0));
        let before = r.clone();
        let id = id as u32;
        assert_eq!(
            r.packet(0, bytes),
            Truncated {
                slot: 0,
                id,
                length
            }
        );
        assert_eq!(
            (&r.arena, &r.map, &r.reply),
            (&before.arena, &before.map, &before.reply)
        );
        assert_eq!(r.packet(0, bytes), Refused(15), "later segments are late");
    }
    assert_eq!(r.packet(0, &ctsdata(1, 2, b"c")), Refused(15));
    assert_eq!(r.packet(0, &ctsdata(2, 0, b"c")), Refused(15));
}

#[test]
fn a_match_clears_the_receives_whole_range_and_nothing_else() {
    let mut r = Receiver::usual();
    assert_eq!(r.post(1, 70, 100), Posted(0));
    r.map.fill(u64::MAX);
    assert_eq!(r.packet(1, &medium(0, 50, 10, b"abc")), Stored);
    for byte in 0..512 {
        let place = byte as i64 - 256 - 70;
        let expected = !(0..100).contains(&place) || (10..13).contains(&place);
        assert_eq!(r.bit(byte), expected, "byte {byte}");
        let data = if (10..13).contains(&place) {
            b"abc"[place as usize - 10]
        } else {
            0xEE
        };
        assert_eq!(r.arena[byte], data, "byte {byte}");
    }
    assert_eq!(
        r.report(1, 0),
        Missing {
            received: 3,
            first: 0
        }
    );
}

#[test]
fn an_empty_message_clears_its_receives_whole_range() {
    let mut r = Receiver::usual();
    assert_eq!(r.post(0, 60, 10), Posted(0));
    r.map.fill(u64::MAX);
    assert_eq!(r.packet(0, &eager(0, b"")), done(0, 0, 0));
    for byte in 0..512 {
        assert_eq!(r.bit(byte), !(60..70).contains(&byte));
    }
}

#[test]
fn an_empty_start_clears_its_receives_whole_range_and_marks_nothing() {
    let mut r = Receiver::usual();
    assert_eq!(r.post(0, 60, 100), Posted(0));
    r.map.fill(u64::MAX);
    assert_eq!(r.packet(0, &long(0, 80, 1, 1, b"")), Granted(64));
    for byte in 0..512 {
        assert_eq!(r.bit(byte), !(60..160).contains(&byte), "byte {byte}");
    }
    assert_eq!(r.arena, [0xEE; 512]);
    let Slot::Open { message, .. } = r.engine.peers[0].slots[0] else {
        panic!("the message is open");
    };
    assert_eq!((message.length, message.granted), (80, 64));
    assert_eq!(
        r.report(0, 0),
        Missing {
            received: 0,
            first: 0
        }
    );
}

#[test]
fn neither_post_nor_cancel_nor_done_clears_bits() {
    let mut r = Receiver::usual();
    r.post(0, 0, 4);
    assert_eq!(r.packet(0, &eager(0, b"abcd")), done(0, 0, 4));
    assert_eq!(r.map[0], 0b1111);
    r.post(0, 0, 4);
    assert_eq!(r.map[0], 0b1111);
    assert_eq!(r.cancel(0, 0), Cancelled(0));
    assert_eq!(r.map[0], 0b1111);
    // The bits of the message before do not count for the next one.
    r.post(0, 0, 4);
    assert_eq!(r.packet(0, &medium(1, 4, 3, b"z")), Stored);
    assert_eq!(r.map[0], 0b1000);
    assert_eq!(r.cancel(0, 0), Cancelled(0));
    assert_eq!(r.map[0], 0b1000);
}

#[test]
fn cq_data_is_the_matching_packets() {
    let segment = |seg_offset: u64, cq_data: Option<u64>| {
        let kind = packet::MEDIUM_MSGRTM;
        let data = b"ab";
        written(&Packet {
            kind,
            msg_length: 4,
            seg_offset,
            cq_data,
            data,
            ..Packet::default()
        })
    };
    for (first, second) in [(Some(5), None), (None, Some(6)), (Some(7), Some(8))] {
        let mut r = Receiver::usual();
        r.post(0, 0, 4);
        assert_eq!(r.packet(0, &segment(2, first)), Stored);
        let answer = r.packet(0, &segment(0, second));
        assert_eq!(
            answer,
            Done {
                slot: 0,
                id: 0,
                length: 4,
                cq_data: first
            }
        );
    }
}

#[test]
fn optional_headers_do_not_disturb_the_data() {
    let mut r = Receiver::usual();
    r.post_tagged(0, 3, 0, 0, 10);
    let bytes = written(&Packet {
        kind: packet::EAGER_TAGRTM,
        tag: 3,
        raw_address: Some(&[9; 32]),
        cq_data: Some(u64::MAX),
        connid: Some(1),
        data: b"hello",
        ..Packet::default()
    });
    assert_eq!(
        r.packet(0, &bytes),
        Done {
            slot: 0,
            id: 0,
            length: 5,
            cq_data: Some(u64::MAX)
        }
    );
    assert_eq!(&r.arena[..6], b"hello\xEE");
}

fn posted(start: u64, age: u64) -> Slot {
    Slot::Posted {
        receive: plain(start, 1),
        age,
    }
}

#[test]
fn the_order_never_runs_out() {
    let mut r = Receiver::usual();
    let slots = &mut r.engine.peers[0].slots;
    slots[1] = posted(1, u64::MAX);
    slots[2] = posted(2, 0);
    slots[5] = posted(5, u64::MAX - 1);
    assert_eq!(r.post(0, 10, 1), Posted(0));
    let slots = r.engine.peers[0].slots;
    assert_eq!(slots[0], posted(10, 3));
    assert_eq!(slots[1], posted(1, 2));
    assert_eq!(slots[2], posted(2, 0));
    assert_eq!(slots[5], posted(5, 1));
    let order: Vec<_> = (0..4).map(|id| r.packet(0, &eager(id, b"a"))).collect();
    assert_eq!(
        order,
        [done(2, 0, 1), done(5, 1, 1), done(1, 2, 1), done(0, 3, 1)]
    );
}

#[test]
fn ages_are_counted_afresh_at_a_post_only() {
    let mut r = Receiver::usual();
    for start in 0..4 {
        r.post(0, start, 1);
    }
    assert_eq!(r.packet(0, &eager(0, b"a")), done(0, 0, 1));
    assert_eq!(r.cancel(0, 2), Cancelled(2));
    let slots = r.engine.peers[0].slots;
    assert_eq!((slots[1], slots[3]), (posted(1, 1), posted(3, 3)));
    assert_eq!(r.post(0, 4, 1), Posted(0));
    let slots = r.engine.peers[0].slots;
    assert_eq!(
        (slots[1], slots[3], slots[0]),
        (posted(1, 0), posted(3, 1), posted(4, 2))
    );
    // A post that is refused leaves the ages as they are.
    assert_eq!(r.cancel(0, 1), Cancelled(1));
    assert_eq!(r.post(0, 3, 1), Refused(19));
    let slots = r.engine.peers[0].slots;
    assert_eq!((slots[3], slots[0]), (posted(3, 1), posted(4, 2)));
}

#[test]
fn many_posts() {
    let mut r = Receiver::usual();
    r.post(0, 0, 1);
    for round in 0..1_000 {
        let slot = 1 - round % 2;
        assert_eq!(r.post(0, slot, 1), Posted(slot));
        let id = round as u32;
        assert_eq!(r.packet(0, &eager(id, b"a")), done(1 - slot, id, 1));
    }
}

#[test]
fn ids_wrap() {
    let mut r = Receiver::usual();
    r.engine.peers[0].next = u32::MAX;
    r.post(0, 0, 1);
    r.post(0, 1, 1);
    assert_eq!(r.packet(0, &eager(0, b"b")), Refused(12));
    assert_eq!(r.packet(0, &eager(u32::MAX - 1, b"b")), Refused(15));
    assert_eq!(r.packet(0, &eager(0x7FFF_FFFE, b"b")), Refused(12));
    assert_eq!(r.packet(0, &eager(0x7FFF_FFFF, b"b")), Refused(15));
    assert_eq!(r.packet(0, &eager(u32::MAX, b"a")), done(0, u32::MAX, 1));
    assert_eq!(r.engine.peers[0].next, 0);
    assert_eq!(r.packet(0, &eager(0, b"b")), done(1, 0, 1));
}

#[test]
fn an_id_that_comes_round_while_open_belongs_to_the_open_message() {
    let mut r = Receiver::usual();
    r.post(0, 0, 4);
    r.post(0, 10, 4);
    assert_eq!(r.packet(0, &medium(0, 4, 0, b"ab")), Stored);
    r.engine.peers[0].next = 0;
    assert_eq!(r.packet(0, &eager(0, b"x")), Refused(14));
    assert_eq!(r.packet(0, &medium(0, 4, 2, b"cd")), done(0, 0, 4));
    assert_eq!(r.engine.peers[0].next, 0);
    assert_eq!(r.packet(0, &eager(0, b"x")), done(1, 0, 1));
    assert_eq!(r.engine.peers[0].next, 1);
}

#[test]
fn segments_after_a_cancel_are_late() {
    let mut r = Receiver::usual();
    r.post(0, 0, 4);
    assert_eq!(r.packet(0, &medium(0, 4, 0, b"ab")), Stored);
    assert_eq!(r.cancel(0, 0), Cancelled(0));
    assert_eq!(r.packet(0, &medium(0, 4, 2, b"cd")), Refused(15));

    r.post(0, 0, 100);
    assert_eq!(r.packet(0, &long(1, 100, 0, 0, b"ab")), Granted(64));
    assert_eq!(r.cancel(0, 0), Cancelled(0));
    assert_eq!(r.packet(0, &ctsdata(1, 2, b"cd")), Refused(15));

    // Late data doesn't land in the next message of the same slot.
    r.post(0, 0, 100);
    assert_eq!(r.packet(0, &long(2, 100, 0, 0, b"ab")), Granted(64));
    assert_eq!(r.packet(0, &ctsdata(1, 2, b"cd")), Refused(15));
    assert_eq!(r.packet(0, &ctsdata(2, 2, b"cd")), Stored);
    assert_eq!(
        r.packet(0, &ctsdata(0, 4, b"cd")),
        Refused(15),
        "the slot's number is no id"
    );
}

#[test]
fn what_an_open_slot_holds() {
    let mut r = Receiver::usual();
    r.post(0, 7, 50);
    assert_eq!(r.packet(0, &medium(0, 40, 3, b"abc")), Stored);
    let medium = Message {
        shape: Shape::Medium,
        tagged: false,
        id: 0,
        tag: 0,
        length: 40,
        granted: 3,
        send_id: 0,
        credit_request: 0,
        cq_data: None,
    };
    let expected = Slot::Open {
        receive: plain(7, 50),
        message: medium,
    };
    assert_eq!(r.engine.peers[0].slots[0], expected);
    assert_eq!(
        r.packet(0, &crate::support::medium(0, 40, 10, b"abc")),
        Stored
    );
    assert_eq!(
        r.engine.peers[0].slots[0], expected,
        "a further segment moves no granted end"
    );

    r.post_tagged(0, 5, 6, 100, 100);
    let rtm = Packet {
        kind: packet::LONGCTS_TAGRTM,
        msg_id: 1,
        tag: 3,
        msg_length: 90,
        send_id: 8,
        credit_request: 9,
        cq_data: Some(10),
        data: b"ab",
        ..Packet::default()
    };
    assert_eq!(r.packet(0, &written(&rtm)), Granted(88));
    let long = Message {
        shape: Shape::Long,
        tagged: true,
        id: 1,
        tag: 3,
        length: 90,
        granted: 90,
        send_id: 8,
        credit_request: 9,
        cq_data: Some(10),
    };
    let receive = Receive {
        tagged: true,
        tag: 5,
        ignore: 6,
        start: 100,
        capacity: 100,
    };
    assert_eq!(
        r.engine.peers[0].slots[1],
        Slot::Open {
            receive,
            message: long
        }
    );
}

#[test]
fn a_message_done_by_its_first_packet() {
    let mut r = Receiver::usual();
    for (id, bytes) in [medium(0, 2, 0, b"ab"), long(1, 2, 1, 1, b"ab")]
        .iter()
        .enumerate()
    {
        r.post(0, 0, 2);
        assert_eq!(r.packet(0, bytes), done(0, id as u32, 2));
        assert_eq!(r.reply, [0xEE; 30]);
    }
}

#[test]
fn the_last_byte_of_the_last_area() {
    let mut r = Receiver::new(8, 8_192, 8_192);
    assert_eq!(r.post(7, 0, 8_192), Posted(0));
    let data: Vec<u8> = (0..8_160).map(|i| i as u8).collect();
    assert_eq!(r.packet(7, &long(0, 8_192, 0, 0, &data)), Granted(32));
    assert_eq!(
        r.report(7, 0),
        Missing {
            received: 8_160,
            first: 8_160
        }
    );
    assert_eq!(r.packet(7, &ctsdata(0, 8_161, &[5; 31])), Stored);
    assert_eq!(
        r.report(7, 0),
        Missing {
            received: 8_191,
            first: 8_160
        }
    );
    assert_eq!(r.packet(7, &ctsdata(0, 8_160, &[6])), done(0, 0, 8_192));
    assert_eq!(&r.arena[7 * 8_192..][..8_160], data);
    assert_eq!(r.arena[65_535], 5);
    assert!(r.map[..7 * 128].iter().all(|word| *word == 0));
    assert!(r.map[7 * 128..].iter().all(|word| *word == u64::MAX));
}

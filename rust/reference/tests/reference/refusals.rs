//! Every refusal of each call, in the order of the checks, and that a refusal changes nothing.

use reference::engine::{set_up, Answer, Answer::*, Engine};

use crate::support::*;

#[test]
fn set_up_refuses_wrong_numbers_and_lengths() {
    let wrong = [
        (0, 64, 64),
        (9, 64, 64),
        (u64::MAX, 64, 64),
        (1, 0, 64),
        (1, 63, 64),
        (1, 65, 64),
        (1, 96, 64),
        (1, 8_256, 64),
        (1, u64::MAX - 63, 64),
        (1, 64, 63),
        (1, 64, 8_193),
        (1, 64, u64::MAX),
    ];
    for (n, area, limit) in wrong {
        // What these numbers would ask for, as far as it can be lent.
        let bytes = n.wrapping_mul(area).min(100_000) as usize;
        let mut map = vec![5; bytes / 64];
        assert_eq!(
            set_up(n, area, limit, bytes, &mut map).err(),
            Some(1),
            "{n} {area} {limit}"
        );
        assert!(map.iter().all(|word| *word == 5), "the map is untouched");
    }
    for (arena, words) in [(255, 4), (257, 4), (256, 3), (256, 5), (0, 4), (256, 0)] {
        let mut map = vec![5; words];
        assert_eq!(set_up(2, 128, 64, arena, &mut map).err(), Some(1));
        assert!(map.iter().all(|word| *word == 5));
    }
}

#[test]
fn set_up_takes_its_limits() {
    for (n, area, limit) in [(1, 64, 64), (8, 64, 64), (1, 8_192, 64), (8, 8_192, 8_192)] {
        let bytes = (n * area) as usize;
        let mut map = vec![5; bytes / 64];
        let engine = set_up(n, area, limit, bytes, &mut map).unwrap();
        assert_eq!((engine.n, engine.area, engine.limit), (n, area, limit));
        assert!(map.iter().all(|word| *word == 0), "the map is cleared");
    }
}

/// A receiver whose peer 0 has slot 0 open (length 200, granted to 168) and slots 1 to 7 posted.
fn full() -> Receiver {
    let mut r = Receiver::usual();
    r.post(0, 0, 200);
    assert_eq!(r.packet(0, &long(0, 200, 7, 2, &[1; 40])), Granted(128));
    for slot in 1..8 {
        assert_eq!(r.post_tagged(0, slot, 0, 200 + slot, 1), Posted(slot));
    }
    r
}

/// A call's answer, with the state as the call leaves it put back.
fn step(engine: &mut Engine, call: impl FnOnce(Engine) -> (Engine, Answer)) -> Answer {
    let (after, answer) = call(engine.clone());
    *engine = after;
    answer
}

fn post(e: &mut Engine, peer: u64, range: (u64, u64), arena: &[u8], map: &[u64]) -> Answer {
    let receive = plain(range.0, range.1);
    step(e, |engine| engine.post(peer, receive, arena, map))
}

fn cancel(e: &mut Engine, peer: u64, slot: u64, arena: &[u8], map: &[u64]) -> Answer {
    step(e, |engine| engine.cancel(peer, slot, arena, map))
}

fn report(e: &mut Engine, peer: u64, slot: u64, arena: &[u8], map: &[u64]) -> Answer {
    step(e, |engine| engine.report(peer, slot, arena, map))
}

fn packet(
    e: &mut Engine,
    peer: u64,
    bytes: &[u8],
    reply: &mut [u8],
    arena: &mut [u8],
    map: &mut [u64],
) -> Answer {
    step(e, |engine| engine.packet(peer, bytes, reply, arena, map))
}

/// Makes the state one that can't be.
fn spoil(r: &mut Receiver) {
    r.engine.limit = 63;
}

#[test]
fn every_refusal_of_a_post() {
    let mut r = full();
    let unchanged = r.clone();

    // The post has every fault; they are taken away one by one.
    spoil(&mut r);
    let e = &mut r.engine;
    let (arena, map) = (&r.arena[..], &r.map[..]);
    assert_eq!(post(e, 2, (200, 57), &arena[1..], &map[1..]), Refused(2));
    e.limit = 96;
    assert_eq!(post(e, 2, (200, 57), &arena[1..], &map[1..]), Refused(3));
    assert_eq!(post(e, 2, (200, 57), arena, &map[1..]), Refused(3));
    assert_eq!(post(e, 2, (200, 57), &arena[1..], map), Refused(3));
    assert_eq!(post(e, 2, (200, 57), arena, map), Refused(4));
    assert_eq!(post(e, u64::MAX, (200, 57), arena, map), Refused(4));
    assert_eq!(post(e, 0, (200, 57), arena, map), Refused(11));
    assert_eq!(post(e, 0, (u64::MAX, 2), arena, map), Refused(11));
    assert_eq!(post(e, 0, (257, 0), arena, map), Refused(11));
    assert_eq!(post(e, 0, (200, 56), arena, map), Refused(19));
    assert_eq!(post(e, 0, (208, 48), arena, map), Refused(18));
    assert_eq!(r, unchanged);

    // A freed slot counts as free.
    assert_eq!(r.cancel(0, 3), Cancelled(3));
    assert_eq!(r.post(0, 208, 48), Posted(3));
}

#[test]
fn overlap_of_posts() {
    let mut r = Receiver::usual();
    assert_eq!(r.post(0, 10, 10), Posted(0));
    for (start, capacity) in [(0, 11), (19, 1), (10, 1), (12, 3), (0, 256), (10, 10)] {
        assert_eq!(
            r.post(0, start, capacity),
            Refused(19),
            "{start} {capacity}"
        );
    }
    // An empty range overlaps nothing, not even from inside, and nothing overlaps it.
    assert_eq!(r.post(0, 15, 0), Posted(1));
    assert_eq!(r.post(0, 256, 0), Posted(2));
    assert_eq!(r.post(0, 30, 0), Posted(3));
    assert_eq!(r.post(0, 20, 20), Posted(4));
    assert_eq!(r.post(0, 0, 10), Posted(5));
    // Another peer's area is another area.
    assert_eq!(r.post(1, 10, 10), Posted(0));
}

#[test]
fn every_refusal_of_a_cancel_and_a_report() {
    let mut r = full();
    assert_eq!(r.cancel(0, 5), Cancelled(5));
    let unchanged = r.clone();

    spoil(&mut r);
    let e = &mut r.engine;
    let (arena, map) = (&r.arena[..], &r.map[..]);
    assert_eq!(cancel(e, 2, 8, &arena[1..], &map[1..]), Refused(2));
    assert_eq!(report(e, 2, 8, &arena[1..], &map[1..]), Refused(2));
    e.limit = 96;
    for (arena, map) in [
        (&arena[1..], &map[1..]),
        (arena, &map[1..]),
        (&arena[1..], map),
    ] {
        assert_eq!(cancel(e, 2, 8, arena, map), Refused(3));
        assert_eq!(report(e, 2, 8, arena, map), Refused(3));
    }
    for peer in [2, 8, u64::MAX] {
        assert_eq!(cancel(e, peer, 8, arena, map), Refused(4));
        assert_eq!(report(e, peer, 8, arena, map), Refused(4));
    }
    for slot in [5, 8, u64::MAX] {
        assert_eq!(cancel(e, 0, slot, arena, map), Refused(20));
        assert_eq!(report(e, 0, slot, arena, map), Refused(20));
    }
    assert_eq!(report(e, 0, 1, arena, map), Refused(20), "posted, not open");
    assert_eq!(
        report(e, 0, 0, arena, map),
        Missing {
            received: 40,
            first: 40
        }
    );
    assert_eq!(r, unchanged);
    assert_eq!(r.cancel(0, 1), Cancelled(1));
    assert_eq!(r.cancel(0, 0), Cancelled(0));
    assert_eq!((&r.arena, &r.map), (&unchanged.arena, &unchanged.map));
}

#[test]
fn every_refusal_of_a_packet_before_the_peers_state_counts() {
    let mut r = full();
    spoil(&mut r);
    let Receiver {
        mut engine,
        mut arena,
        mut map,
        mut reply,
    } = r;
    let (a, m) = (&mut arena[..], &mut map[..]);

    // The packet has every fault; they are taken away one by one.
    let mut bytes = vec![3, 3, 0xFF, 0xFF];
    bytes.resize(97, 0);
    assert_eq!(
        packet(
            &mut engine,
            2,
            &bytes,
            &mut reply[..23],
            &mut a[1..],
            &mut m[1..]
        ),
        Refused(2)
    );
    engine.limit = 96;
    assert_eq!(
        packet(
            &mut engine,
            2,
            &bytes,
            &mut reply[..23],
            &mut a[1..],
            &mut m[1..]
        ),
        Refused(3)
    );
    assert_eq!(
        packet(&mut engine, 2, &bytes, &mut reply[..23], a, &mut m[1..]),
        Refused(3)
    );
    assert_eq!(
        packet(&mut engine, 2, &bytes, &mut reply[..23], &mut a[1..], m),
        Refused(3)
    );
    assert_eq!(
        packet(&mut engine, 2, &bytes, &mut reply[..23], a, m),
        Refused(4)
    );
    assert_eq!(
        packet(&mut engine, 0, &bytes, &mut reply[..23], a, m),
        Refused(5)
    );
    assert_eq!(
        packet(&mut engine, 0, &bytes, &mut reply[..24], a, m),
        Refused(6)
    );
    for length in 0..4 {
        assert_eq!(
            packet(&mut engine, 0, &bytes[..length], &mut reply, a, m),
            Refused(7)
        );
    }
    bytes.truncate(23);
    assert_eq!(packet(&mut engine, 0, &bytes, &mut reply, a, m), Refused(8));
    bytes[1] = 4;
    assert_eq!(
        packet(&mut engine, 0, &bytes, &mut reply, a, m),
        Refused(9),
        "CTS with wrong flags"
    );
    bytes[2..4].fill(0);
    assert_eq!(
        packet(&mut engine, 0, &bytes, &mut reply, a, m),
        Refused(9),
        "CTS"
    );
    bytes[0] = 66;
    assert_eq!(
        packet(&mut engine, 0, &bytes, &mut reply, a, m),
        Refused(10)
    );
    bytes[2] = 4;
    assert_eq!(packet(&mut engine, 0, &bytes, &mut reply, a, m), Refused(7));
    bytes.push(0);
    assert_eq!(
        packet(&mut engine, 0, &bytes, &mut reply, a, m),
        Refused(11),
        "before 14"
    );
    bytes[8] = 1;
    bytes.push(0);
    assert_eq!(
        packet(&mut engine, 0, &bytes, &mut reply, a, m),
        Refused(14)
    );

    let unchanged = full();
    assert_eq!(
        Receiver {
            engine,
            arena,
            map,
            reply
        },
        unchanged
    );
}

#[test]
fn a_packet_of_exactly_the_limit() {
    let mut r = Receiver::usual();
    r.post(0, 0, 100);
    assert_eq!(r.packet(0, &eager(0, &[1; 89])), Refused(6));
    assert_eq!(r.packet(0, &eager(0, &[1; 88])), done(0, 0, 88));
}

#[test]
fn every_refusal_of_a_packet_by_the_peers_state() {
    let mut r = full();
    assert_eq!(r.cancel(0, 1), Cancelled(1));
    assert_eq!(r.post(0, 220, 4), Posted(1));
    assert_eq!(r.packet(0, &medium(1, 4, 1, b"bc")), Stored);
    let unchanged = r.clone();

    // RTMs whose id is open: 14, then 16.
    assert_eq!(r.packet(0, &medium(1, 5, 1, b"bc")), Refused(14), "length");
    assert_eq!(
        r.packet(0, &medium_tagged(1, 0, 4, 1, b"bc")),
        Refused(14),
        "type"
    );
    assert_eq!(r.packet(0, &eager(1, b"abcd")), Refused(14), "not medium");
    assert_eq!(
        r.packet(0, &long(1, 4, 0, 0, b"abc")),
        Refused(14),
        "not medium"
    );
    assert_eq!(
        r.packet(0, &long(0, 200, 7, 2, &[1; 40])),
        Refused(14),
        "a long RTM again"
    );
    for (id, length) in [(0, 200), (1, 4)] {
        assert_eq!(
            r.packet(0, &long(id, length, 7, 2, b"")),
            Refused(14),
            "a long RTM without data is no segment"
        );
    }
    assert_eq!(
        r.packet(0, &eager(0, b"a")),
        Refused(14),
        "eager on an open long id"
    );
    assert_eq!(r.packet(0, &medium(1, 4, 0, b"ab")), Refused(16));
    assert_eq!(r.packet(0, &medium(1, 4, 2, b"cd")), Refused(16));

    // RTMs whose id isn't open: 15, 12, 13.
    assert_eq!(r.packet(0, &eager(u32::MAX, b"a")), Refused(15));
    assert_eq!(r.packet(0, &eager(3, b"a")), Refused(12));
    assert_eq!(r.packet(0, &eager(2, b"a")), Refused(13));
    assert_eq!(r.packet(0, &eager_tagged(2, 99, b"a")), Refused(13));
    for (id, number) in [(u32::MAX, 15), (3, 12), (2, 13)] {
        assert_eq!(r.packet(0, &long(id, 4, 7, 2, b"")), Refused(number));
    }

    // CTSDATA: 15, 17, 16.
    for id in [1, 2, 3, u32::MAX] {
        assert_eq!(
            r.packet(0, &ctsdata(id, 300, b"a")),
            Refused(15),
            "no open long message"
        );
    }
    assert_eq!(
        r.packet(1, &ctsdata(0, 40, b"a")),
        Refused(15),
        "another peer's"
    );
    assert_eq!(r.packet(0, &ctsdata(0, 39, &[1; 72])), Refused(16));
    assert_eq!(r.packet(0, &ctsdata(0, 0, b"a")), Refused(16));
    assert_eq!(r.packet(0, &ctsdata(0, 168, b"a")), Refused(17));
    assert_eq!(
        r.packet(0, &ctsdata(0, u64::MAX, b"ab")),
        Refused(17),
        "no wrap"
    );
    assert_eq!(
        r.packet(0, &ctsdata(0, u64::MAX, b"a")),
        Refused(17),
        "no wrap to zero"
    );
    assert_eq!(r, unchanged);

    // Beyond the granted end and over accepted bytes at once: 17 goes first.
    assert_eq!(r.packet(0, &ctsdata(0, 160, b"a")), Stored);
    assert_eq!(r.packet(0, &ctsdata(0, 160, b"abcdefghi")), Refused(17));
    assert_eq!(r.packet(0, &ctsdata(0, 160, b"abcdefgh")), Refused(16));
}

#[test]
fn the_tag_of_a_further_segment_is_compared_whole() {
    let mut r = Receiver::usual();
    assert_eq!(r.post_tagged(0, 0x10, 0x0F, 0, 4), Posted(0));
    assert_eq!(r.packet(0, &medium_tagged(0, 0x1A, 4, 0, b"ab")), Stored);
    assert_eq!(
        r.packet(0, &medium_tagged(0, 0x1B, 4, 2, b"cd")),
        Refused(14)
    );
    assert_eq!(
        r.packet(0, &medium_tagged(0, 0x1A, 4, 2, b"cd")),
        done(0, 0, 4)
    );
}

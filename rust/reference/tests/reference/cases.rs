//! The worked cases of the specification (n = 2, A = 256, L = 96), with the bytes written out.

use reference::engine::Answer::*;
use reference::engine::Slot;

use crate::support::*;

const ABC: [u8; 11] = [0x40, 4, 4, 0, 0, 0, 0, 0, 0x41, 0x42, 0x43];

#[test]
fn eager_that_fits() {
    let mut r = Receiver::usual();
    assert_eq!(r.post(0, 0, 3), Posted(0));
    assert_eq!(r.packet(0, &ABC), done(0, 0, 3));
    assert_eq!(&r.arena[..4], b"ABC\xEE");
    assert_eq!(r.map[0], 0b111);
    assert_eq!(r.engine.peers[0].next, 1);
    assert_eq!(r.engine.peers[0].slots[0], Slot::Free);
}

#[test]
fn eager_that_is_too_long() {
    let mut r = Receiver::usual();
    assert_eq!(r.post(0, 0, 2), Posted(0));
    let before = r.clone();
    assert_eq!(
        r.packet(0, &ABC),
        Truncated {
            slot: 0,
            id: 0,
            length: 3
        }
    );
    assert_eq!(r.engine.peers[0].next, 1);
    assert_eq!(r.engine.peers[0].slots[0], Slot::Free);
    assert_eq!(
        (&r.arena, &r.map, &r.reply),
        (&before.arena, &before.map, &before.reply)
    );
}

#[test]
fn eager_without_data() {
    let mut r = Receiver::usual();
    assert_eq!(r.post(0, 0, 0), Posted(0));
    assert_eq!(r.packet(0, &ABC[..8]), done(0, 0, 0));
}

#[test]
fn malformed_packets() {
    let mut r = Receiver::usual();
    assert_eq!(r.post(0, 0, 3), Posted(0));
    assert_eq!(r.packet(0, &ABC[..7]), Refused(7));
    let mut version = ABC;
    version[1] = 3;
    assert_eq!(r.packet(0, &version), Refused(8));
    let mut kind = ABC;
    kind[0] = 6;
    assert_eq!(r.packet(0, &kind), Refused(9));
    let mut flags = ABC;
    flags[2] = 0x0C;
    assert_eq!(r.packet(0, &flags), Refused(10));
    assert_eq!(r.packet(0, &ABC), done(0, 0, 3));
}

fn medium_case(offset: u8, data: &[u8]) -> Vec<u8> {
    let mut bytes = vec![66, 4, 4, 0, 0, 0, 0, 0];
    bytes.extend([4, 0, 0, 0, 0, 0, 0, 0]);
    bytes.extend([offset, 0, 0, 0, 0, 0, 0, 0]);
    bytes.extend(data);
    bytes
}

#[test]
fn medium_in_two_segments() {
    let mut r = Receiver::usual();
    assert_eq!(r.post(0, 0, 4), Posted(0));
    assert_eq!(r.packet(0, &medium_case(2, b"cd")), Stored);
    assert_eq!(
        r.report(0, 0),
        Missing {
            received: 2,
            first: 0
        }
    );
    assert_eq!(r.packet(0, &medium_case(0, b"ab")), done(0, 0, 4));
    assert_eq!(&r.arena[..4], b"abcd");
}

#[test]
fn medium_segment_twice() {
    let mut r = Receiver::usual();
    assert_eq!(r.post(0, 0, 4), Posted(0));
    assert_eq!(r.packet(0, &medium_case(2, b"cd")), Stored);
    assert_eq!(r.packet(0, &medium_case(2, b"cd")), Refused(16));
    assert_eq!(
        r.report(0, 0),
        Missing {
            received: 2,
            first: 0
        }
    );
}

#[test]
fn medium_past_its_length() {
    let mut r = Receiver::usual();
    assert_eq!(r.post(0, 0, 4), Posted(0));
    assert_eq!(r.packet(0, &medium_case(3, b"xy")), Refused(11));
}

#[test]
fn ids_ahead_and_behind() {
    let mut r = Receiver::usual();
    assert_eq!(r.post(0, 0, 3), Posted(0));
    for (id, number) in [
        (1, 12),
        (0x7FFF_FFFF, 12),
        (0x8000_0000, 15),
        (0xFFFF_FFFF, 15),
    ] {
        assert_eq!(
            r.packet(0, &eager(id, b"abc")),
            Refused(number),
            "id {id:#x}"
        );
    }
}

/// The long messages of the cases without their data. Their send_id is 7.
fn long_header(msg_length: u8, credit_request: u8) -> Vec<u8> {
    let mut bytes = vec![68, 4, 4, 0, 0, 0, 0, 0];
    bytes.extend([msg_length, 0, 0, 0, 0, 0, 0, 0]);
    bytes.extend([7, 0, 0, 0]);
    bytes.extend([credit_request, 0, 0, 0]);
    bytes
}

/// The one of length 200 with 40 bytes of data.
fn long_case(credit_request: u8) -> Vec<u8> {
    let mut bytes = long_header(200, credit_request);
    bytes.extend((0..40).collect::<Vec<u8>>());
    bytes
}

const CTS_128: [u8; 24] = [
    3, 4, 0, 0, 0, 0, 0, 0, 7, 0, 0, 0, 0, 0, 0, 0, 0x80, 0, 0, 0, 0, 0, 0, 0,
];

#[test]
fn long_with_two_grants() {
    let mut r = Receiver::usual();
    assert_eq!(r.post(0, 0, 200), Posted(0));
    assert_eq!(r.packet(0, &long_case(2)), Granted(128));
    assert_eq!(&r.reply[..24], &CTS_128);
    assert_eq!(
        &r.reply[24..],
        &[0xEE; 6],
        "the rest of the reply buffer stays"
    );
    assert_eq!(r.packet(0, &ctsdata(0, 40, &[1; 64])), Stored);
    assert_eq!(r.packet(0, &ctsdata(0, 104, &[2; 64])), Granted(32));
    let mut cts_32 = CTS_128;
    cts_32[16] = 32;
    assert_eq!(&r.reply[..24], &cts_32);
    assert_eq!(r.packet(0, &ctsdata(0, 168, &[3; 32])), done(0, 0, 200));
    let expected: Vec<u8> = (0..40)
        .chain([1; 64])
        .chain([2; 64])
        .chain([3; 32])
        .collect();
    assert_eq!(&r.arena[..200], &expected);
    assert_eq!(&r.arena[200..], &[0xEE; 312]);
}

#[test]
fn long_with_no_request() {
    let mut r = Receiver::usual();
    assert_eq!(r.post(0, 0, 200), Posted(0));
    assert_eq!(r.packet(0, &long_case(0)), Granted(64));
    assert_eq!(r.packet(0, &ctsdata(0, 40, &[1; 64])), Granted(64));
    assert_eq!(r.packet(0, &ctsdata(0, 104, &[2; 64])), Granted(32));
    assert_eq!(r.packet(0, &ctsdata(0, 168, &[3; 32])), done(0, 0, 200));
}

#[test]
fn long_that_starts_empty() {
    let mut r = Receiver::usual();
    assert_eq!(r.post(0, 0, 200), Posted(0));
    assert_eq!(r.packet(0, &long_header(200, 2)), Granted(128));
    assert_eq!(&r.reply[..24], &CTS_128);
    assert_eq!(
        r.report(0, 0),
        Missing {
            received: 0,
            first: 0
        }
    );
    assert_eq!(&r.arena, &[0xEE; 512]);
    assert_eq!(r.packet(0, &ctsdata(0, 0, &[1; 64])), Stored);
    assert_eq!(r.packet(0, &ctsdata(0, 64, &[2; 64])), Granted(72));
    let mut cts_72 = CTS_128;
    cts_72[16] = 72;
    assert_eq!(&r.reply[..24], &cts_72);
    assert_eq!(r.packet(0, &ctsdata(0, 128, &[3; 64])), Stored);
    assert_eq!(r.packet(0, &ctsdata(0, 192, &[4; 8])), done(0, 0, 200));
    let expected: Vec<u8> = [1; 64]
        .into_iter()
        .chain([2; 64])
        .chain([3; 64])
        .chain([4; 8])
        .collect();
    assert_eq!(&r.arena[..200], &expected);
    assert_eq!(&r.arena[200..], &[0xEE; 312]);
}

#[test]
fn long_that_starts_empty_with_no_request() {
    let mut r = Receiver::usual();
    assert_eq!(r.post(0, 0, 200), Posted(0));
    assert_eq!(r.packet(0, &long_header(200, 0)), Granted(64));
    assert_eq!(r.packet(0, &ctsdata(0, 0, &[1; 64])), Granted(64));
    assert_eq!(r.packet(0, &ctsdata(0, 64, &[2; 64])), Granted(64));
    assert_eq!(r.packet(0, &ctsdata(0, 128, &[3; 64])), Granted(8));
    assert_eq!(r.packet(0, &ctsdata(0, 192, &[4; 8])), done(0, 0, 200));
}

#[test]
fn long_that_starts_empty_and_is_too_long() {
    let mut r = Receiver::usual();
    assert_eq!(r.post(0, 0, 199), Posted(0));
    let before = r.clone();
    assert_eq!(
        r.packet(0, &long_header(200, 2)),
        Truncated {
            slot: 0,
            id: 0,
            length: 200
        }
    );
    assert_eq!(r.engine.peers[0].next, 1);
    assert_eq!(r.engine.peers[0].slots[0], Slot::Free);
    assert_eq!(
        (&r.arena, &r.map, &r.reply),
        (&before.arena, &before.map, &before.reply)
    );
}

#[test]
fn long_past_its_length_or_of_none() {
    let mut r = Receiver::usual();
    assert_eq!(r.post(0, 0, 200), Posted(0));
    let unchanged = r.clone();
    assert_eq!(r.packet(0, &long_header(0, 2)), Refused(11));
    let past = [&long_header(2, 2)[..], b"abc"].concat();
    assert_eq!(r.packet(0, &past), Refused(11));
    assert_eq!(r, unchanged);
    assert_eq!(r.packet(0, &long_header(1, 2)), Granted(1));
    assert_eq!(r.packet(0, &ctsdata(0, 0, b"a")), done(0, 0, 1));
}

#[test]
fn data_up_to_and_beyond_the_grant() {
    let mut r = Receiver::usual();
    assert_eq!(r.post(0, 0, 200), Posted(0));
    assert_eq!(r.packet(0, &long_case(2)), Granted(128));
    assert_eq!(r.packet(0, &ctsdata(0, 167, &[9])), Stored);
    assert_eq!(r.packet(0, &ctsdata(0, 168, &[9])), Refused(17));
}

#[test]
fn data_up_to_and_beyond_the_first_grant_of_an_empty_start() {
    let mut r = Receiver::usual();
    assert_eq!(r.post(0, 0, 200), Posted(0));
    assert_eq!(r.packet(0, &long_header(200, 2)), Granted(128));
    assert_eq!(r.packet(0, &ctsdata(0, 127, &[9])), Stored);
    assert_eq!(r.packet(0, &ctsdata(0, 128, &[9])), Refused(17));
}

#[test]
fn tags_with_ignored_bits() {
    let mut r = Receiver::usual();
    assert_eq!(r.post_tagged(0, 0x10, 0x0F, 0, 3), Posted(0));
    assert_eq!(r.packet(0, &eager_tagged(0, 0x2A, b"abc")), Refused(13));
    assert_eq!(r.packet(0, &eager_tagged(0, 0x1A, b"abc")), done(0, 0, 3));
}

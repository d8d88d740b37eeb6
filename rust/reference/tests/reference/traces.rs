//! Numbers in groups of seven bits, and the entries of a trace.

use reference::engine::Receive;
use reference::trace::*;

use crate::support::*;

#[test]
fn numbers_by_hand() {
    let numbers: [(&[u8], u64); 9] = [
        (&[0], 0),
        (&[1], 1),
        (&[0x7F], 127),
        (&[0x80, 1], 128),
        (&[0x80, 2], 256),
        (&[0xFF, 0x7F], 16_383),
        (&[0x80, 0x80, 1], 16_384),
        (
            &[0x80, 0x80, 0x80, 0x80, 0x80, 0x80, 0x80, 0x80, 0x80, 1],
            1 << 63,
        ),
        (
            &[0xFF, 0xFF, 0xFF, 0xFF, 0xFF, 0xFF, 0xFF, 0xFF, 0xFF, 1],
            u64::MAX,
        ),
    ];
    for (bytes, value) in numbers {
        assert_eq!(read_number(bytes, 0), Some((value, bytes.len())));
        let mut out = Vec::new();
        write_number(value, &mut out);
        assert_eq!(out, bytes);
        // Anywhere in a trace, and cut short.
        let inside = [&[9, 9, 9], bytes, &[9]].concat();
        assert_eq!(read_number(&inside, 3), Some((value, 3 + bytes.len())));
        for length in 0..bytes.len() {
            assert_eq!(read_number(&bytes[..length], 0), None);
        }
    }
}

#[test]
fn malformed_numbers() {
    let wrong: [&[u8]; 8] = [
        &[],
        &[0x80],
        &[0x80, 0],
        &[0x81, 0],
        &[0xFF, 0x80, 0],
        // Not below 2^64.
        &[0xFF, 0xFF, 0xFF, 0xFF, 0xFF, 0xFF, 0xFF, 0xFF, 0xFF, 2],
        // Eleven groups.
        &[
            0x80, 0x80, 0x80, 0x80, 0x80, 0x80, 0x80, 0x80, 0x80, 0x81, 0,
        ],
        &[
            0x80, 0x80, 0x80, 0x80, 0x80, 0x80, 0x80, 0x80, 0x80, 0x80, 1,
        ],
    ];
    for bytes in wrong {
        assert_eq!(read_number(bytes, 0), None, "{bytes:?}");
    }
    assert_eq!(
        read_number(
            &[0x80, 0x80, 0x80, 0x80, 0x80, 0x80, 0x80, 0x80, 0x80, 0],
            0
        ),
        None
    );
    assert_eq!(read_number(&[1, 2], 2), None);
    assert_eq!(read_number(&[1, 2], 3), None);
    assert_eq!(read_number(&[1, 2], usize::MAX), None);
}

#[test]
fn numbers_written_are_the_numbers_read() {
    let mut random = Random::new(6);
    for _ in 0..100_000 {
        let value = random.any();
        let mut out = Vec::new();
        write_number(value, &mut out);
        assert_eq!(read_number(&out, 0), Some((value, out.len())));
        assert_eq!(
            out.len() as u32,
            (64 - value.leading_zeros()).div_ceil(7).max(1)
        );
    }
}

/// Two bytes or three: whatever is read is written back the same, so there is one form only.
#[test]
fn a_number_has_one_form() {
    for bytes in (0..=0xFF_FFFFu32)
        .step_by(3)
        .map(|number| number.to_be_bytes())
    {
        if let Some((value, place)) = read_number(&bytes[1..], 0) {
            let mut out = Vec::new();
            write_number(value, &mut out);
            assert_eq!(out, bytes[1..=place]);
        }
    }
}

#[test]
fn entries_by_hand() {
    let post = Entry::Post {
        peer: 1,
        receive: Receive {
            tagged: true,
            tag: 300,
            ..plain(5, 128)
        },
    };
    let packet = Entry::Packet {
        peer: 0,
        bytes: &[7, 8],
    };
    let empty = Entry::Packet {
        peer: 200,
        bytes: &[],
    };
    let cancel = Entry::Cancel {
        peer: 3,
        slot: u64::MAX,
    };
    let entries: [(Entry, &[u8]); 4] = [
        (post, &[1, 1, 1, 0xAC, 2, 0, 5, 0x80, 1]),
        (packet, &[2, 0, 2, 7, 8]),
        (empty, &[2, 0xC8, 1, 0]),
        (
            cancel,
            &[
                3, 3, 0xFF, 0xFF, 0xFF, 0xFF, 0xFF, 0xFF, 0xFF, 0xFF, 0xFF, 1,
            ],
        ),
    ];
    for (entry, bytes) in entries {
        assert_eq!(read_entry(bytes, 0), Some((entry, bytes.len())));
        let mut out = Vec::new();
        write_entry(&entry, &mut out);
        assert_eq!(out, bytes);
        let inside = [&[1], bytes, &[1]].concat();
        assert_eq!(read_entry(&inside, 1), Some((entry, 1 + bytes.len())));
        for length in 0..bytes.len() {
            assert_eq!(
                read_entry(&bytes[..length], 0),
                None,
                "{length} of {bytes:?}"
            );
        }
    }
}

#[test]
fn bad_entries() {
    let wrong: [&[u8]; 9] = [
        &[0, 0, 0, 0, 0, 0, 0],
        &[4, 0, 0, 0, 0, 0, 0],
        &[0x81, 0, 0, 0, 0, 0, 0, 0],
        &[0x81, 1, 0, 0, 0, 0, 0, 0],
        &[1, 0, 2, 0, 0, 0, 0],
        &[1, 0, 0x80, 0, 0, 0, 0, 0],
        &[2, 0, 3, 1, 2],
        &[
            2, 0, 0xFF, 0xFF, 0xFF, 0xFF, 0xFF, 0xFF, 0xFF, 0xFF, 0xFF, 1, 1, 2, 3,
        ],
        &[3, 0, 0x80],
    ];
    for bytes in wrong {
        assert_eq!(read_entry(bytes, 0), None, "{bytes:?}");
    }
}

#[test]
fn entries_written_are_the_entries_read() {
    let mut random = Random::new(7);
    for _ in 0..20_000 {
        let count = random.below(200);
        let bytes = random.bytes(count);
        let peer = random.any();
        let entry = match random.below(3) {
            0 => Entry::Post {
                peer,
                receive: Receive {
                    tagged: random.chance(2),
                    tag: random.any(),
                    ignore: random.any(),
                    start: random.any(),
                    capacity: random.any(),
                },
            },
            1 => Entry::Packet {
                peer,
                bytes: &bytes,
            },
            _ => Entry::Cancel {
                peer,
                slot: random.any(),
            },
        };
        let mut out = vec![9];
        write_entry(&entry, &mut out);
        assert_eq!(read_entry(&out, 1), Some((entry, out.len())));
    }
}

#[test]
fn set_up_numbers() {
    let mut out = Vec::new();
    write_set_up(2, 256, 96, &mut out);
    assert_eq!(out, [2, 0x80, 2, 0x60]);
    assert_eq!(read_set_up(&out), Some(((2, 256, 96), 4)));
    for length in 0..4 {
        assert_eq!(read_set_up(&out[..length]), None);
    }
}

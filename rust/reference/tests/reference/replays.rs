//! The lines of a replay.

use reference::engine::Receive;
use reference::replay::{replay, MAX_ENTRIES};
use reference::trace::{write_entry, write_set_up, Entry};

use crate::support::*;

const WHOLE_CASE: [u8; 25] = [
    0x02, 0x80, 0x02, 0x60, 0x01, 0x01, 0x00, 0x00, 0x00, 0x00, 0x03, 0x02, 0x01, 0x0B, 0x40, 0x04,
    0x04, 0x00, 0x00, 0x00, 0x00, 0x00, 0x41, 0x42, 0x43,
];

fn assert_replay(trace: &[u8], text: &str, taken: usize) {
    let replay = replay(trace, MAX_ENTRIES);
    assert_eq!(String::from_utf8(replay.text).unwrap(), text);
    assert_eq!(replay.taken, taken);
}

#[test]
fn the_whole_case() {
    assert_replay(&WHOLE_CASE, "setup ok\nposted 0\ndone 0 0 3\nend 2\n", 2);
}

#[test]
fn the_whole_case_cut_anywhere() {
    for length in 0..WHOLE_CASE.len() {
        let (text, taken) = match length {
            0..=3 => ("bad trace at 0\n", 0),
            4 => ("setup ok\nend 0\n", 0),
            5..=10 => ("setup ok\nbad trace at 4\n", 0),
            11 => ("setup ok\nposted 0\nend 1\n", 1),
            _ => ("setup ok\nposted 0\nbad trace at 11\n", 1),
        };
        assert_replay(&WHOLE_CASE[..length], text, taken);
    }
}

#[test]
fn bad_first_numbers() {
    assert_replay(&[], "bad trace at 0\n", 0);
    assert_replay(&[2, 0x80, 2], "bad trace at 0\n", 0);
    assert_replay(&[2, 0x80, 0, 0x60], "bad trace at 0\n", 0);
    // All three are read before any of them is judged.
    assert_replay(&[9, 0x80, 2, 0x80], "bad trace at 0\n", 0);
}

#[test]
fn set_up_refused_is_the_only_line() {
    for (n, area, limit) in [
        (0, 256, 96),
        (9, 256, 96),
        (2, 255, 96),
        (2, 256, 63),
        (2, u64::MAX, 96),
    ] {
        let mut trace = Vec::new();
        write_set_up(n, area, limit, &mut trace);
        assert_replay(&trace, "setup 1\n", 0);
        trace.extend(&WHOLE_CASE[4..]);
        assert_replay(&trace, "setup 1\n", 0);
        trace.push(0xFF);
        assert_replay(&trace, "setup 1\n", 0);
    }
}

fn post(peer: u64, start: u64, capacity: u64) -> Entry<'static> {
    Entry::Post {
        peer,
        receive: plain(start, capacity),
    }
}

fn trace_of(entries: &[Entry]) -> Vec<u8> {
    let mut trace = Vec::new();
    write_set_up(2, 256, 96, &mut trace);
    entries
        .iter()
        .for_each(|entry| write_entry(entry, &mut trace));
    trace
}

#[test]
fn every_line() {
    let (first, second) = (medium(0, 4, 2, b"cd"), medium(0, 4, 0, b"ab"));
    let (rtm, data) = (long(1, 200, 7, 2, &[1; 40]), ctsdata(1, 40, &[2; 64]));
    let too_long = [0; 97];
    let entries = [
        post(0, 0, 4),
        post(0, 10, 200),
        Entry::Packet {
            peer: 0,
            bytes: &first,
        },
        Entry::Packet {
            peer: 0,
            bytes: &second,
        },
        Entry::Packet {
            peer: 0,
            bytes: &rtm,
        },
        Entry::Packet {
            peer: 0,
            bytes: &data,
        },
        Entry::Packet {
            peer: 0,
            bytes: &data,
        },
        Entry::Cancel { peer: 0, slot: 1 },
        Entry::Cancel { peer: 0, slot: 1 },
        Entry::Post {
            peer: 1,
            receive: Receive {
                tagged: true,
                tag: 1,
                ignore: 2,
                ..plain(256, 0)
            },
        },
        Entry::Packet {
            peer: 1,
            bytes: &eager_tagged(0, 3, b"xyz"),
        },
        Entry::Packet {
            peer: 1,
            bytes: &too_long,
        },
        Entry::Packet {
            peer: 1,
            bytes: &[],
        },
        Entry::Packet {
            peer: u64::MAX,
            bytes: &[],
        },
        post(1, u64::MAX, u64::MAX),
    ];
    let text =
        "setup ok\nposted 0\nposted 1\nstored\ndone 0 0 4\ngranted 128\nstored\nrefused 16\n\
                cancelled 1\nrefused 20\nposted 0\ntruncated 0 0 3\nrefused 6\nrefused 7\n\
                refused 4\nrefused 11\nend 15\n";
    assert_replay(&trace_of(&entries), text, 15);

    let mut bad = trace_of(&entries[..2]);
    let at = bad.len();
    bad.extend([1, 0, 2, 0, 0, 0, 0]);
    assert_replay(
        &bad,
        &format!("setup ok\nposted 0\nposted 1\nbad trace at {at}\n"),
        2,
    );
}

#[test]
fn the_most_entries() {
    for (count, extra, last) in [
        (4_095, &[][..], "end 4095"),
        (4_096, &[], "end 4096"),
        (4_096, &[0xFF], "stopped 4096"),
        (4_097, &[], "stopped 4096"),
        (4_095, &[0xFF], "bad trace at 12289"),
    ] {
        let entries = vec![Entry::Cancel { peer: 0, slot: 0 }; count];
        let mut trace = trace_of(&entries);
        trace.extend(extra);
        let replay = replay(&trace, MAX_ENTRIES);
        let text = String::from_utf8(replay.text).unwrap();
        let taken = count.min(4_096);
        assert_eq!(replay.taken, taken);
        assert_eq!(text.lines().count(), taken + 2);
        assert_eq!(text.lines().last(), Some(last));
        assert!(text
            .lines()
            .skip(1)
            .take(taken)
            .all(|line| line == "refused 20"));
        assert!(text.ends_with('\n'));
    }
}

#[test]
fn a_given_number_of_entries() {
    let run = |budget| String::from_utf8(replay(&WHOLE_CASE, budget).text).unwrap();
    assert_eq!(run(0), "setup ok\nstopped 0\n");
    assert_eq!(run(1), "setup ok\nposted 0\nstopped 1\n");
    assert_eq!(run(2), "setup ok\nposted 0\ndone 0 0 3\nend 2\n");
    assert_eq!(run(3), run(2));
    assert_eq!(replay(&WHOLE_CASE[..4], 0).text, b"setup ok\nend 0\n");
}

//! The reader and the writer: layouts, round trips, refusals and their order.

use reference::packet::{self, read, write, Packet, MAX_PACKET, TABLE};

use crate::support::*;

const ADDRESS: &[u8] = &[0xA1, 0xA2, 0xA3];

/// Numbers whose bytes are all different, so that a field in the wrong place or order shows.
fn full(kind: u8) -> Packet<'static> {
    let packet = Packet {
        kind,
        connid: Some(0xC4C3_C2C1),
        data: b"data",
        ..Packet::default()
    };
    let rtm = Packet {
        msg_id: 0x1413_1211,
        raw_address: Some(ADDRESS),
        cq_data: Some(0x2827_2625_2423_2221),
        ..packet
    };
    match kind {
        packet::CTS => Packet {
            send_id: 0x3433_3231,
            recv_id: 0x4443_4241,
            recv_length: 0x5857_5655_5453_5251,
            data: b"",
            ..packet
        },
        packet::CTSDATA => Packet {
            recv_id: 0x4443_4241,
            seg_length: 4,
            seg_offset: 0x6867_6665_6463_6261,
            ..packet
        },
        packet::EAGER_MSGRTM => rtm,
        packet::EAGER_TAGRTM => Packet {
            tag: 0x7877_7675_7473_7271,
            ..rtm
        },
        packet::MEDIUM_MSGRTM | packet::MEDIUM_TAGRTM => Packet {
            msg_length: 0x8887_8685_8483_8281,
            seg_offset: 0x6867_6665_6463_6261,
            tag: if kind == packet::MEDIUM_TAGRTM {
                0x7877_7675_7473_7271
            } else {
                0
            },
            ..rtm
        },
        _ => Packet {
            msg_length: 0x8887_8685_8483_8281,
            send_id: 0x3433_3231,
            credit_request: 0x9493_9291,
            tag: if kind == packet::LONGCTS_TAGRTM {
                0x7877_7675_7473_7271
            } else {
                0
            },
            ..rtm
        },
    }
}

fn hex(text: &str) -> Vec<u8> {
    text.split_whitespace()
        .map(|byte| u8::from_str_radix(byte, 16).unwrap())
        .collect()
}

#[test]
fn layouts() {
    let optional = "03 00 00 00 A1 A2 A3 21 22 23 24 25 26 27 28 C1 C2 C3 C4 64 61 74 61";
    let msg_id = "11 12 13 14";
    let tag = "71 72 73 74 75 76 77 78";
    let msg_length = "81 82 83 84 85 86 87 88";
    let seg_offset = "61 62 63 64 65 66 67 68";
    let long = "31 32 33 34 91 92 93 94";
    let layouts = [
        (3, "03 04 00 80 C1 C2 C3 C4 31 32 33 34 41 42 43 44 51 52 53 54 55 56 57 58".to_string()),
        (4, format!("04 04 00 80 41 42 43 44 04 00 00 00 00 00 00 00 {seg_offset} C1 C2 C3 C4 00 00 00 00 64 61 74 61")),
        (64, format!("40 04 07 80 {msg_id} {optional}")),
        (65, format!("41 04 0F 80 {msg_id} {tag} {optional}")),
        (66, format!("42 04 07 80 {msg_id} {msg_length} {seg_offset} {optional}")),
        (67, format!("43 04 0F 80 {msg_id} {msg_length} {seg_offset} {tag} {optional}")),
        (68, format!("44 04 07 80 {msg_id} {msg_length} {long} {optional}")),
        (69, format!("45 04 0F 80 {msg_id} {msg_length} {long} {tag} {optional}")),
    ];
    for (kind, text) in layouts {
        let bytes = hex(&text);
        assert_eq!(written(&full(kind)), bytes, "type {kind}");
        assert_eq!(read(&bytes), Ok(full(kind)), "type {kind}");
    }
}

#[test]
fn padding_and_free_multiuse_are_no_values() {
    let mut cts = written(&Packet {
        connid: None,
        ..full(packet::CTS)
    });
    assert_eq!(&cts[..8], &[3, 4, 0, 0, 0, 0, 0, 0]);
    let zeroed = cts.clone();
    cts[4..8].fill(0xFF);
    let values = read(&cts).unwrap();
    assert_eq!(values.connid, None);
    assert_eq!(written(&values), zeroed);

    let mut ctsdata = written(&full(packet::CTSDATA));
    let zeroed = ctsdata.clone();
    ctsdata[28..32].fill(0xFF);
    assert_eq!(written(&read(&ctsdata).unwrap()), zeroed);
}

#[test]
fn an_address_of_no_bytes_is_not_absent() {
    let packet = Packet {
        kind: 64,
        raw_address: Some(&[]),
        ..Packet::default()
    };
    let bytes = written(&packet);
    assert_eq!(bytes, [64, 4, 5, 0, 0, 0, 0, 0, 0, 0, 0, 0]);
    assert_eq!(read(&bytes), Ok(packet));
    assert_eq!(read(&bytes).unwrap().raw_address, Some(&[][..]));
}

/// Values of any type that keep the rules. `raw_address` and `data` are lent, for them to borrow.
fn generated<'a>(random: &mut Random, raw_address: &'a [u8], data: &'a [u8]) -> Packet<'a> {
    let row = TABLE[random.below(8) as usize];
    let length = data.len() as u64;
    let mut packet = Packet {
        kind: row.kind,
        data,
        ..Packet::default()
    };
    if random.chance(2) {
        packet.connid = Some(random.any() as u32);
    }
    if row.is_rtm() {
        packet.msg_id = random.any() as u32;
        packet.raw_address = random.chance(2).then_some(raw_address);
        packet.cq_data = random.chance(2).then(|| random.any());
        if row.tagged {
            packet.tag = random.any();
        }
    }
    match row.kind {
        packet::CTS => {
            packet.data = &[];
            packet.send_id = random.any() as u32;
            packet.recv_id = random.any() as u32;
            packet.recv_length = random.any().max(1);
        }
        packet::CTSDATA => {
            packet.recv_id = random.any() as u32;
            packet.seg_length = length;
            packet.seg_offset = random.any();
        }
        packet::MEDIUM_MSGRTM | packet::MEDIUM_TAGRTM => {
            packet.seg_offset = random.any().min(u64::MAX - length);
            packet.msg_length = random.any().max(packet.seg_offset + length);
        }
        packet::LONGCTS_MSGRTM | packet::LONGCTS_TAGRTM => {
            if random.chance(4) {
                packet.data = &[];
            }
            packet.msg_length = random.any().max(packet.data.len() as u64).max(1);
            packet.send_id = random.any() as u32;
            packet.credit_request = random.any() as u32;
        }
        _ => {}
    }
    packet
}

#[test]
fn values_written_are_the_values_read() {
    let mut random = Random::new(1);
    for round in 0..20_000 {
        let address_length = random.mostly_below(40, 4_000);
        let address = random.bytes(address_length);
        let data_length = 1 + random.mostly_below(80, 4_000);
        let data = random.bytes(data_length);
        let packet = generated(&mut random, &address, &data);

        let mut out = vec![0xEE; MAX_PACKET + 5];
        let length = write(&packet, &mut out).unwrap();
        assert!(
            out[length..].iter().all(|byte| *byte == 0xEE),
            "bytes past the packet stay"
        );
        assert_eq!(read(&out[..length]), Ok(packet), "round {round}");

        // One byte less than the packet needs is too short, and nothing is written then.
        let mut out = vec![0xEE; length - 1];
        assert_eq!(write(&packet, &mut out), Err(21));
        assert!(out.iter().all(|byte| *byte == 0xEE));
    }
}

#[test]
fn bytes_read_are_the_bytes_written() {
    let mut random = Random::new(2);
    let mut readable = 0;
    for _ in 0..200_000 {
        // Noise behind a base header that mostly passes.
        let length = random.below(120);
        let mut bytes = random.bytes(length);
        let row = TABLE[random.below(8) as usize];
        let optional =
            [0, 1, 2, 3][random.below(4) as usize] | [0, 0x8000][random.below(2) as usize];
        let flags: u16 = match (row.is_rtm(), row.tagged) {
            (false, _) => optional & 0x8000,
            (true, tagged) => optional | if tagged { 0xC } else { 4 },
        };
        if bytes.len() >= 4 {
            bytes[..2].copy_from_slice(&[row.kind, 4]);
            bytes[2..4].copy_from_slice(&flags.to_le_bytes());
        }
        // Lengths off the wire are made small now and then, for more than noise to pass.
        if bytes.len() >= row.header + 4 && flags & 1 != 0 {
            bytes[row.header + 1..row.header + 4].fill(0);
        }
        if row.kind == packet::CTSDATA && bytes.len() >= 32 {
            let data = bytes.len() - if flags == 0 { 24 } else { 32 };
            bytes[8..16].copy_from_slice(&(data as u64).to_le_bytes());
        }
        if row.kind == packet::CTS && random.chance(2) {
            bytes.truncate(24);
        }
        let Ok(packet) = read(&bytes) else { continue };
        readable += 1;
        let mut expected = bytes.clone();
        match row.kind {
            packet::CTS if flags == 0 => expected[4..8].fill(0),
            packet::CTSDATA if flags != 0 => expected[28..32].fill(0),
            _ => {}
        }
        assert_eq!(written(&packet), expected);
    }
    assert!(readable > 50_000, "only {readable} packets could be read");
}

#[test]
fn the_reader_never_panics() {
    let mut random = Random::new(3);
    for _ in 0..200_000 {
        let length = random.below(64);
        let mut bytes = random.bytes(length);
        if bytes.len() >= 4 && !random.chance(4) {
            bytes[0] = TABLE[random.below(8) as usize].kind;
            bytes[1] = 4;
            bytes[2] &= 0x0F;
            bytes[3] &= 0x80;
        }
        if let Err(number) = read(&bytes) {
            assert!((6..=11).contains(&number));
        }
    }
}

#[test]
fn every_refusal_of_the_reader() {
    assert_eq!(read(&vec![0; MAX_PACKET + 1]), Err(6));
    for length in 0..4 {
        assert_eq!(
            read(&[0x40, 0, 0, 0][..length]),
            Err(7),
            "before 8, under 4 bytes"
        );
    }
    assert_eq!(read(&[6, 3, 0xFF, 0xFF]), Err(8));
    assert_eq!(read(&[6, 4, 0xFF, 0xFF]), Err(9));
    assert_eq!(read(&[64, 4, 0xFF, 0xFF]), Err(10));
    assert_eq!(read(&[64, 4, 4, 0]), Err(7));
    assert_eq!(read(&medium_bytes(4, 3, b"xy")), Err(11));
}

/// A plain MEDIUM packet that need not keep the length rule.
fn medium_bytes(msg_length: u64, seg_offset: u64, data: &[u8]) -> Vec<u8> {
    let mut bytes = vec![66, 4, 4, 0, 0, 0, 0, 0];
    bytes.extend(msg_length.to_le_bytes());
    bytes.extend(seg_offset.to_le_bytes());
    bytes.extend(data);
    bytes
}

#[test]
fn the_longest_packet() {
    let data = vec![7; MAX_PACKET - 8];
    let bytes = eager(5, &data);
    assert_eq!(bytes.len(), MAX_PACKET);
    assert_eq!(read(&bytes).unwrap().data, data);
    assert_eq!(read(&[&bytes[..], &[7]].concat()), Err(6));
}

#[test]
fn types_that_are_not_in_the_table() {
    for kind in 0..=255 {
        let known = matches!(kind, 3 | 4 | 64..=69);
        let number = read(&[kind, 4, 0x10, 0]).unwrap_err();
        assert_eq!(number, if known { 10 } else { 9 }, "type {kind}");
        let packet = Packet {
            kind,
            raw_address: Some(&[]),
            data: b"x",
            ..Packet::default()
        };
        let answer = write(&packet, &mut []);
        let expected = match kind {
            3 | 4 => 10,
            66..=69 => 11,
            64 | 65 => 21,
            _ => 9,
        };
        assert_eq!(answer, Err(expected), "type {kind}");
    }
}

#[test]
fn flags_of_every_type() {
    for row in TABLE {
        for flags in 0..=u16::MAX {
            let allowed = match row.kind {
                3 | 4 => flags & 0x7FFF == 0,
                64 | 66 | 68 => flags & 0x7FFC == 4,
                _ => flags & 0x7FFC == 0xC,
            };
            let [low, high] = flags.to_le_bytes();
            let expected = if allowed { 7 } else { 10 };
            assert_eq!(read(&[row.kind, 4, low, high]), Err(expected));
        }
    }
}

/// A packet cut anywhere inside its headers is refused with 7, whatever else is wrong with it.
#[test]
fn headers_cut_short() {
    let headers = [
        (3, 24),
        (4, 32),
        (64, 27),
        (65, 35),
        (66, 43),
        (67, 51),
        (68, 43),
        (69, 51),
    ];
    for (kind, header) in headers {
        let bytes = written(&full(kind));
        for length in 0..bytes.len() {
            let answer = read(&bytes[..length]);
            if length < header {
                assert_eq!(answer, Err(7), "type {kind}, {length} bytes");
            } else {
                assert_ne!(answer, Err(7), "type {kind}, {length} bytes");
            }
        }
    }
}

#[test]
fn address_size_is_a_whole_number() {
    for size in [1, 2, 0x7FFF_FFFF, u32::MAX - 11, u32::MAX] {
        let mut bytes = vec![64, 4, 5, 0, 0, 0, 0, 0];
        bytes.extend(size.to_le_bytes());
        assert_eq!(read(&bytes), Err(7), "size {size}");
    }
}

#[test]
fn length_rules() {
    // MEDIUM: offset and data are added as whole numbers.
    assert!(read(&medium_bytes(4, 2, b"cd")).is_ok());
    assert_eq!(read(&medium_bytes(4, 2, b"cde")), Err(11));
    assert_eq!(read(&medium_bytes(4, 2, b"")), Err(11));
    assert_eq!(read(&medium_bytes(4, 4, b"")), Err(11));
    assert_eq!(read(&medium_bytes(4, u64::MAX, b"ab")), Err(11), "no wrap");
    assert!(read(&medium_bytes(u64::MAX, u64::MAX - 2, b"ab")).is_ok());
    assert!(read(&medium_bytes(u64::MAX, u64::MAX - 1, b"a")).is_ok());
    assert_eq!(read(&medium_bytes(u64::MAX, u64::MAX, b"a")), Err(11));

    // LONGCTS: its length stands where MEDIUM's does.
    let long = |length: u64, data: &[u8]| {
        let mut bytes = medium_bytes(length, 0, data);
        bytes[0] = 68;
        read(&bytes).map(|packet| packet.data.len())
    };
    assert_eq!(long(2, b"ab"), Ok(2));
    assert_eq!(long(3, b"ab"), Ok(2));
    assert_eq!(long(1, b"ab"), Err(11));
    assert_eq!(long(0, b"a"), Err(11));

    // It may start empty, but not be empty.
    assert_eq!(long(5, b""), Ok(0));
    assert_eq!(long(1, b""), Ok(0));
    assert_eq!(long(u64::MAX, b""), Ok(0));
    assert_eq!(long(0, b""), Err(11));

    // CTSDATA: the data has the length given.
    let ctsdata = |length: u64, data: &[u8]| {
        let mut bytes = medium_bytes(length, u64::MAX, data);
        bytes[0] = 4;
        bytes[2] = 0;
        read(&bytes).map(|packet| packet.data.len())
    };
    assert_eq!(ctsdata(2, b"ab"), Ok(2));
    assert_eq!(ctsdata(1, b"ab"), Err(11));
    assert_eq!(ctsdata(3, b"ab"), Err(11));
    assert_eq!(ctsdata(0, b""), Err(11));

    // CTS: no data, and a grant of at least one byte.
    let mut cts = written(&full(packet::CTS));
    assert_eq!(read(&[&cts[..], &[0]].concat()), Err(11));
    cts[16..24].fill(0);
    assert_eq!(read(&cts), Err(11));

    // EAGER has no rule.
    assert_eq!(read(&eager(0, b"")).unwrap().data, b"");
}

#[test]
fn the_writer_takes_an_empty_start_but_no_empty_long_message() {
    for (kind, header) in [(packet::LONGCTS_MSGRTM, 24), (packet::LONGCTS_TAGRTM, 32)] {
        let mut out = [0xEE; 40];
        let mut packet = Packet {
            kind,
            ..Packet::default()
        };
        assert_eq!(write(&packet, &mut out), Err(11), "type {kind}");
        packet.data = b"a";
        assert_eq!(write(&packet, &mut out), Err(11), "type {kind}");
        assert_eq!(out, [0xEE; 40]);
        packet.data = &[];
        packet.msg_length = 1;
        assert_eq!(write(&packet, &mut out), Ok(header), "type {kind}");
        assert_eq!(read(&out[..header]), Ok(packet), "type {kind}");
    }
}

/// A packet with every fault is repaired one fault at a time, in the order of the checks.
#[test]
fn order_of_the_writer() {
    let data = vec![0; MAX_PACKET];
    let mut packet = Packet {
        kind: 5,
        cq_data: Some(1),
        data: &data,
        ..Packet::default()
    };
    let mut out = vec![0xEE; 27];
    assert_eq!(write(&packet, &mut out), Err(9));
    packet.kind = packet::CTSDATA;
    assert_eq!(write(&packet, &mut out), Err(10));
    packet.cq_data = None;
    assert_eq!(write(&packet, &mut out), Err(11));
    packet.seg_length = MAX_PACKET as u64;
    assert_eq!(write(&packet, &mut out), Err(6));
    packet.seg_length = 4;
    packet.data = &data[..4];
    assert_eq!(write(&packet, &mut out), Err(21));
    assert_eq!(out, [0xEE; 27]);
    out.push(0xEE);
    assert_eq!(write(&packet, &mut out), Ok(28));
}

#[test]
fn optional_headers_that_a_type_cannot_have() {
    for kind in [packet::CTS, packet::CTSDATA] {
        let mut out = [0; 100];
        assert!(
            write(&full(kind), &mut out).is_ok(),
            "connid is for every type"
        );
        let address = Packet {
            raw_address: Some(ADDRESS),
            ..full(kind)
        };
        assert_eq!(write(&address, &mut out), Err(10));
        let cq_data = Packet {
            cq_data: Some(0),
            ..full(kind)
        };
        assert_eq!(write(&cq_data, &mut out), Err(10));
    }
}

#[test]
fn the_writers_limit_counts_the_whole_packet() {
    let address = vec![1; 4_000];
    let data = vec![2; MAX_PACKET - 4_000 - 8 - 4 - 8 - 4];
    let mut packet = Packet {
        kind: 64,
        raw_address: Some(&address),
        cq_data: Some(3),
        connid: Some(4),
        data: &data,
        ..Packet::default()
    };
    let mut out = vec![0; MAX_PACKET + 1];
    assert_eq!(write(&packet, &mut out), Ok(MAX_PACKET));
    packet.kind = 65;
    assert_eq!(write(&packet, &mut out), Err(6));
}

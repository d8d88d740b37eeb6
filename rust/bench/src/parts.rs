//! Parts of a receiver on their own: marking, reading and writing a packet, a run of one call.

use std::hint::black_box;
use std::time::Instant;

use reference::packed::{self, VALUE_WORDS};
use reference::packet::{self, Packet};

use crate::measure::{in_turn, on_clear_maps, ratio, Times};
use crate::runs::Lent;
use crate::workload::{content, written, AREA};

/// The segment that is marked: 8,000 bytes that begin and end within words.
const MARK: (usize, usize) = (100, 8_000);

pub fn print() {
    println!("\nParts on their own, per call. Bytes are those marked, or those of the packets.\n");
    println!(
        "| Part | Verified, ns | Reference, ns | Verified, calls/s | Reference, calls/s \
         | Verified, MB/s | Reference, MB/s | Time, verified/reference |"
    );
    println!("|---|---|---|---|---|---|---|---|");
    row("overlap test and marks of 8,000 bytes", &marks());
    row("reader, mix of the eight types", &reads());
    row("writer, mix of the eight types", &writes());
    for n in [1, 8] {
        let (report, packet) = one_call_runs(n);
        row(&format!("run of one report, n = {n}"), &report);
        row(&format!("run of one packet (refused 16), n = {n}"), &packet);
    }
}

/// Times of both, with the calls made and the bytes handled in each.
struct Measured {
    verified: Times,
    reference: Times,
    calls: usize,
    bytes: Option<usize>,
}

fn row(name: &str, measured: &Measured) {
    let Measured {
        verified,
        reference,
        calls,
        bytes,
    } = measured;
    let each = |times: &Times| times.spread(1e9 / *calls as f64);
    let rate = |times: &Times| match bytes {
        Some(bytes) => format!("{:.0}", times.per_second(*bytes) / 1e6),
        None => String::new(),
    };
    println!(
        "| {name} | {} | {} | {:.0} | {:.0} | {} | {} | {:.2} |",
        each(verified),
        each(reference),
        verified.per_second(*calls),
        reference.per_second(*calls),
        rate(verified),
        rate(reference),
        ratio(verified, reference)
    );
}

/// Each map is cleared, unmeasured, before it is marked again.
fn marks() -> Measured {
    let (maps, rounds) = (64, 300);
    let (at, count) = MARK;
    let mut sides = [
        vec![[0; AREA as usize / 64]; maps],
        vec![[0; AREA as usize / 64]; maps],
    ];
    let (verified, reference) = in_turn(|verified| {
        on_clear_maps(&mut sides[usize::from(verified)], rounds, |map| {
            let taken = if verified {
                quagfeather::mark(map, at, count).is_ok()
            } else {
                packed::mark(black_box(map), at, count).is_ok()
            };
            assert!(taken);
        })
    });
    assert!(sides[0] == sides[1], "the receivers differ");
    Measured {
        verified,
        reference,
        calls: maps * rounds,
        bytes: Some(maps * rounds * count),
    }
}

fn reads() -> Measured {
    let packets = packets();
    let rounds = 50;
    let mut sides = [[0; VALUE_WORDS]; 2].map(|values| vec![values; packets.len()]);
    let (verified, reference) = in_turn(|verified| {
        let values = &mut sides[usize::from(verified)];
        let since = Instant::now();
        for _ in 0..rounds {
            for (packet, values) in packets.iter().zip(values.iter_mut()) {
                let taken = if verified {
                    quagfeather::read(packet, values).is_ok()
                } else {
                    packed::read(black_box(packet), values).is_ok()
                };
                assert!(taken);
            }
        }
        since.elapsed()
    });
    assert!(sides[0] == sides[1], "the receivers differ");
    of_packets(&packets, rounds, verified, reference)
}

/// Times of rounds in which each packet was read or written once.
fn of_packets(packets: &[Vec<u8>], rounds: usize, verified: Times, reference: Times) -> Measured {
    let bytes: usize = packets.iter().map(Vec::len).sum();
    Measured {
        verified,
        reference,
        calls: packets.len() * rounds,
        bytes: Some(bytes * rounds),
    }
}

/// Each packet is written from the values that were read of it.
fn writes() -> Measured {
    let packets = packets();
    let values: Vec<[u64; VALUE_WORDS]> = packets.iter().map(|packet| values_of(packet)).collect();
    let rounds = 50;
    let mut sides = [(); 2].map(|()| vec![[0; 256]; packets.len()]);
    let (verified, reference) = in_turn(|verified| {
        let outs = &mut sides[usize::from(verified)];
        let since = Instant::now();
        for _ in 0..rounds {
            for ((packet, values), out) in packets.iter().zip(&values).zip(outs.iter_mut()) {
                let (raw_address, data) = (part(packet, values, 11), part(packet, values, 17));
                let mut length = 0;
                if verified {
                    let taken = quagfeather::write(values, raw_address, data, out, &mut length);
                    assert!(taken.is_ok());
                } else {
                    length = packed::write(black_box(values), raw_address, data, out).unwrap_or(0);
                }
                assert_eq!(length, packet.len());
            }
        }
        since.elapsed()
    });
    for (packet, out) in packets.iter().zip(&sides[0]) {
        assert!(out.starts_with(packet), "the packet written is another");
    }
    assert!(sides[0] == sides[1], "the receivers differ");
    of_packets(&packets, rounds, verified, reference)
}

fn values_of(packet: &[u8]) -> [u64; VALUE_WORDS] {
    let mut values = [0; VALUE_WORDS];
    assert!(packed::read(packet, &mut values).is_ok());
    values
}

/// The bytes at the place and of the length that two of the values give.
fn part<'a>(packet: &'a [u8], values: &[u64], at: usize) -> &'a [u8] {
    &packet[values[at] as usize..][..values[at + 1] as usize]
}

/// A mix of packets: every type, with each set of optional headers that it may have.
fn packets() -> Vec<Vec<u8>> {
    let mut packets = Vec::new();
    for headers in 0..8 {
        for row in &packet::TABLE {
            let data = match row.kind {
                packet::CTS => Vec::new(),
                _ => content(headers, 0, 100),
            };
            let has = |header: u32| headers >> header & 1 == 1;
            packets.push(written(&Packet {
                kind: row.kind,
                msg_id: headers,
                tag: 7,
                msg_length: 200,
                seg_offset: 50,
                seg_length: data.len() as u64,
                send_id: 1,
                credit_request: 2,
                recv_id: 3,
                recv_length: 4,
                raw_address: (row.is_rtm() && has(0)).then_some(&[5; 32]),
                cq_data: (row.is_rtm() && has(1)).then_some(6),
                connid: has(2).then_some(8),
                data: &data,
            }));
        }
    }
    packets
}

/// A report of an open message, and a repeated segment of it: neither changes anything.
fn one_call_runs(n: u64) -> (Measured, Measured) {
    let segment = written(&Packet {
        kind: packet::MEDIUM_MSGRTM,
        msg_length: AREA,
        data: &content(0, 0, 100),
        ..Packet::default()
    });
    let post = [1, 0, 0, 0, 0, 0, AREA, 0];
    let packet = packed::packet_words(0, (0, segment.len() as u64), (0, 24));
    let mut lent = Lent::new(n, 1_024, 2);
    lent.run(false, &[post, packet].concat(), &segment);
    lent.answers.truncate(8);
    let report = measured_alone(&lent, &packed::report_words(0, 0), &segment);
    let packet = measured_alone(&lent, &packet, &segment);
    (report, packet)
}

fn measured_alone(lent: &Lent, call: &[u64], bytes: &[u8]) -> Measured {
    let rounds = 3_000;
    let mut sides = [lent.clone(), lent.clone()];
    let (verified, reference) = in_turn(|verified| {
        let lent = &mut sides[usize::from(verified)];
        let since = Instant::now();
        for _ in 0..rounds {
            assert_eq!(lent.run(verified, black_box(call), bytes), 1);
        }
        since.elapsed()
    });
    assert!(sides[0] == sides[1], "the receivers differ");
    Measured {
        verified,
        reference,
        calls: rounds,
        bytes: None,
    }
}

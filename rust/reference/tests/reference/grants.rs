//! The grants of long messages.

use reference::engine::Answer::*;
use reference::packet;

use crate::support::*;

/// Runs a long message in data packets as large as they can be and gives its grants.
fn grants(limit: u64, length: u64, first: u64, credit_request: u32) -> Vec<u64> {
    let mut r = Receiver::new(1, 8_192, limit);
    let message = Random::new(length).bytes(length);
    r.post(0, 0, length);
    let mut answer = r.packet(
        0,
        &long(0, length, 77, credit_request, &message[..first as usize]),
    );
    let mut grants = Vec::new();
    let mut sent = first;
    while let Granted(recv_length) = answer {
        let cts = packet::read(&r.reply[..24]).unwrap();
        assert_eq!((cts.kind, cts.send_id, cts.recv_id), (packet::CTS, 77, 0));
        assert_eq!((cts.recv_length, cts.connid), (recv_length, None));
        assert_eq!(r.reply[2..8], [0; 6], "flags and multiuse are zero");
        grants.push(recv_length);
        let end = sent + recv_length;
        r.reply.fill(0xEE);
        while sent < end {
            assert!(sent == end - recv_length || answer == Stored);
            let to = end.min(sent + limit - 32);
            answer = r.packet(0, &ctsdata(0, sent, &message[sent as usize..to as usize]));
            sent = to;
        }
    }
    assert_eq!(answer, done(0, 0, length));
    assert_eq!(r.reply, [0xEE; 30]);
    assert_eq!(r.arena[..length as usize], message);
    grants
}

#[test]
fn grants_add_up_to_the_length() {
    let mut random = Random::new(4);
    for _ in 0..2_000 {
        let limit = 64 + random.below(200);
        let length = 1 + random.below(8_192);
        let first = match random.below(4) {
            0 => 0,
            _ => 1 + random.below(length.min(limit - 24)),
        };
        let credit_request = random.any() as u32;
        let grants = grants(limit, length, first, credit_request);
        assert_eq!(first + grants.iter().sum::<u64>(), length);
        assert!(grants.len() as u64 <= (length - first).div_ceil(limit - 32));
        let most = u64::from(credit_request.clamp(1, 16)) * (limit - 32);
        let (last, others) = grants
            .split_last()
            .map_or((most, &[][..]), |(l, o)| (*l, o));
        assert!(others.iter().all(|grant| *grant == most) && last <= most);
    }
}

#[test]
fn the_credit_request_is_bounded() {
    assert_eq!(grants(64, 8_192, 40, u32::MAX)[0], 16 * 32);
    assert_eq!(grants(64, 8_192, 40, 17)[0], 16 * 32);
    assert_eq!(grants(64, 8_192, 40, 16)[0], 16 * 32);
    assert_eq!(grants(64, 8_192, 40, 15)[0], 15 * 32);
    assert_eq!(grants(64, 8_192, 40, 1)[0], 32);
    assert_eq!(grants(64, 8_192, 40, 0)[0], 32);
    assert_eq!(grants(64, 41, 40, 5), [1]);
    assert_eq!(grants(64, 40, 40, 5), []);
}

#[test]
fn the_first_grant_of_an_empty_start_begins_at_0() {
    assert_eq!(grants(96, 200, 0, 2), [128, 72]);
    assert_eq!(grants(96, 200, 0, 0), [64, 64, 64, 8]);
    assert_eq!(grants(64, 8_192, 0, u32::MAX)[0], 16 * 32);
    assert_eq!(grants(64, 33, 0, 1), [32, 1]);
    assert_eq!(grants(64, 1, 0, 5), [1]);
}

#[test]
fn only_granted_touches_the_reply_buffer() {
    let mut r = Receiver::usual();
    r.reply = vec![0xEE; 24];
    r.post(0, 0, 100);
    assert_eq!(r.packet(0, &long(0, 100, 1, 1, &[1; 40])), Granted(60));
    r.reply.fill(0xEE);
    assert_eq!(r.packet(0, &ctsdata(0, 40, &[1; 59])), Stored);
    assert_eq!(r.packet(0, &ctsdata(0, 40, &[1; 1])), Refused(16));
    assert_eq!(r.packet(0, &ctsdata(0, 99, &[1; 1])), done(0, 0, 100));
    assert_eq!(r.reply, [0xEE; 24]);
}

#[test]
fn data_in_any_order_within_the_grant() {
    let mut r = Receiver::usual();
    r.post(0, 3, 200);
    assert_eq!(r.packet(0, &long(0, 200, 1, 2, &[1; 40])), Granted(128));
    assert_eq!(r.packet(0, &ctsdata(0, 104, &[3; 64])), Stored);
    assert_eq!(
        r.report(0, 0),
        Missing {
            received: 104,
            first: 40
        }
    );
    assert_eq!(r.packet(0, &ctsdata(0, 40, &[2; 63])), Stored);
    assert_eq!(
        r.report(0, 0),
        Missing {
            received: 167,
            first: 103
        }
    );
    assert_eq!(r.packet(0, &ctsdata(0, 103, &[2; 1])), Granted(32));
    assert_eq!(
        r.report(0, 0),
        Missing {
            received: 168,
            first: 168
        }
    );
}

#[test]
fn data_with_a_connid() {
    let mut r = Receiver::usual();
    r.post(0, 0, 100);
    assert_eq!(r.packet(0, &long(0, 100, 1, 1, &[1; 40])), Granted(60));
    let data = [2; 60];
    let bytes = written(&packet::Packet {
        kind: packet::CTSDATA,
        seg_length: 60,
        seg_offset: 40,
        connid: Some(9),
        data: &data,
        ..packet::Packet::default()
    });
    assert_eq!(bytes.len(), 92);
    assert_eq!(r.packet(0, &bytes), done(0, 0, 100));
    assert_eq!(r.arena[40..100], data);
}

#[test]
fn every_peer_has_its_own_grants_and_slots() {
    let mut r = Receiver::usual();
    for peer in 0..2 {
        for slot in 0..8 {
            assert_eq!(r.post(peer, slot * 32, 32), Posted(slot));
        }
    }
    for peer in 0..2 {
        assert_eq!(
            r.packet(peer, &long(0, 32, 5 + peer as u32, 1, &[1; 8])),
            Granted(24)
        );
        assert_eq!(r.reply[8], 5 + peer as u8);
    }
    assert_eq!(r.packet(1, &ctsdata(0, 8, &[2; 24])), done(0, 0, 32));
    assert_eq!(
        r.report(0, 0),
        Missing {
            received: 8,
            first: 8
        }
    );
    assert_eq!(r.packet(0, &ctsdata(0, 8, &[3; 24])), done(0, 0, 32));
}

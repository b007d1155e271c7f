//! The rules' cases of frames and records.

use super::{hex, second};
use compare::inputs::{frame_of, Dice};
use compare::receiver::{Found, FrameAnswer, Group, ReadAnswer, Receiver, Record};

const HEARTBEAT: &str = "00 00 00 03 00 00 00 00 00 00 00 03";
const CHANNEL_HEARTBEAT: &str =
    "00 05 F3 CF 00 00 00 0C 07 DB 00 00 00 00 00 00 00 0A 00 00 00 00 00 BF";

/// A record with these numbers and texts.
fn record(kind: u32, numbers: &[i64], texts: &[u8]) -> ReadAnswer {
    let mut record = Record {
        kind,
        numbers: [0; 8],
        texts: [0; 24],
    };
    record.numbers[..numbers.len()].copy_from_slice(numbers);
    record.texts[..texts.len()].copy_from_slice(texts);
    ReadAnswer::Record(record)
}

fn refused(number: u32, bytes: &[u8]) {
    assert_eq!(
        second().frame(bytes),
        FrameAnswer::Refused(number),
        "{bytes:02X?}"
    );
}

/// Refused by 1, with so many bytes missing.
fn short(missing: usize, bytes: &[u8]) {
    assert_eq!(
        second().frame(bytes),
        FrameAnswer::Short { missing },
        "{bytes:02X?}"
    );
}

#[test]
fn heartbeat_is_12_bytes() {
    let answer = second().frame(&hex(HEARTBEAT));
    assert_eq!(
        answer,
        FrameAnswer::Frame {
            kind: 3,
            from: 8,
            to: 8,
            size: 12
        }
    );
    assert_eq!(second().read(3, &[]), record(3, &[], &[]));
}

#[test]
fn checksum_is_four_bytes() {
    refused(3, &hex("00 00 00 03 00 00 00 00 00 00 00 04"));
    refused(3, &hex("00 00 00 03 00 00 00 00 00 00 01 03"));
    refused(3, &hex("00 00 00 03 00 00 00 00 01 00 00 03"));
}

#[test]
fn short_bytes_are_1() {
    short(1, &hex(HEARTBEAT)[..11]);
    short(8, &[]);
}

#[test]
fn a_cut_header_misses_what_8_bytes_lack() {
    short(7, &[0]);
    short(7, &[0xFF]);
    short(5, &hex("00 00 00"));
    short(1, &hex("00 00 00 03 00 00 40"));
    short(1, &[0xFF; 7]);
}

#[test]
fn a_cut_frame_misses_what_its_length_lacks() {
    short(4, &hex("00 00 00 03 00 00 00 00"));
    short(5, &hex("00 00 00 03 00 00 00 01"));
    short(16_387, &hex("00 00 00 03 00 00 3F FF"));
    short(16_388, &hex("00 00 00 03 00 00 40 00"));
    let bytes = hex(CHANNEL_HEARTBEAT);
    short(16, &bytes[..8]);
    short(15, &bytes[..9]);
    short(4, &bytes[..20]);
    short(1, &bytes[..23]);
    let longest = frame_of(7, &[0xAB; 16_384]);
    short(1, &longest[..16_395]);
}

#[test]
fn length_over_the_limit_is_2() {
    refused(2, &hex("00 00 00 03 00 00 40 01"));
    short(16_388, &hex("00 00 00 03 00 00 40 00"));
    short(1, &hex("00 00 00 03 00 00 40"));
    refused(2, &hex("00 00 00 03 FF FF FF FF"));
}

/// The bytes of a frame, its checksum right or another, and its L, which may
/// be above the limit.
fn a_frame(dice: &mut Dice) -> (Vec<u8>, usize) {
    let length = match dice.below(50) {
        0 => 16_384 - dice.below(2) as usize,
        1..=9 => 0,
        _ => dice.below(60) as usize,
    };
    let mut bytes = frame_of(dice.bits() as u32, &dice.noise(length));
    match dice.below(4) {
        0 => *bytes.last_mut().expect("a checksum") ^= 1,
        1 => {
            let length = dice.pick(&[16_385, 16_386, 1 << 16, 1 << 31, u32::MAX]);
            bytes[4..8].copy_from_slice(&length.to_be_bytes());
            return (bytes, length as usize);
        }
        _ => {}
    }
    (bytes, length)
}

/// What bytes read as to which just what was missing has come: behind a
/// header that was cut 2, or 1 with the L+4 bytes that the frame lacks; behind
/// a frame that was cut a frame, or 3.
fn judged_further(there: usize, length: usize, bytes: &[u8]) {
    match second().frame(bytes) {
        FrameAnswer::Refused(2) => assert!(there < 8 && length > 16_384),
        FrameAnswer::Short { missing } => {
            assert!(there < 8 && length <= 16_384);
            assert_eq!(missing, length + 4);
        }
        FrameAnswer::Frame { size, .. } => assert!(there >= 8 && size == bytes.len()),
        answer => assert!(there >= 8 && answer == FrameAnswer::Refused(3)),
    }
}

#[test]
fn just_what_is_missing_lets_it_judge_further() {
    let mut cut = [0; 2];
    for index in 0..10_000 {
        let mut dice = Dice::new(20_170_401, index);
        let (bytes, length) = a_frame(&mut dice);
        let limit = if dice.one_in(2) { 8 } else { bytes.len() };
        let there = dice.below(limit as u64) as usize;
        if there >= 8 && length > 16_384 {
            refused(2, &bytes[..there]);
            continue;
        }
        let FrameAnswer::Short { missing } = second().frame(&bytes[..there]) else {
            panic!("not refused by 1: {there} of {} bytes", bytes.len());
        };
        assert!(missing > 0);
        let some = 1 + dice.below(missing as u64) as usize;
        for fewer in (1..missing).take(100).chain([missing - 1, some - 1]) {
            short(missing - fewer, &bytes[..there + fewer]);
        }
        judged_further(there, length, &bytes[..there + missing]);
        cut[usize::from(there >= 8)] += 1;
    }
    assert!(cut.iter().all(|cases| *cases > 1_000), "{cut:?}");
}

#[test]
fn channel_heartbeat_of_2011() {
    let bytes = hex(CHANNEL_HEARTBEAT);
    let answer = second().frame(&bytes);
    assert_eq!(
        answer,
        FrameAnswer::Frame {
            kind: 390095,
            from: 8,
            to: 20,
            size: 24
        }
    );
    assert_eq!(
        second().read(390095, &bytes[8..20]),
        record(390095, &[2011, 10, 0], &[])
    );
}

#[test]
fn end_field_2_is_5() {
    let bytes = hex("0005F3CF 0000000C 07DB 000000000000000A 0002 000000C1");
    let answer = second().frame(&bytes);
    assert_eq!(
        answer,
        FrameAnswer::Frame {
            kind: 390095,
            from: 8,
            to: 20,
            size: 24
        }
    );
    assert_eq!(second().read(390095, &bytes[8..20]), ReadAnswer::Refused(5));
}

#[test]
fn body_of_11_bytes_is_4() {
    let bytes = hex("0005F3CF 0000000B 0000000000000000000000 000000D2");
    let answer = second().frame(&bytes);
    assert_eq!(
        answer,
        FrameAnswer::Frame {
            kind: 390095,
            from: 8,
            to: 19,
            size: 23
        }
    );
    assert_eq!(second().read(390095, &bytes[8..19]), ReadAnswer::Refused(4));
}

#[test]
fn bytes_behind_the_frame_play_no_part() {
    let mut bytes = hex(HEARTBEAT);
    bytes.extend_from_slice(&hex("FF FF FF"));
    let answer = second().frame(&bytes);
    assert_eq!(
        answer,
        FrameAnswer::Frame {
            kind: 3,
            from: 8,
            to: 8,
            size: 12
        }
    );
}

#[test]
fn unlisted_type_is_unknown() {
    let answer = second().read(390019, &[1, 2, 3]);
    assert_eq!(
        answer,
        ReadAnswer::Unknown {
            kind: 390019,
            length: 3
        }
    );
    assert_eq!(second().group(390019, &[1, 2, 3], 0), Found::NoSuchEntry);
    assert_eq!(second().entry(390019, &[1, 2, 3], 0), Found::NoSuchEntry);
    assert_eq!(
        second().quantity(390019, &[1, 2, 3], 0, 0),
        Found::NoSuchEntry
    );
}

#[test]
fn tail_is_ignored() {
    let body = hex("07DB 000000000000000A 0001 FFFF");
    assert_eq!(
        second().read(390095, &body),
        record(390095, &[2011, 10, 1], &[])
    );
    assert_eq!(second().read(3, &[0xFF; 40]), record(3, &[], &[]));
}

#[test]
fn resend_has_two_texts() {
    let mut body = hex("02 07DB 0000000000000003 0000000000000004");
    body.extend_from_slice(b"SZGG0001");
    body.push(4);
    body.extend_from_slice(b"20033           ");
    let texts = b"SZGG000120033           ";
    assert_eq!(
        second().read(390094, &body),
        record(390094, &[2, 2011, 3, 4, 4], texts)
    );
    body[0] = 3;
    assert_eq!(second().read(390094, &body), ReadAnswer::Refused(5));
    body[0] = 0;
    assert_eq!(second().read(390094, &body), ReadAnswer::Refused(5));
    assert_eq!(second().read(390094, &body[..43]), ReadAnswer::Refused(4));
}

/// An order of 51 bytes.
fn order() -> Vec<u8> {
    let mut body = hex("07DB 0000000000000001");
    body.extend_from_slice(b"011000001  102 ");
    body.extend_from_slice(&123_400i64.to_be_bytes());
    body.extend_from_slice(&50_000i64.to_be_bytes());
    body.push(b'1');
    body.extend_from_slice(&20_261_113_091_500_000i64.to_be_bytes());
    body.push(b'U');
    body
}

#[test]
fn order_has_its_fields_in_order() {
    let numbers = [2011, 1, 123_400, 50_000, 0x31, 20_261_113_091_500_000, 0x55];
    let answer = record(300192, &numbers, b"011000001  102 ");
    assert_eq!(second().read(300192, &order()), answer);
    let mut negative = order();
    negative[25..33].copy_from_slice(&(-1i64).to_be_bytes());
    assert!(matches!(
        second().read(300192, &negative),
        ReadAnswer::Record(_)
    ));
    negative[33..41].copy_from_slice(&(-1i64).to_be_bytes());
    assert_eq!(second().read(300192, &negative), ReadAnswer::Refused(5));
    assert_eq!(
        second().read(300192, &negative[..50]),
        ReadAnswer::Refused(4)
    );
}

#[test]
fn trade_has_its_fields_in_order() {
    let mut body = hex("07DB 0000000000000003");
    body.extend_from_slice(b"011");
    body.extend_from_slice(&hex("0000000000000000 0000000000000002"));
    body.extend_from_slice(b"000001  102 ");
    body.extend_from_slice(&hex("0000000000000000 000000000000C350 34"));
    body.extend_from_slice(&20_261_113_091_500_000i64.to_be_bytes());
    assert_eq!(body.len(), 66);
    let numbers = [2011, 3, 0, 2, 0, 50_000, 0x34, 20_261_113_091_500_000];
    let answer = record(300191, &numbers, b"011000001  102 ");
    assert_eq!(second().read(300191, &body), answer);
}

#[test]
fn groups_come_by_position() {
    let mut body = 20_261_113_091_500_000i64.to_be_bytes().to_vec();
    body.extend_from_slice(&hex("03F3 00000002"));
    body.extend_from_slice(b"010\x00\x00\x09\x06T       900\x00\x00\x00\xA7E       ");
    let group = |stream: &[u8; 3], stock_number, phase: &[u8; 8]| {
        Found::Found(Group::Statistics {
            stream: *stream,
            stock_number,
            phase: *phase,
        })
    };
    assert_eq!(
        second().group(390090, &body, 0),
        group(b"010", 2310, b"T       ")
    );
    assert_eq!(
        second().group(390090, &body, 1),
        group(b"900", 167, b"E       ")
    );
    assert_eq!(second().group(390090, &body, 2), Found::NoSuchEntry);
    assert_eq!(second().entry(390090, &body, 0), Found::NoSuchEntry);
    assert_eq!(second().group(390090, &body[..43], 2), Found::Refused(4));
    body[0] = 0xFF;
    assert_eq!(second().group(390090, &body, 2), Found::Refused(5));
}

#[test]
fn switches_come_by_position() {
    let mut body = 20_261_113_091_500_000i64.to_be_bytes().to_vec();
    body.extend_from_slice(&hex("0001"));
    body.extend_from_slice(b"000001  102 A       ");
    body.extend_from_slice(&hex("00000002 0001 0001 001F 0000"));
    let group = |switch_type, yes_no| {
        Found::Found(Group::SecurityStatus {
            switch_type,
            yes_no,
        })
    };
    assert_eq!(second().group(390013, &body, 0), group(1, 1));
    assert_eq!(second().group(390013, &body, 1), group(31, 0));
    body[41] = 2;
    assert_eq!(second().group(390013, &body, 0), Found::Refused(5));
}

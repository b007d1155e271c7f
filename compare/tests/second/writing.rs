//! The writer and the request by hand-written values.

use super::{hex, second};
use compare::receiver::{Draft, Receiver, RequestAnswer, WriteAnswer};

/// Writes into an output of so many marker bytes.
fn write(draft: &Draft, room: usize) -> (WriteAnswer, Vec<u8>) {
    let mut output = vec![0xA5; room];
    let answer = second().write(draft, &mut output);
    (answer, output)
}

/// A draft of a channel heartbeat.
fn channel_heartbeat(last: i64, end: i64) -> Draft<'static> {
    let numbers = [2011, last, end, 0, 0, 0, 0, 0];
    Draft {
        kind: 390095,
        numbers,
        texts: &[],
        groups: &[],
    }
}

/// A refusal leaves the output as it stood.
fn refused(number: u32, draft: &Draft, room: usize) {
    let (answer, output) = write(draft, room);
    assert_eq!(answer, WriteAnswer::Refused(number));
    assert!(output.iter().all(|byte| *byte == 0xA5));
}

#[test]
fn writes_document_01s_frames() {
    let none = Draft {
        kind: 3,
        numbers: [0; 8],
        texts: &[],
        groups: &[],
    };
    let (answer, output) = write(&none, 15);
    assert_eq!(answer, WriteAnswer::Written(12));
    assert_eq!(output, hex("00000003 00000000 00000003 A5A5A5"));
    let (answer, output) = write(&channel_heartbeat(10, 0), 25);
    assert_eq!(answer, WriteAnswer::Written(24));
    assert_eq!(
        output,
        hex("0005F3CF 0000000C 07DB 000000000000000A 0000 000000BF A5")
    );
}

#[test]
fn output_too_short_is_6() {
    refused(6, &channel_heartbeat(10, 0), 23);
    refused(6, &channel_heartbeat(10, 0), 0);
    assert_eq!(
        write(&channel_heartbeat(10, 0), 24).0,
        WriteAnswer::Written(24)
    );
}

#[test]
fn refusals_come_in_order() {
    let unlisted = Draft {
        kind: 390019,
        texts: b"x",
        ..channel_heartbeat(-1, 0)
    };
    refused(5, &unlisted, 0);
    let texts = Draft {
        texts: b"x",
        ..channel_heartbeat(-1, 0)
    };
    refused(4, &texts, 0);
    let groups = Draft {
        groups: b"x",
        ..channel_heartbeat(-1, 0)
    };
    refused(4, &groups, 0);
    refused(5, &channel_heartbeat(-1, 0), 0);
    refused(5, &channel_heartbeat(0, 2), 24);
}

#[test]
fn body_above_the_limit_is_2() {
    let numbers = [20_261_113_091_500_000, 1, 4088, 0, 0, 0, 0, 0];
    let groups = vec![0; 4 * 4088];
    let texts = [b' '; 20];
    let draft = Draft {
        kind: 390013,
        numbers,
        texts: &texts,
        groups: &groups,
    };
    refused(2, &draft, 0);
    let mut broken = draft;
    broken.numbers[0] = 0;
    refused(5, &broken, 0);
    let mut fewer = draft;
    fewer.numbers[2] = 4087;
    refused(4, &fewer, 0);
    fewer.groups = &groups[4..];
    refused(6, &fewer, 16_393);
    assert_eq!(write(&fewer, 16_394).0, WriteAnswer::Written(16_394));
}

#[test]
fn texts_stand_between_the_numbers() {
    let numbers = [
        2011,
        1,
        123_400,
        50_000,
        0x31,
        20_261_113_091_500_000,
        0x32,
        0,
    ];
    let draft = Draft {
        kind: 300192,
        numbers,
        texts: b"011000001  102 ",
        groups: &[],
    };
    let (answer, output) = write(&draft, 63);
    assert_eq!(answer, WriteAnswer::Written(63));
    assert_eq!(&output[18..33], b"011000001  102 ");
    assert_eq!((output[49], output[58]), (b'1', b'2'));
}

/// A request on channel 2011 after one tick.
fn request(number: i64, room: usize) -> (RequestAnswer, Vec<u8>) {
    request_from(1, number, room)
}

/// The same on a channel with another first number.
fn request_from(first: i64, number: i64, room: usize) -> (RequestAnswer, Vec<u8>) {
    let tracker = second().set_up(&[2011], &[first]).tracker;
    let next = second().tick(&tracker, 2011, number).next;
    let mut output = vec![0xA5; room];
    let answer = second().request(&next, 2011, &mut output);
    (answer, output)
}

#[test]
fn request_asks_for_the_first_run() {
    let (answer, output) = request(5, 57);
    assert_eq!(answer, RequestAnswer::Written(56));
    let mut frame = hex("0005F3CE 0000002C 01 07DB 0000000000000001 0000000000000004");
    frame.extend_from_slice(b"        \x00                ");
    let sum = frame.iter().fold(0u8, |sum, byte| sum.wrapping_add(*byte));
    frame.extend_from_slice(&[0, 0, 0, sum, 0xA5]);
    assert_eq!(output, frame);
}

#[test]
fn request_asks_for_200_numbers_at_most() {
    let last = |number| request(number, 56).1[26] as u32 + 256 * request(number, 56).1[25] as u32;
    assert_eq!(last(200), 199);
    assert_eq!(last(201), 200);
    assert_eq!(last(202), 200);
    assert_eq!(last(i64::MAX), 200);
}

#[test]
fn request_asks_from_the_first_number_on() {
    let (answer, output) = request_from(100_000, 100_300, 56);
    assert_eq!(answer, RequestAnswer::Written(56));
    assert_eq!(output[11..27], hex("00000000000186A0 0000000000018767"));
    let (answer, output) = request_from(100_000, 100_001, 56);
    assert_eq!(answer, RequestAnswer::Written(56));
    assert_eq!(output[11..27], hex("00000000000186A0 00000000000186A0"));
    let nothing = (RequestAnswer::NothingMissing, vec![0xA5; 56]);
    assert_eq!(request_from(100_000, 100_000, 56), nothing);
    assert_eq!(request_from(100_000, 99_999, 56), nothing);
}

#[test]
fn request_refuses_in_order() {
    assert_eq!(request(1, 0), (RequestAnswer::NothingMissing, vec![]));
    assert_eq!(request(5, 55), (RequestAnswer::Refused(6), vec![0xA5; 55]));
    let tracker = second().set_up(&[2011], &[1]).tracker;
    assert_eq!(
        second().request(&tracker, 2012, &mut []),
        RequestAnswer::Refused(7)
    );
    let none = second().set_up(&[], &[]).tracker;
    assert_eq!(
        second().request(&none, 2012, &mut []),
        RequestAnswer::Refused(10)
    );
}

//! The rules' cases of the stream.

use super::samples::{both, captures, folder};
use super::{hex, second};
use compare::inputs::frame_of;
use compare::receiver::{FrameAnswer, Given, Receiver, Stands, Stream};
use std::fs;

const HEARTBEAT: &str = "00 00 00 03 00 00 00 00 00 00 00 03";
const CHANNEL_HEARTBEAT: &str =
    "00 05 F3 CF 00 00 00 0C 07 DB 00 00 00 00 00 00 00 0A 00 00 00 00 00 BF";
/// Eight bytes with L 16,385.
const TOO_LONG: &str = "00 00 00 03 00 00 40 01";
const WRONG_SUM: &str = "00 00 00 03 00 00 00 00 00 00 00 04";

/// The longest frame.
const LONGEST: usize = 16_396;

/// A receiver's stream and its buffer.
struct Host<'a> {
    receiver: &'a dyn Receiver,
    stream: Stream,
    buffer: Vec<u8>,
}

impl<'a> Host<'a> {
    fn fresh(receiver: &'a dyn Receiver) -> Host<'a> {
        Host {
            receiver,
            stream: receiver.fresh(),
            buffer: vec![0xEE; LONGEST],
        }
    }

    /// A made-up state, with bytes that the buffer begins with.
    fn made_up(receiver: &'a dyn Receiver, held: usize, mark: u32, bytes: &[u8]) -> Host<'a> {
        let mut host = Host::fresh(receiver);
        host.stream = Stream { held, mark };
        host.buffer[..bytes.len()].copy_from_slice(bytes);
        host
    }

    /// Hands in a cut: what was found, and how many bytes were taken.
    fn push(&mut self, cut: &[u8]) -> (Given, usize) {
        let answer = self.receiver.push(self.stream, &mut self.buffer, cut);
        self.stream = answer.next;
        (answer.given, answer.took)
    }

    fn end(&mut self) -> Given {
        let answer = self.receiver.end(self.stream, &mut self.buffer);
        self.stream = answer.next;
        assert_eq!(answer.took, 0);
        answer.given
    }

    /// The state, and that the buffer holds these bytes and none besides.
    fn is(&self, held: usize, mark: u32, bytes: &[u8]) {
        assert_eq!(self.stream, Stream { held, mark });
        let mut whole = vec![0xEE; self.buffer.len()];
        whole[..bytes.len()].copy_from_slice(bytes);
        assert!(self.buffer == whole, "the buffer holds {:02X?}", bytes);
    }

    /// Every call takes nothing, gives this answer, and changes nothing.
    fn repeats(&mut self, given: Given) {
        let (stream, buffer) = (self.stream, self.buffer.clone());
        let cuts = [hex(HEARTBEAT), vec![], hex(TOO_LONG), vec![0; 20_000]];
        for cut in cuts {
            assert_eq!(self.push(&cut), (given, 0));
            assert_eq!(self.end(), given);
        }
        assert_eq!(self.stream, stream);
        assert!(self.buffer == buffer);
    }
}

fn heartbeat(stands: Stands) -> Given {
    Given::Frame {
        stands,
        kind: 3,
        length: 0,
        size: 12,
    }
}

fn more(missing: usize) -> Given {
    Given::More { missing }
}

fn short(missing: usize) -> Given {
    Given::Short { missing }
}

#[test]
fn a_fresh_stream_holds_nothing() {
    assert_eq!(second().fresh(), Stream { held: 0, mark: 0 });
}

#[test]
fn a_cut_of_no_bytes_is_more() {
    let second = second();
    let mut host = Host::fresh(&second);
    assert_eq!(host.push(&[]), (more(8), 0));
    host.is(0, 0, &[]);
    host.push(&[0, 0, 0]);
    assert_eq!(host.push(&[]), (more(5), 0));
    host.is(3, 0, &[0, 0, 0]);
}

#[test]
fn more_says_what_held_bytes_and_cut_lack() {
    let second = second();
    let bytes = hex(CHANNEL_HEARTBEAT);
    let mut host = Host::fresh(&second);
    assert_eq!(host.push(&bytes[..3]), (more(5), 3));
    assert_eq!(host.push(&bytes[3..7]), (more(1), 4));
    assert_eq!(host.push(&bytes[7..8]), (more(16), 1));
    assert_eq!(host.push(&[]), (more(16), 0));
    assert_eq!(host.push(&bytes[8..20]), (more(4), 12));
    assert_eq!(host.push(&bytes[20..23]), (more(1), 3));
    let mut host = Host::fresh(&second);
    assert_eq!(host.push(&bytes[..8]), (more(16), 8));
    let mut host = Host::fresh(&second);
    assert_eq!(host.push(&bytes[..5]), (more(3), 5));
    assert_eq!(host.push(&bytes[5..10]), (more(14), 5));
    let mut host = Host::fresh(&second);
    let most = hex("00 00 00 03 00 00 40 00");
    assert_eq!(host.push(&most), (more(16_388), 8));
    // Behind a frame the next one is missing.
    let mut host = Host::fresh(&second);
    host.push(&hex(HEARTBEAT));
    assert_eq!(host.push(&[]), (more(8), 0));
}

#[test]
fn one_at_the_end_says_what_held_bytes_lack() {
    let second = second();
    let bytes = hex(CHANNEL_HEARTBEAT);
    for (held, missing) in [(1, 7), (3, 5), (7, 1), (8, 16), (20, 4), (23, 1)] {
        let mut host = Host::fresh(&second);
        assert_eq!(host.push(&bytes[..held]), (more(missing), held));
        assert_eq!(host.end(), short(missing));
        host.repeats(short(missing));
        host.is(held, 1, &bytes[..held]);
    }
}

#[test]
fn a_frame_whole_in_the_cut_is_not_copied() {
    let second = second();
    let mut host = Host::fresh(&second);
    let bytes = hex(HEARTBEAT);
    assert_eq!(host.push(&bytes), (heartbeat(Stands::InCut), 12));
    host.is(0, 0, &[]);
}

#[test]
fn a_frame_over_two_cuts_stands_in_the_buffer() {
    let second = second();
    let bytes = hex(HEARTBEAT);
    for cut in 1..12 {
        let mut host = Host::fresh(&second);
        let missing = if cut < 8 { 8 - cut } else { 12 - cut };
        assert_eq!(host.push(&bytes[..cut]), (more(missing), cut));
        host.is(cut, 0, &bytes[..cut]);
        let answer = host.push(&bytes[cut..]);
        assert_eq!(answer, (heartbeat(Stands::InBuffer), 12 - cut));
        host.is(0, 0, &bytes);
    }
}

#[test]
fn bytes_behind_a_frame_are_not_taken() {
    let second = second();
    let bytes = [hex(HEARTBEAT), hex(CHANNEL_HEARTBEAT)].concat();
    let mut host = Host::fresh(&second);
    assert_eq!(host.push(&bytes), (heartbeat(Stands::InCut), 12));
    host.is(0, 0, &[]);
    let mut host = Host::fresh(&second);
    host.push(&bytes[..5]);
    assert_eq!(host.push(&bytes[5..]), (heartbeat(Stands::InBuffer), 7));
    host.is(0, 0, &bytes[..12]);
    let next = Given::Frame {
        stands: Stands::InCut,
        kind: 390095,
        length: 12,
        size: 24,
    };
    assert_eq!(host.push(&bytes[12..]), (next, 24));
}

#[test]
fn two_takes_to_the_eighth_byte() {
    let second = second();
    let bytes = [hex(TOO_LONG), vec![1; 100]].concat();
    let mut host = Host::fresh(&second);
    assert_eq!(host.push(&bytes), (Given::Refused(2), 8));
    host.is(0, 2, &[]);
    for held in 1..8 {
        let mut host = Host::fresh(&second);
        assert_eq!(host.push(&bytes[..held]), (more(8 - held), held));
        assert_eq!(host.push(&bytes[held..]), (Given::Refused(2), 8 - held));
        host.is(0, 2, &bytes[..8]);
    }
}

#[test]
fn three_takes_to_the_frames_end() {
    let second = second();
    let bytes = [hex(WRONG_SUM), vec![1; 100]].concat();
    let mut host = Host::fresh(&second);
    assert_eq!(host.push(&bytes), (Given::Refused(3), 12));
    host.is(0, 3, &[]);
    for held in 1..12 {
        let mut host = Host::fresh(&second);
        let missing = if held < 8 { 8 - held } else { 12 - held };
        assert_eq!(host.push(&bytes[..held]), (more(missing), held));
        assert_eq!(host.push(&bytes[held..]), (Given::Refused(3), 12 - held));
        host.is(0, 3, &bytes[..12]);
    }
}

#[test]
fn an_unfinished_frame_is_1_only_at_the_end() {
    let second = second();
    let bytes = hex(HEARTBEAT);
    let mut host = Host::fresh(&second);
    let missing = [7, 6, 5, 4, 3, 2, 1, 4, 3, 2, 1];
    for (byte, missing) in bytes.iter().zip(missing) {
        assert_eq!(host.push(&[*byte]), (more(missing), 1));
    }
    assert_eq!(host.end(), short(1));
    host.is(11, 1, &bytes[..11]);
}

#[test]
fn after_an_end_every_call_repeats() {
    let second = second();
    let mut host = Host::fresh(&second);
    assert_eq!(host.end(), Given::End);
    host.is(0, 1, &[]);
    host.repeats(Given::End);
    let mut host = Host::fresh(&second);
    host.push(&hex(HEARTBEAT)[..9]);
    assert_eq!(host.end(), short(3));
    host.repeats(short(3));
}

#[test]
fn after_2_and_3_every_call_repeats() {
    let second = second();
    for (bytes, number) in [(TOO_LONG, 2), (WRONG_SUM, 3)] {
        let mut host = Host::fresh(&second);
        host.push(&hex(bytes));
        host.repeats(Given::Refused(number));
    }
}

#[test]
fn a_stream_set_up_afresh_goes_on() {
    let second = second();
    let mut host = Host::fresh(&second);
    host.push(&hex(TOO_LONG)[..7]);
    host.push(&hex(TOO_LONG)[7..]);
    host.stream = second.fresh();
    host.is(0, 0, &hex(TOO_LONG));
    let answer = host.push(&hex(HEARTBEAT));
    assert_eq!(answer, (heartbeat(Stands::InCut), 12));
}

#[test]
fn the_longest_frame_is_kept() {
    let second = second();
    let bytes = frame_of(7, &[0xAB; 16_384]);
    assert_eq!(bytes.len(), LONGEST);
    let mut host = Host::fresh(&second);
    let most = LONGEST - 1;
    assert_eq!(host.push(&bytes[..most]), (more(1), most));
    host.is(most, 0, &bytes[..most]);
    let whole = Given::Frame {
        stands: Stands::InBuffer,
        kind: 7,
        length: 16_384,
        size: LONGEST,
    };
    assert_eq!(host.push(&[bytes[most], 1, 2]), (whole, 1));
    host.is(0, 0, &bytes);
}

#[test]
fn states_that_no_calls_lead_to_are_10() {
    let second = second();
    let two = [hex(HEARTBEAT), hex(HEARTBEAT)].concat();
    let mut states = vec![
        (LONGEST + 1, 0, vec![]),
        (LONGEST + 1, 1, vec![]),
        (usize::MAX, 0, vec![]),
        (usize::MAX, 2, vec![]),
        (1, 2, vec![]),
        (1, 3, vec![]),
        (8, 2, hex(TOO_LONG)),
        (12, 3, hex(WRONG_SUM)),
    ];
    for mark in [0, 1] {
        states.push((12, mark, hex(HEARTBEAT)));
        states.push((13, mark, hex(HEARTBEAT)));
        states.push((24, mark, two.clone()));
        states.push((8, mark, hex(TOO_LONG)));
        states.push((12, mark, hex(WRONG_SUM)));
    }
    for mark in [4, 10, 255, 256, u32::MAX] {
        states.push((0, mark, vec![]));
        states.push((5, mark, hex(HEARTBEAT)));
    }
    for (held, mark, bytes) in states {
        Host::made_up(&second, held, mark, &bytes).repeats(Given::Refused(10));
    }
}

#[test]
fn a_buffer_shorter_than_the_longest_frame_is_10() {
    let second = second();
    for mark in 0..4 {
        for length in [0, 1, 12, 16_384, LONGEST - 1] {
            let mut host = Host::made_up(&second, 0, mark, &[]);
            host.buffer.truncate(length);
            host.repeats(Given::Refused(10));
        }
    }
}

#[test]
fn states_that_calls_lead_to_are_read() {
    let second = second();
    let bytes = hex(HEARTBEAT);
    let mut host = Host::made_up(&second, 11, 0, &bytes);
    assert_eq!(host.push(&[3]), (heartbeat(Stands::InBuffer), 1));
    let mut host = Host::made_up(&second, 11, 0, &bytes);
    host.buffer.push(0);
    assert_eq!(host.push(&[4]), (Given::Refused(3), 1));
    Host::made_up(&second, 11, 1, &bytes).repeats(short(1));
    Host::made_up(&second, 5, 1, &bytes).repeats(short(3));
    Host::made_up(&second, 0, 1, &bytes).repeats(Given::End);
    Host::made_up(&second, 0, 2, &bytes).repeats(Given::Refused(2));
    Host::made_up(&second, 0, 3, &bytes).repeats(Given::Refused(3));
}

/// Type and bytes of each frame, and the refusal, if any.
type Whole = (Vec<(u32, Vec<u8>)>, Option<FrameAnswer>);

/// A capture read at once.
fn at_once(bytes: &[u8]) -> Whole {
    let (mut frames, mut rest) = (Vec::new(), bytes);
    while !rest.is_empty() {
        match second().frame(rest) {
            FrameAnswer::Frame { kind, size, .. } => {
                frames.push((kind, rest[..size].to_vec()));
                rest = &rest[size..];
            }
            refused => return (frames, Some(refused)),
        }
    }
    (frames, None)
}

/// A capture in cuts that end at these offsets, each with one of no bytes
/// behind it; what is left of a cut comes again alone.
fn in_cuts(receiver: &dyn Receiver, bytes: &[u8], ends: &[usize]) -> Whole {
    let (mut host, mut frames, mut taken) = (Host::fresh(receiver), Vec::new(), 0);
    for end in ends.iter().chain([&bytes.len()]) {
        loop {
            let cut = &bytes[taken..*end];
            let (given, took) = host.push(cut);
            taken += took;
            match given {
                Given::Refused(number) => return (frames, Some(FrameAnswer::Refused(number))),
                Given::Frame {
                    stands, kind, size, ..
                } => {
                    let lent = match stands {
                        Stands::InCut => cut,
                        Stands::InBuffer => &host.buffer,
                    };
                    frames.push((kind, lent[..size].to_vec()));
                }
                _ if cut.is_empty() => break,
                Given::More { .. } => assert_eq!(taken, *end),
                given => panic!("{given:?}"),
            }
        }
    }
    (frames, at_end(&mut host))
}

/// The refusal at a stream's end, if any.
fn at_end(host: &mut Host) -> Option<FrameAnswer> {
    match host.end() {
        Given::End => None,
        Given::Short { missing } => Some(FrameAnswer::Short { missing }),
        given => panic!("{given:?}"),
    }
}

#[test]
fn every_cutting_of_a_capture_gives_its_frames() {
    let paths = [captures("list"), captures("show")].concat();
    let opening = folder().join("opening.bin");
    assert!(paths.len() >= 30);
    for path in paths.iter().chain([&opening]) {
        let bytes = fs::read(path).expect("a capture");
        let whole = at_once(&bytes);
        // Cuts of one size, smaller ones of a small capture.
        let sizes: &[usize] = match bytes.len() {
            0..=4_000 => &[1, 2, 3, 7, 8, 9, 11, 12, 13, 100],
            4_001..=20_000 => &[7, 100, 16_395, 16_396, 16_397],
            _ => &[1_000, 16_395, 16_396, 16_397],
        };
        let even = sizes
            .iter()
            .map(|size| (0..bytes.len()).step_by(*size).collect());
        // Two cuts, at every offset of a small capture.
        let offsets = 0..if bytes.len() > 400 { 0 } else { bytes.len() };
        let cuttings: Vec<Vec<usize>> = even.chain(offsets.map(|at| vec![at])).collect();
        for receiver in both() {
            for ends in &cuttings {
                let cut = in_cuts(&*receiver, &bytes, ends);
                assert!(cut == whole, "{} in {} cuts", path.display(), ends.len());
            }
        }
    }
}

#[test]
fn every_three_cuts_of_two_frames_give_them() {
    let frames = [hex(HEARTBEAT), hex(CHANNEL_HEARTBEAT)].concat();
    let too_long = [hex(HEARTBEAT), hex(TOO_LONG), vec![0; 16]].concat();
    let wrong_sum = [hex(HEARTBEAT), hex(WRONG_SUM), vec![0; 12]].concat();
    for bytes in [&frames, &frames[..35].to_vec(), &too_long, &wrong_sum] {
        let whole = at_once(bytes);
        for receiver in both() {
            for one in 0..=bytes.len() {
                for two in one..=bytes.len() {
                    let cut = in_cuts(&*receiver, bytes, &[one, two]);
                    assert!(cut == whole, "cuts at {one} and {two}");
                }
            }
        }
    }
}

/// A capture read by a host that hands in just what is missing, as far as it
/// is there: first a header, then the rest of the frame. So it reads twice a
/// frame.
fn as_missing(receiver: &dyn Receiver, bytes: &[u8]) -> Whole {
    let (mut host, mut frames, mut rest) = (Host::fresh(receiver), Vec::new(), bytes);
    let (mut missing, mut reads) = (8, 0);
    while !rest.is_empty() {
        assert!(reads < 2 * (frames.len() + 1));
        reads += 1;
        let (cut, left) = rest.split_at(missing.min(rest.len()));
        let (given, took) = host.push(cut);
        assert_eq!(took, cut.len());
        rest = left;
        missing = match given {
            Given::Frame { kind, size, .. } => {
                frames.push((kind, host.buffer[..size].to_vec()));
                8
            }
            Given::More { missing } => missing,
            Given::Refused(number) => return (frames, Some(FrameAnswer::Refused(number))),
            given => panic!("{given:?}"),
        };
    }
    (frames, at_end(&mut host))
}

#[test]
fn a_host_reads_what_is_missing() {
    for path in [captures("list"), captures("show")].concat() {
        let bytes = fs::read(&path).expect("a capture");
        for receiver in both() {
            let read = as_missing(&*receiver, &bytes);
            assert!(read == at_once(&bytes), "{}", path.display());
        }
    }
}

//! Streams: frames back to back, whole and damaged, cut up in many ways; and
//! made-up states, good and such that no calls lead to.

use super::dice::Dice;
use super::{frame_of, Hand, Input};
use crate::layout::LISTED;
use crate::receiver::Stream;
use crate::second::rules::Rules;

/// The bytes of type and length.
const HEADER: usize = 8;

/// The bytes of a frame beside its body.
const AROUND: usize = 12;

/// The ways for a stream to be one that no calls lead to.
#[derive(Clone, Copy, PartialEq, Eq, Debug)]
pub enum Unled {
    BufferOneShort,
    BufferMuchShorter,
    NoBuffer,
    HeldOneAboveTheBuffer,
    HeldFarAboveTheBuffer,
    FrameHeld,
    FrameAndMoreHeld,
    TooLongHeld,
    WrongSumHeld,
    FrameHeldAtTheEnd,
    FrameAndMoreHeldAtTheEnd,
    TooLongHeldAtTheEnd,
    WrongSumHeldAtTheEnd,
    HeldBesideTwo,
    HeldBesideThree,
    OtherMark,
}

impl Unled {
    pub const ALL: [Unled; 16] = [
        Unled::BufferOneShort,
        Unled::BufferMuchShorter,
        Unled::NoBuffer,
        Unled::HeldOneAboveTheBuffer,
        Unled::HeldFarAboveTheBuffer,
        Unled::FrameHeld,
        Unled::FrameAndMoreHeld,
        Unled::TooLongHeld,
        Unled::WrongSumHeld,
        Unled::FrameHeldAtTheEnd,
        Unled::FrameAndMoreHeldAtTheEnd,
        Unled::TooLongHeldAtTheEnd,
        Unled::WrongSumHeldAtTheEnd,
        Unled::HeldBesideTwo,
        Unled::HeldBesideThree,
        Unled::OtherMark,
    ];

    pub fn name(self) -> &'static str {
        match self {
            Unled::BufferOneShort => "buffer one byte too short",
            Unled::BufferMuchShorter => "buffer much too short",
            Unled::NoBuffer => "buffer of no bytes",
            Unled::HeldOneAboveTheBuffer => "held one above the buffer",
            Unled::HeldFarAboveTheBuffer => "held far above the buffer",
            Unled::FrameHeld => "a frame held",
            Unled::FrameAndMoreHeld => "a frame and more held",
            Unled::TooLongHeld => "too long a body held",
            Unled::WrongSumHeld => "a wrong sum held",
            Unled::FrameHeldAtTheEnd => "a frame held, mark 1",
            Unled::FrameAndMoreHeldAtTheEnd => "a frame and more held, mark 1",
            Unled::TooLongHeldAtTheEnd => "too long a body held, mark 1",
            Unled::WrongSumHeldAtTheEnd => "a wrong sum held, mark 1",
            Unled::HeldBesideTwo => "bytes held, mark 2",
            Unled::HeldBesideThree => "bytes held, mark 3",
            Unled::OtherMark => "mark above 3",
        }
    }
}

/// Bytes of a stream, and where it is worth a cut: behind headers and frames.
struct Laid {
    bytes: Vec<u8>,
    frames: Vec<(usize, usize)>,
}

impl Laid {
    /// Frames back to back; a long one among them now and then.
    fn frames(rules: &Rules, dice: &mut Dice, count: usize) -> Laid {
        let long = match dice.one_in(20) {
            true => dice.below(count.max(1) as u64) as usize,
            false => usize::MAX,
        };
        let mut laid = Laid {
            bytes: Vec::new(),
            frames: Vec::new(),
        };
        for place in 0..count {
            let from = laid.bytes.len();
            let next = a_frame(rules, dice, place == long);
            laid.bytes.extend_from_slice(&next);
            laid.frames.push((from, laid.bytes.len()));
        }
        laid
    }

    /// Damages the stream, or leaves it; tells the offset behind which
    /// nothing should be taken any more.
    fn damage(&mut self, rules: &Rules, dice: &mut Dice) -> usize {
        let whole = self.bytes.len();
        if self.frames.is_empty() {
            let garbage = dice.below(20) as usize;
            self.bytes.extend(dice.bytes(garbage));
            return self.bytes.len();
        }
        let (from, to) = dice.pick(&self.frames);
        match dice.below(9) {
            0 | 1 => {
                spoil_sum(dice, &mut self.bytes[..to]);
                to
            }
            2 | 3 => {
                let length = too_long(rules, dice);
                self.bytes[from + 4..from + HEADER].copy_from_slice(&length.to_be_bytes());
                from + HEADER
            }
            4 => {
                let offset = from + dice.below((to - from) as u64) as usize;
                self.bytes[offset] ^= 1 << dice.below(8);
                to
            }
            5 => {
                self.bytes.truncate(dice.below(whole as u64) as usize);
                self.bytes.len()
            }
            6 => {
                let garbage = match dice.one_in(20) {
                    true => rules.body_limit + 100,
                    false => 1 + dice.below(30) as usize,
                };
                self.bytes.extend(dice.bytes(garbage));
                self.bytes.len()
            }
            _ => whole,
        }
    }

    /// An offset worth a cut, or one beside it: the first behind the given
    /// one, or one of the next.
    fn telling(&self, dice: &mut Dice, behind: usize) -> usize {
        let ends = self
            .frames
            .iter()
            .flat_map(|(from, to)| [from + HEADER, *to]);
        let next: Vec<usize> = ends.filter(|end| *end > behind).take(4).collect();
        match next.as_slice() {
            [] => self.bytes.len(),
            some => (dice.pick(some) + dice.below(3) as usize).saturating_sub(1),
        }
    }
}

/// A frame of any type and any body, with the right checksum.
fn a_frame(rules: &Rules, dice: &mut Dice, long: bool) -> Vec<u8> {
    let kind = match dice.below(4) {
        0 => dice.bits() as u32,
        _ => LISTED[dice.below(10) as usize].kind,
    };
    let length = match (long, dice.below(8)) {
        (true, 0) => rules.body_limit - 1 - dice.below(20) as usize,
        (true, _) => rules.body_limit,
        (false, 0 | 1) => 0,
        (false, 2 | 3) => 1 + dice.below(4) as usize,
        (false, 4) => dice.below(300) as usize,
        (false, _) => dice.below(40) as usize,
    };
    frame_of(kind, &dice.bytes(length))
}

/// Makes the checksum that the bytes end with another: one byte, often an
/// upper one.
fn spoil_sum(dice: &mut Dice, bytes: &mut [u8]) {
    let offset = bytes.len() - 1 - dice.below(4) as usize;
    bytes[offset] = bytes[offset].wrapping_add(1 + dice.below(255) as u8);
}

/// An L above the limit.
fn too_long(rules: &Rules, dice: &mut Dice) -> u32 {
    let limit = rules.body_limit as u32;
    match dice.below(4) {
        0 | 1 => limit + 1,
        2 => dice.pick(&[u32::MAX, u32::MAX - 11, u32::MAX - 12, 1 << 31, 1 << 16]),
        _ => limit + 1 + dice.wide() as u32 % (u32::MAX - limit),
    }
}

/// A buffer that holds anything: so long as the longest frame, or longer. At
/// times a whole frame is left in it.
fn a_buffer(rules: &Rules, dice: &mut Dice) -> Vec<u8> {
    let longer = match dice.below(64) {
        0 => rules.body_limit,
        1..=15 => dice.pick(&[1, 2, 12, 64, 100]),
        _ => 0,
    };
    let mut buffer = dice.noise(rules.body_limit + AROUND + longer);
    if dice.one_in(4) {
        put(&mut buffer, &a_frame(rules, dice, false));
    }
    buffer
}

/// Puts bytes to the start of a buffer.
fn put(buffer: &mut [u8], bytes: &[u8]) {
    buffer[..bytes.len()].copy_from_slice(bytes);
}

/// How a stream is cut.
#[derive(Clone, Copy)]
enum Manner {
    Bytes,
    Headers,
    Telling,
    Big,
    Any,
}

/// Cuts a stream up to an offset, and then a few times more; tells its end,
/// and calls on.
fn calls(dice: &mut Dice, laid: &Laid, stop: usize) -> Vec<Hand> {
    let whole = laid.bytes.len();
    let manners = [
        Manner::Bytes,
        Manner::Bytes,
        Manner::Headers,
        Manner::Telling,
        Manner::Telling,
        Manner::Big,
        Manner::Any,
    ];
    let manner = dice.pick(&manners);
    let (mut calls, mut to) = (Vec::new(), 0);
    let (mut over, mut left) = (false, dice.below(4));
    for _ in 0..30 + dice.below(60) {
        let manner = match dice.one_in(4) {
            true => dice.pick(&manners),
            false => manner,
        };
        to = a_cut(dice, laid, manner, to).clamp(to, whole);
        let alone = !dice.one_in(3);
        calls.push(Hand::Cut { to, alone });
        if dice.one_in(4) {
            calls.push(Hand::Nothing);
        }
        over |= to >= stop;
        if dice.one_in(100) {
            calls.push(Hand::End);
            over = true;
        }
        if over && left == 0 {
            break;
        }
        left -= u64::from(over);
    }
    finish(dice, whole, &mut calls);
    calls
}

/// The rest of a stream and its end, or one of them, or none; and then calls
/// that a stream which has stopped answers as before.
fn finish(dice: &mut Dice, whole: usize, calls: &mut Vec<Hand>) {
    let rest = Hand::Cut {
        to: whole,
        alone: true,
    };
    if !dice.one_in(8) {
        calls.push(rest);
    }
    if !dice.one_in(10) {
        calls.push(Hand::End);
        let late = Hand::Cut {
            to: usize::MAX,
            alone: true,
        };
        for _ in 0..dice.below(4) {
            calls.push(dice.pick(&[Hand::Nothing, late, late, Hand::End]));
        }
    }
}

/// The offset up to which the next cut goes.
fn a_cut(dice: &mut Dice, laid: &Laid, manner: Manner, to: usize) -> usize {
    match manner {
        Manner::Bytes => to + dice.pick(&[0, 1, 1, 1, 1, 2]),
        Manner::Headers => to + dice.pick(&[1, 4, 7, 8, 8, 9, 11, 12, 13]),
        Manner::Telling => laid.telling(dice, to),
        Manner::Big => to + dice.below(laid.bytes.len() as u64 + 1) as usize,
        Manner::Any => to + dice.below(60) as usize,
    }
}

/// A fresh stream, and its bytes in cuts.
pub fn cut_up(rules: &Rules, dice: &mut Dice) -> Input {
    let count = dice.pick(&[0, 1, 2, 3, 4, 5, 6, 8, 10, 12]);
    let mut laid = Laid::frames(rules, dice, count);
    let stop = laid.damage(rules, dice);
    let calls = calls(dice, &laid, stop);
    Input::Stream {
        way: None,
        start: None,
        buffer: a_buffer(rules, dice),
        bytes: with_late(rules, dice, laid.bytes),
        calls,
    }
}

/// What comes, and bytes behind it, which are handed in late.
fn with_late(rules: &Rules, dice: &mut Dice, mut bytes: Vec<u8>) -> Vec<u8> {
    let late = match dice.below(3) {
        0 => dice.noise(9),
        _ => a_frame(rules, dice, false),
    };
    bytes.extend(late);
    bytes
}

/// A made-up state, good or such that no calls lead to it, each way in turn.
pub fn made_up(rules: &Rules, dice: &mut Dice, turn: u64) -> Input {
    let good = 6;
    let place = (turn % (Unled::ALL.len() as u64 + good)) as usize;
    match Unled::ALL.get(place) {
        Some(way) => unled(rules, dice, *way),
        None => good_state(rules, dice),
    }
}

/// Bytes that lack something, and what would make them a frame: none, a part
/// of a header, a part of a frame, also of the longest.
fn lacking(rules: &Rules, dice: &mut Dice) -> (Vec<u8>, Vec<u8>) {
    let long = dice.one_in(8);
    let mut bytes = a_frame(rules, dice, long);
    let whole = bytes.len() as u64;
    let length = match dice.below(6) {
        0 => 0,
        1 => dice.below(HEADER as u64),
        2 => HEADER as u64,
        3 => whole - 1,
        _ => dice.below(whole),
    };
    let rest = bytes.split_off(length as usize);
    (bytes, rest)
}

/// A state to which calls lead, and bytes that go on with it, or others.
fn good_state(rules: &Rules, dice: &mut Dice) -> Input {
    let mut buffer = a_buffer(rules, dice);
    let (held, rest) = lacking(rules, dice);
    put(&mut buffer, &held);
    let mark = dice.pick(&[0, 0, 0, 0, 0, 1, 2, 3]);
    let start = Stream {
        held: if mark > 1 { 0 } else { held.len() },
        mark,
    };
    let mut laid = Laid::frames(rules, dice, 2);
    if !dice.one_in(4) {
        let more = std::mem::replace(&mut laid.bytes, rest);
        let from = laid.bytes.len();
        laid.bytes.extend(more);
        let moved = laid
            .frames
            .iter()
            .map(|frame| (from + frame.0, from + frame.1));
        laid.frames = moved.collect();
    }
    let stop = laid.damage(rules, dice);
    let calls = calls(dice, &laid, stop);
    Input::Stream {
        way: None,
        start: Some(start),
        buffer,
        bytes: with_late(rules, dice, laid.bytes),
        calls,
    }
}

/// A state to which no calls lead, in one way, and each call on it.
fn unled(rules: &Rules, dice: &mut Dice, way: Unled) -> Input {
    let mut buffer = a_buffer(rules, dice);
    let start = spoil(rules, dice, way, &mut buffer);
    let frames = 1 + dice.below(3) as usize;
    let bytes = Laid::frames(rules, dice, frames).bytes;
    let some = 1 + dice.below(bytes.len() as u64) as usize;
    let cut = |to| Hand::Cut { to, alone: true };
    let mut calls = vec![Hand::Nothing, cut(some), Hand::End, cut(bytes.len())];
    let first = dice.below(calls.len() as u64) as usize;
    calls.rotate_left(first);
    Input::Stream {
        way: Some(way),
        start: Some(start),
        buffer,
        bytes,
        calls,
    }
}

/// A state, of which the given way is all that is wrong, and its buffer.
fn spoil(rules: &Rules, dice: &mut Dice, way: Unled, buffer: &mut Vec<u8>) -> Stream {
    match way {
        Unled::BufferOneShort | Unled::BufferMuchShorter | Unled::NoBuffer => {
            short(rules, dice, way, buffer)
        }
        Unled::HeldOneAboveTheBuffer | Unled::HeldFarAboveTheBuffer => {
            let length = buffer.len();
            put(buffer, &lacking(rules, dice).0);
            let far = [
                usize::MAX,
                usize::MAX - length,
                1 << 63,
                1 << 32,
                2 * length,
            ];
            let held = match way {
                Unled::HeldOneAboveTheBuffer => length + 1,
                _ => dice.pick(&far),
            };
            let mark = dice.pick(&[0, 0, 1, 1, 2, 3]);
            Stream { held, mark }
        }
        Unled::OtherMark => {
            let held = match dice.one_in(2) {
                true => Vec::new(),
                false => lacking(rules, dice).0,
            };
            put(buffer, &held);
            let mark = dice.pick(&[4, 5, 10, 106, 107, 255, 256, 258, 1 << 16, u32::MAX]);
            Stream {
                held: held.len(),
                mark,
            }
        }
        _ => {
            let (held, mark) = too_much(rules, dice, way);
            put(buffer, &held);
            Stream {
                held: held.len(),
                mark,
            }
        }
    }
}

/// A buffer too short for the longest frame, with a state that would be good
/// in a longer one.
fn short(rules: &Rules, dice: &mut Dice, way: Unled, buffer: &mut Vec<u8>) -> Stream {
    let limit = rules.body_limit + AROUND;
    let (held, _) = lacking(rules, dice);
    put(buffer, &held);
    buffer.truncate(match way {
        Unled::BufferOneShort => limit - 1,
        Unled::NoBuffer => 0,
        _ => match dice.below(4) {
            0 => rules.body_limit,
            1 => rules.body_limit + HEADER,
            2 => limit - 2 - dice.below(20) as usize,
            _ => 1 + dice.below(limit as u64 - 2) as usize,
        },
    });
    match dice.below(4) {
        0 => Stream {
            held: 0,
            mark: 2 + dice.below(2) as u32,
        },
        mark => Stream {
            held: held.len().min(buffer.len()),
            mark: u32::from(mark == 1),
        },
    }
}

/// Held bytes that the mark does not go with.
fn too_much(rules: &Rules, dice: &mut Dice, way: Unled) -> (Vec<u8>, u32) {
    let long = dice.one_in(8);
    let mut bytes = a_frame(rules, dice, long);
    match way {
        Unled::FrameHeld => (bytes, 0),
        Unled::FrameHeldAtTheEnd => (bytes, 1),
        Unled::FrameAndMoreHeld | Unled::FrameAndMoreHeldAtTheEnd => {
            let mut bytes = a_frame(rules, dice, false);
            let more = 1 + dice.below(40) as usize;
            bytes.extend(dice.bytes(more));
            (bytes, u32::from(way == Unled::FrameAndMoreHeldAtTheEnd))
        }
        Unled::TooLongHeld | Unled::TooLongHeldAtTheEnd => {
            let length = too_long(rules, dice);
            bytes[4..HEADER].copy_from_slice(&length.to_be_bytes());
            if dice.one_in(2) {
                bytes.truncate(HEADER);
            }
            (bytes, u32::from(way == Unled::TooLongHeldAtTheEnd))
        }
        Unled::WrongSumHeld | Unled::WrongSumHeldAtTheEnd => {
            spoil_sum(dice, &mut bytes);
            (bytes, u32::from(way == Unled::WrongSumHeldAtTheEnd))
        }
        _ => {
            let stopped = if way == Unled::HeldBesideTwo { 2 } else { 3 };
            match dice.below(4) {
                0 => spoil_sum(dice, &mut bytes),
                1 => bytes.truncate(HEADER),
                2 => bytes.truncate(1 + dice.below(HEADER as u64) as usize),
                _ => {}
            }
            (bytes, stopped)
        }
    }
}

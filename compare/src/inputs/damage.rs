//! Damage to valid frames and bodies.

use super::bodies::{frame_of, Made, Piece};
use super::dice::Dice;
use crate::layout::Meaning;
use crate::second::rules::Rules;

/// A frame that is cut: in the header, before or in the checksum, anywhere.
pub fn cut(dice: &mut Dice, made: &Made) -> Vec<u8> {
    let mut bytes = frame_of(made.kind, &made.body);
    let whole = bytes.len();
    let length = match dice.below(5) {
        0 => dice.below(8) as usize,
        1 => 8 + dice.below(4) as usize,
        2 => whole - 1,
        3 => whole - 1 - dice.below(5) as usize,
        _ => dice.below(whole as u64) as usize,
    };
    bytes.truncate(length.min(whole - 1));
    bytes
}

/// A frame with bytes behind it, or with a tail behind its layout.
pub fn lengthened(rules: &Rules, dice: &mut Dice, made: &Made) -> Vec<u8> {
    let length = match dice.below(8) {
        0 => rules.body_limit.saturating_sub(made.body.len()),
        _ => 1 + dice.below(40) as usize,
    };
    let more = dice.bytes(length);
    if dice.one_in(2) {
        let mut bytes = frame_of(made.kind, &made.body);
        bytes.extend_from_slice(&more);
        return bytes;
    }
    let mut body = made.body.clone();
    body.extend_from_slice(&more);
    frame_of(made.kind, &body)
}

/// A frame with one to three bits flipped; its checksum as it was, or made
/// right again.
pub fn flipped(dice: &mut Dice, made: &Made) -> Vec<u8> {
    if dice.one_in(2) {
        let mut body = made.body.clone();
        flip(dice, &mut body);
        return frame_of(made.kind, &body);
    }
    let mut bytes = frame_of(made.kind, &made.body);
    flip(dice, &mut bytes);
    bytes
}

/// Flips one to three bits.
fn flip(dice: &mut Dice, bytes: &mut [u8]) {
    if bytes.is_empty() {
        return;
    }
    for _ in 0..=dice.below(3) {
        let offset = dice.below(bytes.len() as u64) as usize;
        bytes[offset] ^= 1 << dice.below(8);
    }
}

/// A frame with another checksum: one byte, often an upper one, or all four.
pub fn wrong_checksum(dice: &mut Dice, made: &Made) -> Vec<u8> {
    let mut bytes = frame_of(made.kind, &made.body);
    let end = bytes.len();
    if dice.one_in(4) {
        let other = dice.noise(4);
        bytes[end - 4..].copy_from_slice(&other);
        return bytes;
    }
    let offset = end - 1 - dice.below(4) as usize;
    bytes[offset] = bytes[offset].wrapping_add(1 + dice.below(255) as u8);
    bytes
}

/// A frame with another L; the checksum is right for the bytes before it.
pub fn wrong_length(rules: &Rules, dice: &mut Dice, made: &Made) -> Vec<u8> {
    let limit = rules.body_limit as u32;
    let length = made.body.len() as u32;
    let other = match dice.below(8) {
        0 | 1 => limit + 1,
        2 => limit,
        3 => limit + 1 + dice.wide() as u32 % (u32::MAX - limit - 1),
        4 => u32::MAX - dice.below(13) as u32,
        5 => length + 1,
        6 => length.saturating_sub(1),
        _ => dice.bits() as u32,
    };
    let mut bytes = frame_of(made.kind, &made.body);
    bytes[4..8].copy_from_slice(&other.to_be_bytes());
    let end = bytes.len();
    let sum = bytes[..end - 4]
        .iter()
        .fold(0u8, |sum, byte| sum.wrapping_add(*byte));
    bytes[end - 1] = sum;
    if dice.one_in(8) {
        bytes.truncate(8);
    }
    if dice.one_in(8) && other > limit && other < limit + 1000 {
        bytes.resize(12 + other as usize, 0);
    }
    bytes
}

/// A frame with too short a body, its length and checksum right.
pub fn body_cut(dice: &mut Dice, made: &Made) -> Vec<u8> {
    let whole = made.body.len();
    if whole == 0 {
        return frame_of(made.kind, &made.body);
    }
    let length = match dice.below(4) {
        0 => whole - 1,
        1 => made.fixed.saturating_sub(1).min(whole),
        2 => made.a_group(dice).min(whole - 1),
        _ => dice.below(whole as u64) as usize,
    };
    frame_of(made.kind, &made.body[..length])
}

/// A frame with another group count or shown count.
pub fn counts_changed(dice: &mut Dice, made: &Made) -> Vec<u8> {
    let mut body = made.body.clone();
    if let Some(offset) = a_count(dice, made) {
        let four = &mut body[offset..offset + 4];
        let count = u32::from_be_bytes([four[0], four[1], four[2], four[3]]);
        four.copy_from_slice(&other_count(dice, count).to_be_bytes());
    }
    frame_of(made.kind, &body)
}

/// The offset of one of the counts.
pub fn a_count(dice: &mut Dice, made: &Made) -> Option<usize> {
    let is_count = |piece: &&Piece| piece.field.meaning == Meaning::Count;
    let counts: Vec<&Piece> = made.pieces.iter().filter(is_count).collect();
    if counts.is_empty() {
        return None;
    }
    Some(dice.pick(&counts).offset)
}

/// Another count: one more or fewer, or one that wraps around when it is
/// multiplied by a width.
pub fn other_count(dice: &mut Dice, count: u32) -> u32 {
    match dice.below(6) {
        0 => count.wrapping_add(1),
        1 => count.wrapping_sub(1),
        2 => dice.pick(&[
            1 << 31,
            1 << 30,
            1 << 29,
            1 << 28,
            u32::MAX,
            286_331_154,
            572_662_307,
        ]),
        3 => count.wrapping_add(1 << (28 + dice.below(4))),
        4 => count.wrapping_add(dice.below(5) as u32),
        _ => dice.bits() as u32,
    }
}

/// Leaves a body, puts numbers out of range, flips bits, cuts it; or more
/// than one of these.
pub fn body_hurt(rules: &Rules, dice: &mut Dice, made: &mut Made) {
    if dice.one_in(3) {
        for _ in 0..4 {
            let piece = dice.pick(&made.pieces);
            if piece.field.meaning.width() == 8 && !piece.field.meaning.is_text() {
                made.put(
                    piece,
                    dice.pick(&[-1, i64::MIN, i64::MAX, rules.quantity_limit]),
                );
            }
        }
    }
    if dice.one_in(6) {
        flip(dice, &mut made.body);
    }
    if dice.one_in(3) {
        let whole = made.body.len();
        let length = match dice.below(2) {
            0 => dice.below(whole as u64 + 1) as usize,
            _ => whole.saturating_sub(1 + dice.below(20) as usize),
        };
        made.body.truncate(length);
    }
}

/// Puts a number out of range in one of the groups, if they have such.
pub fn group_hurt(dice: &mut Dice, made: &mut Made) {
    let in_group = |piece: &&Piece| {
        let meaning = piece.field.meaning;
        piece.offset >= made.fixed && !meaning.is_text() && meaning != Meaning::Count
    };
    let pieces: Vec<Piece> = made.pieces.iter().filter(in_group).copied().collect();
    if pieces.is_empty() {
        return;
    }
    let piece = dice.pick(&pieces);
    let wide = piece.field.meaning.width() == 8;
    made.put(piece, if wide { i64::MIN } else { -1 });
}

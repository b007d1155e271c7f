//! What the writer takes: valid, and damaged in every way.

use super::bodies::{make, unlisted_kind, Made, Wish};
use super::damage::{a_count, group_hurt, other_count};
use super::dice::Dice;
use super::Input;
use crate::layout::{layout, Layout, LISTED};
use crate::receiver::NUMBERS;
use crate::second::record::number;
use crate::second::rules::Rules;

/// Texts, groups and numbers of a body.
struct Parts {
    kind: u32,
    numbers: [i64; NUMBERS],
    texts: Vec<u8>,
    groups: Vec<u8>,
}

/// Takes a body apart.
fn parts(made: &Made) -> Parts {
    let (mut numbers, mut texts, mut place) = ([0; NUMBERS], Vec::new(), 0);
    for piece in made.pieces.iter().filter(|piece| piece.offset < made.fixed) {
        let bytes = &made.body[piece.offset..piece.offset + piece.field.meaning.width()];
        if piece.field.meaning.is_text() {
            texts.extend_from_slice(bytes);
        } else {
            numbers[place] = number(bytes);
            place += 1;
        }
    }
    Parts {
        kind: made.kind,
        numbers,
        texts,
        groups: made.body[made.fixed..].to_vec(),
    }
}

/// The input with an output of this length.
fn input(dice: &mut Dice, parts: Parts, pushed: Option<usize>, output: usize) -> Input {
    Input::Write {
        pushed,
        kind: parts.kind,
        numbers: parts.numbers,
        texts: parts.texts,
        groups: parts.groups,
        output: dice.noise(output),
    }
}

/// Writes a body as it is, with an output that is long enough.
pub fn whole(dice: &mut Dice, made: &Made, pushed: Option<usize>) -> Input {
    let more = if dice.one_in(2) {
        0
    } else {
        1 + dice.below(60) as usize
    };
    input(dice, parts(made), pushed, made.body.len() + 12 + more)
}

/// A valid draft of a type.
pub fn valid(rules: &Rules, dice: &mut Dice, kind: u32) -> Input {
    let layout = layout(kind).expect("a listed type");
    let made = make(rules, dice, layout, Wish::any());
    whole(dice, &made, None)
}

/// A draft with one damage, each kind of damage in turn; at times with a
/// second one, so that the order of refusals is met.
pub fn damaged(rules: &Rules, dice: &mut Dice, turn: u64) -> Input {
    let damage = turn % 8;
    let layout = a_layout(turn / 8, damage == 6);
    let wish = Wish {
        above: damage == 6,
        ..Wish::any()
    };
    let mut made = make(rules, dice, layout, wish);
    if dice.one_in(4) {
        group_hurt(dice, &mut made);
    }
    let mut parts = parts(&made);
    let exact = made.body.len() + 12;
    let mut output = exact;
    match damage {
        0 => change_length(dice, &mut parts.texts),
        1 => change_length(dice, &mut parts.groups),
        2 => change_groups(dice, layout, &mut parts),
        3 => change_count(dice, &made, &mut parts),
        4 => output = exact - 1,
        5 => output = dice.below(exact as u64) as usize,
        6 => {}
        _ => parts.kind = unlisted_kind(dice),
    }
    if dice.one_in(4) {
        second_damage(dice, &mut parts, &mut output);
    }
    input(dice, parts, None, output)
}

/// The listed types in turn; of those with groups alone where a body is to
/// be above the limit.
fn a_layout(turn: u64, grouped: bool) -> &'static Layout {
    let has_groups = |layout: &&Layout| !grouped || !layout.group.is_empty();
    let fit: Vec<&'static Layout> = LISTED.iter().filter(has_groups).collect();
    fit[(turn % fit.len() as u64) as usize]
}

/// Texts or groups that are too long or too short.
fn change_length(dice: &mut Dice, bytes: &mut Vec<u8>) {
    if bytes.is_empty() || dice.one_in(2) {
        let most = dice.pick(&[1, 40]);
        let length = 1 + dice.below(most) as usize;
        let more = dice.noise(length);
        bytes.extend_from_slice(&more);
        return;
    }
    let length = match dice.below(3) {
        0 => 0,
        1 => bytes.len() - 1,
        _ => dice.below(bytes.len() as u64) as usize,
    };
    bytes.truncate(length);
}

/// A whole group more or fewer than the count, or a group where there is
/// none.
fn change_groups(dice: &mut Dice, layout: &Layout, parts: &mut Parts) {
    let width: usize = layout.group.iter().map(|field| field.meaning.width()).sum();
    if parts.groups.len() >= width && width > 0 && dice.one_in(2) {
        parts.groups.truncate(parts.groups.len() - width);
    } else {
        parts.groups.extend(vec![0; width.max(4)]);
    }
}

/// Another group count or shown count.
fn change_count(dice: &mut Dice, made: &Made, parts: &mut Parts) {
    let Some(offset) = a_count(dice, made) else {
        return change_length(dice, &mut parts.groups);
    };
    if offset < made.fixed {
        let fixed = made.pieces.iter().filter(|piece| piece.offset < made.fixed);
        let last = fixed.filter(|piece| !piece.field.meaning.is_text()).count() - 1;
        let count = parts.numbers[last] as u32;
        parts.numbers[last] = i64::from(other_count(dice, count));
        return;
    }
    let at = offset - made.fixed;
    let four = &mut parts.groups[at..at + 4];
    let count = number(four) as u32;
    four.copy_from_slice(&other_count(dice, count).to_be_bytes());
}

/// One more damage: a short output, texts too long, or the first eight-byte
/// field below every range.
fn second_damage(dice: &mut Dice, parts: &mut Parts, output: &mut usize) {
    match dice.below(3) {
        0 => *output = output.saturating_sub(1 + dice.below(20) as usize),
        1 => parts.texts.push(b' '),
        _ => push_first(parts),
    }
}

/// Pushes the first eight-byte field below every range.
fn push_first(parts: &mut Parts) {
    let Some(layout) = layout(parts.kind) else {
        return;
    };
    let numbers = layout
        .fields
        .iter()
        .filter(|field| !field.meaning.is_text());
    let mut widths = numbers.map(|field| field.meaning.width());
    if let Some(place) = widths.position(|width| width == 8) {
        parts.numbers[place] = i64::MIN;
    }
}

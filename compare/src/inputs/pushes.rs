//! Every end of every field's range, and bodies with one field pushed over
//! an end.

use super::bodies::{make, time, time_parts, Made, Piece, Wish};
use super::dice::Dice;
use crate::layout::{layout, Field, Layout, LISTED, QUANTITY};
use crate::second::rules::{Allowed, Rules};

/// Where a field leaves its range.
#[derive(Clone, Copy, PartialEq, Eq, Debug)]
pub enum End {
    Below,
    Above,
    /// Another character.
    Other,
}

/// A field, for a time one of its parts, and the end it is pushed over.
#[derive(Clone, Copy, PartialEq, Eq, Debug)]
pub struct Push {
    pub kind: u32,
    pub field: Field,
    pub part: &'static str,
    pub end: End,
}

/// The parts of a time with a range, in order.
const PARTS: [&str; 6] = ["year", "month", "day", "hour", "minute", "second"];

/// Every end of every field's range that the field's width can leave.
pub fn pushes(rules: &Rules) -> Vec<Push> {
    let mut all = Vec::new();
    for layout in &LISTED {
        for field in fields(layout) {
            push_ends(rules, layout.kind, field, &mut all);
        }
    }
    all
}

/// All fields of a layout: fixed part, group, shown quantity.
fn fields(layout: &Layout) -> Vec<Field> {
    let mut all = layout.fields.to_vec();
    all.extend_from_slice(layout.group);
    if layout.shown {
        all.push(QUANTITY);
    }
    all
}

/// The ends that one field can be pushed over.
fn push_ends(rules: &Rules, kind: u32, field: Field, all: &mut Vec<Push>) {
    let mut push = |part, end| {
        all.push(Push {
            kind,
            field,
            part,
            end,
        })
    };
    match rules.allowed(field.meaning) {
        Allowed::Free => {}
        Allowed::OneOf(_) => push("", End::Other),
        Allowed::Between(low, high) => {
            let (least, most) = held(field);
            if low > least {
                push("", End::Below);
            }
            if high < most {
                push("", End::Above);
            }
        }
        Allowed::Time => {
            for (place, range) in time_ranges(rules).iter().enumerate() {
                // A negative number stands for a year below.
                if range.0 > 0 || place == 0 {
                    push(PARTS[place], End::Below);
                }
                push(PARTS[place], End::Above);
            }
        }
    }
}

/// The ranges of a time's parts, in order.
fn time_ranges(rules: &Rules) -> [(i64, i64); 6] {
    [
        rules.years,
        rules.months,
        rules.days,
        rules.hours,
        rules.minutes,
        rules.seconds,
    ]
}

/// The least and the most that a field's width holds.
fn held(field: Field) -> (i64, i64) {
    match field.meaning.width() {
        8 => (i64::MIN, i64::MAX),
        width => (0, (1 << (8 * width)) - 1),
    }
}

/// A valid body but for one field, which is pushed over an end.
pub fn pushed(rules: &Rules, dice: &mut Dice, push: &Push) -> Made {
    let layout = layout(push.kind).expect("a listed type");
    let wish = Wish {
        groups: 1,
        shown: push.field == QUANTITY,
        above: false,
    };
    let mut made = make(rules, dice, layout, wish);
    let is_it = |piece: &&Piece| piece.field == push.field;
    let pieces: Vec<Piece> = made.pieces.iter().filter(is_it).copied().collect();
    let piece = dice.pick(&pieces);
    made.put(piece, broken(rules, dice, push));
    made
}

/// A number over the end.
fn broken(rules: &Rules, dice: &mut Dice, push: &Push) -> i64 {
    match rules.allowed(push.field.meaning) {
        Allowed::Free => unreachable!("a free field has no end"),
        Allowed::Between(low, high) => {
            let (least, most) = held(push.field);
            if push.end == End::Below {
                dice.between(least, low - 1)
            } else {
                dice.between(high + 1, most)
            }
        }
        Allowed::OneOf(characters) => other_character(dice, characters),
        Allowed::Time => broken_time(rules, dice, push),
    }
}

/// A character that is not one of these.
fn other_character(dice: &mut Dice, characters: &[u8]) -> i64 {
    loop {
        let near = dice.pick(characters);
        let other = match dice.below(4) {
            0 => near.wrapping_add(1),
            1 => near.wrapping_sub(1),
            2 => near ^ 0x20,
            _ => dice.bits() as u8,
        };
        if !characters.contains(&other) {
            return i64::from(other);
        }
    }
}

/// A time with one part over the end.
fn broken_time(rules: &Rules, dice: &mut Dice, push: &Push) -> i64 {
    let place = PARTS
        .iter()
        .position(|part| *part == push.part)
        .expect("a part");
    let range = time_ranges(rules)[place];
    let mut parts = time_parts(rules, dice);
    if push.end == End::Above {
        let most = if place == 0 { 922_336 } else { 99 };
        parts[place] = dice.between(range.1 + 1, most);
        return time(&parts);
    }
    if place == 0 {
        let late = -time(&parts).max(1);
        parts[0] = -1;
        return dice.pick(&[-1, i64::MIN, late, time(&parts)]);
    }
    parts[place] = dice.between(0, range.0 - 1);
    time(&parts)
}

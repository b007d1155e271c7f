//! Valid bodies of every type, with random groups and shown quantities.

use super::dice::Dice;
use crate::layout::{layout, width, Field, Layout, Meaning, INDEX, LISTED, QUANTITY};
use crate::second::rules::{Allowed, Rules};

/// A field and its offset in a body.
#[derive(Clone, Copy)]
pub struct Piece {
    pub offset: usize,
    pub field: Field,
}

/// A body with the offset of each of its fields.
pub struct Made {
    pub kind: u32,
    pub body: Vec<u8>,
    pub pieces: Vec<Piece>,
    /// The bytes of the fixed part.
    pub fixed: usize,
    /// The offset of each group, and its shown count.
    pub groups: Vec<(usize, u32)>,
}

/// What a body should have.
#[derive(Clone, Copy)]
pub struct Wish {
    /// At least so many groups.
    pub groups: usize,
    /// At least one shown quantity in each entry.
    pub shown: bool,
    /// More bytes than the limit.
    pub above: bool,
}

impl Wish {
    pub fn any() -> Wish {
        Wish {
            groups: 0,
            shown: false,
            above: false,
        }
    }

    pub fn groups(groups: usize) -> Wish {
        Wish {
            groups,
            ..Wish::any()
        }
    }
}

impl Made {
    /// The group count, and the position and shown count of one group.
    pub fn counts(&self, dice: &mut Dice) -> (u32, (u32, u32)) {
        if self.groups.is_empty() {
            return (0, (0, 0));
        }
        let position = dice.below(self.groups.len() as u64);
        let shown = self.groups[position as usize].1;
        (self.groups.len() as u32, (position as u32, shown))
    }

    /// The offset of one group, or of the end of the fixed part.
    pub fn a_group(&self, dice: &mut Dice) -> usize {
        if self.groups.is_empty() {
            return self.fixed;
        }
        dice.pick(&self.groups).0
    }

    /// Adds a field that holds these bytes.
    fn add(&mut self, field: Field, bytes: &[u8]) {
        self.pieces.push(Piece {
            offset: self.body.len(),
            field,
        });
        self.body.extend_from_slice(bytes);
    }

    /// Puts a number into a field.
    pub fn put(&mut self, piece: Piece, number: i64) {
        let width = piece.field.meaning.width();
        let bytes = &number.to_be_bytes()[8 - width..];
        self.body[piece.offset..piece.offset + width].copy_from_slice(bytes);
    }

    /// Puts the number of groups into the group count.
    fn put_count(&mut self) {
        let count = (self.groups.len() as u32).to_be_bytes();
        self.body[self.fixed - 4..self.fixed].copy_from_slice(&count);
    }
}

/// A frame with this type and body, its length and checksum right.
pub fn frame_of(kind: u32, body: &[u8]) -> Vec<u8> {
    let mut bytes = kind.to_be_bytes().to_vec();
    bytes.extend_from_slice(&(body.len() as u32).to_be_bytes());
    bytes.extend_from_slice(body);
    let sum = bytes.iter().fold(0u8, |sum, byte| sum.wrapping_add(*byte));
    bytes.extend_from_slice(&[0, 0, 0, sum]);
    bytes
}

/// A valid body of a listed type.
pub fn make(rules: &Rules, dice: &mut Dice, layout: &Layout, wish: Wish) -> Made {
    let mut made = Made {
        kind: layout.kind,
        body: Vec::new(),
        pieces: Vec::new(),
        fixed: layout.fixed(),
        groups: Vec::new(),
    };
    for field in layout.fields {
        add_valid(rules, dice, &mut made, *field);
    }
    if !layout.group.is_empty() {
        add_groups(rules, dice, layout, wish, &mut made);
        made.put_count();
    }
    made
}

/// Adds groups: as many as wished, a few, or up to the limit.
fn add_groups(rules: &Rules, dice: &mut Dice, layout: &Layout, wish: Wish, made: &mut Made) {
    let fill = dice.one_in(100);
    let count = match dice.below(4) {
        0 => 0,
        1 | 2 => 1 + dice.below(4) as usize,
        _ => dice.below(12) as usize,
    };
    loop {
        let enough = made.groups.len() >= count.max(wish.groups) && !fill && !wish.above;
        if enough || made.body.len() > rules.body_limit {
            return;
        }
        let shown = if layout.shown {
            shown_count(dice, wish)
        } else {
            0
        };
        let length = width(layout.group) + 8 * shown as usize;
        if !wish.above && made.body.len() + length > rules.body_limit {
            return;
        }
        add_group(rules, dice, layout, shown, made);
    }
}

/// A shown count.
fn shown_count(dice: &mut Dice, wish: Wish) -> u32 {
    let least = u32::from(wish.shown);
    match dice.below(64) {
        0 => 50,
        1 => dice.below(200) as u32 + least,
        2..=30 => 1 + dice.below(5) as u32,
        _ => least,
    }
}

/// Adds one group or entry.
fn add_group(rules: &Rules, dice: &mut Dice, layout: &Layout, shown: u32, made: &mut Made) {
    made.groups.push((made.body.len(), shown));
    if !layout.has_entries() {
        for field in layout.group {
            add_valid(rules, dice, made, *field);
        }
        return;
    }
    let kind = entry_kind(dice, layout.kind);
    let price = entry_price(rules, dice, kind);
    made.add(layout.group[0], &kind);
    made.add(layout.group[1], &price.to_be_bytes());
    for field in &layout.group[2..] {
        if field.meaning == Meaning::Count {
            made.add(*field, &shown.to_be_bytes());
        } else {
            add_valid(rules, dice, made, *field);
        }
    }
    for _ in 0..shown {
        add_valid(rules, dice, made, QUANTITY);
    }
}

/// Adds a field with a value in its range.
fn add_valid(rules: &Rules, dice: &mut Dice, made: &mut Made, field: Field) {
    let width = field.meaning.width();
    if field.meaning.is_text() {
        let text = dice.bytes(width);
        made.add(field, &text);
        return;
    }
    let number = valid(rules, dice, field.meaning);
    made.add(field, &number.to_be_bytes()[8 - width..]);
}

/// A value in a field's range.
fn valid(rules: &Rules, dice: &mut Dice, meaning: Meaning) -> i64 {
    match rules.allowed(meaning) {
        Allowed::Free => dice.bits() as i64,
        Allowed::Between(low, high) => dice.between(low, high),
        Allowed::OneOf(characters) => i64::from(dice.pick(characters)),
        Allowed::Time => time(&time_parts(rules, dice)),
    }
}

/// Year, month, day, hour, minute, second and milliseconds, in their ranges.
pub fn time_parts(rules: &Rules, dice: &mut Dice) -> [i64; 7] {
    let ranges = [
        rules.years,
        rules.months,
        rules.days,
        rules.hours,
        rules.minutes,
        rules.seconds,
        (0, 999),
    ];
    ranges.map(|(low, high)| dice.between(low, high))
}

/// The parts of a time as one number.
pub fn time(parts: &[i64; 7]) -> i64 {
    parts[..6]
        .iter()
        .fold(0, |number, part| number * 100 + part)
        * 1000
        + parts[6]
}

/// Entry types of 300111 and of 309011, and some that are close to them.
const SNAPSHOT_KINDS: [&[u8; 2]; 22] = [
    b"0 ", b"1 ", b"2 ", b"4 ", b"7 ", b"8 ", b"9 ", b"x1", b"x2", b"x3", b"x4", b"x5", b"x6",
    b"x7", b"x8", b"x9", b"xe", b"xf", b"xg", b"xg", b"xj", b"xk",
];
const INDEX_KINDS: [&[u8; 2]; 5] = [b"3 ", b"xa", b"xb", b"xc", b"xd"];
const STRANGE_KINDS: [&[u8; 2]; 16] = [
    b"0\0", b" 0", b"00", b"1\0", b"01", b"x ", b"x0", b"X1", b"xE", b"xh", b"xi", b"xl", b"  ",
    b"5 ", b"6 ", b"x\0",
];

/// Two type characters.
fn entry_kind(dice: &mut Dice, kind: u32) -> [u8; 2] {
    match dice.below(12) {
        0 => (dice.bits() as u16).to_be_bytes(),
        1 => *dice.pick(&STRANGE_KINDS),
        2 => *dice.pick(&SNAPSHOT_KINDS),
        3 => *dice.pick(&INDEX_KINDS),
        4 => dice.pick(&[*b"xe", *b"xf"]),
        5 | 6 => dice.pick(&[*b"0 ", *b"1 "]),
        _ if kind == INDEX => *dice.pick(&INDEX_KINDS),
        _ => *dice.pick(&SNAPSHOT_KINDS),
    }
}

/// An entry's price: of `xe` and `xf` the marks often, of a level 0 often; of
/// every entry the marks and the ends of an order's price, and what is beside
/// them.
fn entry_price(rules: &Rules, dice: &mut Dice, kind: [u8; 2]) -> i64 {
    let any = valid(rules, dice, Meaning::EntryPrice);
    let mark = dice.pick(&[rules.no_upper_limit, rules.no_lower_limit]);
    let end = dice.pick(&[rules.price_limit, -rules.price_limit]);
    let beside = dice.pick(&[-1, 0, 1]);
    let price = match (&kind, dice.below(10)) {
        (b"xe" | b"xf", 0..=4) => mark,
        (b"0 " | b"1 ", 0..=2) => 0,
        (b"xe" | b"xf", 5) | (_, 6) => mark + beside,
        (b"xe" | b"xf", 7) | (_, 8) => end + beside,
        _ => any,
    };
    if rules.allows(Meaning::EntryPrice, price) {
        price
    } else {
        any
    }
}

/// A type that is not listed.
pub fn unlisted_kind(dice: &mut Dice) -> u32 {
    let near = LISTED[dice.below(10) as usize].kind;
    let kind = match dice.below(8) {
        0 => near - 1,
        1 => near + 1,
        2 => near + 65_536,
        3 => near + 16_777_216,
        4 => near + 2_147_483_648,
        5 => dice.pick(&[0, 1, 8, 390012, 390019, 390093, 300611, 306311, u32::MAX]),
        _ => dice.bits() as u32,
    };
    if layout(kind).is_some() {
        return 390019;
    }
    kind
}

/// A body of an unlisted type.
pub fn make_unlisted(rules: &Rules, dice: &mut Dice) -> Made {
    let length = match dice.below(64) {
        0 => rules.body_limit,
        1 => dice.below(rules.body_limit as u64) as usize,
        _ => dice.below(120) as usize,
    };
    Made {
        kind: unlisted_kind(dice),
        body: dice.noise(length),
        pieces: Vec::new(),
        fixed: 0,
        groups: Vec::new(),
    }
}

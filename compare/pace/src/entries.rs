//! The entries of a snapshot, one step after the other: without their prices, and with them.
use crate::calls::{self, Cursor, Entry, StepAnswer, INDEX, NO_SUCH_ENTRY, SNAPSHOT};
use crate::calls::{SAYS_LEVEL, SAYS_LEVEL_WITHOUT_PRICE, SAYS_NO_LIMIT, SAYS_PRICE};
use crate::calls::{SAYS_PRICE_AND_SIZE, SAYS_SIZE, SAYS_UNKNOWN};
use crate::inputs::snapshot_body;
use crate::race::{same, Bench, Row};
use crate::ranges::{entry_in, entry_price, half, int, word, NO_LOWER_LIMIT, NO_UPPER_LIMIT};
use std::hint::black_box;

/// Stands in a lent price: an entry that says none leaves it.
pub const NONE: i64 = i64::MIN;

/// What an entry says, with its price if it says one.
type Told = (Entry, Option<i64>);

/// What an entry of a snapshot says.
#[inline(always)]
fn told(e: &[u8]) -> Told {
    let (p, size) = (int(e, 2), int(e, 10));
    let bare = |says, size| Entry {
        says,
        characters: half(e, 0),
        size,
        ..Entry::default()
    };
    let level = |says| Entry {
        level: half(e, 18),
        order_count: int(e, 20),
        shown: word(e, 28),
        ..bare(says, size)
    };
    match &e[0..2] {
        b"0 " | b"1 " if p == 0 => (level(SAYS_LEVEL_WITHOUT_PRICE), None),
        b"0 " | b"1 " => (level(SAYS_LEVEL), Some(p)),
        b"2 " | b"4 " | b"7 " | b"8 " | b"9 " | b"x1" | b"x2" | b"x5" | b"x6" | b"x7" | b"x8"
        | b"x9" | b"xj" | b"xk" => (bare(SAYS_PRICE, 0), Some(p)),
        b"xe" if p == NO_UPPER_LIMIT => (bare(SAYS_NO_LIMIT, 0), None),
        b"xf" if p == NO_LOWER_LIMIT => (bare(SAYS_NO_LIMIT, 0), None),
        b"xe" | b"xf" => (bare(SAYS_PRICE, 0), Some(p)),
        b"xg" => (bare(SAYS_SIZE, size), None),
        b"x3" | b"x4" => (bare(SAYS_PRICE_AND_SIZE, size), Some(p)),
        _ => (bare(SAYS_UNKNOWN, 0), None),
    }
}

/// What an entry of an index says.
#[inline(always)]
fn told_of_index(e: &[u8]) -> Told {
    let says = |says| Entry {
        says,
        characters: half(e, 0),
        ..Entry::default()
    };
    match &e[0..2] {
        b"3 " | b"xa" | b"xb" | b"xc" | b"xd" => (says(SAYS_PRICE), Some(int(e, 2))),
        _ => (says(SAYS_UNKNOWN), None),
    }
}

/// The entry of a snapshot at an offset, after 4 and 5, and its width.
#[inline(always)]
fn of_snapshot(offset: usize, s: &[u8]) -> Result<(Told, usize), u32> {
    if s.len() < offset || s.len() - offset < 32 {
        return Err(4);
    }
    let e = &s[offset..offset + 32];
    let shown = word(e, 28) as usize;
    if s.len() - offset - 32 < 8 * shown {
        return Err(4);
    }
    if !entry_in(s, offset) {
        return Err(5);
    }
    Ok((told(e), 32 + 8 * shown))
}

/// The entry of an index at an offset, after 4 and 5, and its width.
#[inline(always)]
fn of_index(offset: usize, s: &[u8]) -> Result<(Told, usize), u32> {
    if s.len() < offset || s.len() - offset < 10 {
        return Err(4);
    }
    let e = &s[offset..offset + 10];
    if !entry_price(int(e, 2)) {
        return Err(5);
    }
    Ok((told_of_index(e), 10))
}

#[inline(always)]
fn stepped(at: Cursor, kind: u32, s: &[u8]) -> (StepAnswer, Option<i64>) {
    let found = match kind {
        _ if at.left == 0 => Err(NO_SUCH_ENTRY),
        SNAPSHOT => of_snapshot(at.offset, s),
        INDEX => of_index(at.offset, s),
        _ => Err(NO_SUCH_ENTRY),
    };
    let (answer, entry, price, next) = match found {
        Ok(((entry, price), width)) => {
            let (offset, left) = (at.offset + width, at.left - 1);
            (0, entry, price, Cursor { offset, left })
        }
        Err(answer) => (answer, Entry::default(), None, at),
    };
    (
        StepAnswer {
            answer,
            entry,
            next,
        },
        price,
    )
}

#[inline(never)]
fn step(at: Cursor, kind: u32, s: &[u8]) -> StepAnswer {
    stepped(at, kind, s).0
}

#[inline(never)]
pub fn next(at: Cursor, kind: u32, s: &[u8], price: &mut i64) -> StepAnswer {
    let (told, own) = stepped(at, kind, s);
    if let Some(own) = own {
        *price = own;
    }
    told
}

/// The cursor before the first entry.
#[inline(never)]
pub fn cursor(kind: u32, s: &[u8]) -> Cursor {
    let counted = matches!(kind, SNAPSHOT | INDEX) && s.len() >= 69;
    Cursor {
        offset: 69,
        left: if counted { word(s, 65) } else { 0 },
    }
}

/// All steps from the first entry on, each answer seen.
fn steps(s: &[u8], step: impl Fn(Cursor, u32, &[u8]) -> StepAnswer) -> u32 {
    let mut at = black_box(Cursor {
        offset: 69,
        left: 28,
    });
    let mut taken = 0;
    while at.left > 0 {
        let told = step(at, black_box(SNAPSHOT), s);
        at = black_box(&told).next;
        taken += 1;
    }
    taken
}

/// A step with its price, seen too.
fn priced(
    next: impl Fn(Cursor, u32, &[u8], &mut i64) -> StepAnswer,
) -> impl Fn(Cursor, u32, &[u8]) -> StepAnswer {
    move |at, kind, s| {
        let mut price = NONE;
        let told = next(at, kind, s, &mut price);
        black_box(&price);
        told
    }
}

/// Both sides' answers, and the lent prices behind them, are the same.
fn agree_at(at: Cursor, s: &[u8]) {
    let (mut a, mut b) = (NONE, NONE);
    same(
        calls::next(at, SNAPSHOT, s, &mut a),
        next(at, SNAPSHOT, s, &mut b),
    );
    assert_eq!(a, b);
    same(calls::step(at, SNAPSHOT, s), step(at, SNAPSHOT, s));
}

/// They agree at every entry, on the body and on one cut short.
fn agree(s: &[u8]) {
    let mut at = calls::cursor(SNAPSHOT, s);
    same(at, cursor(SNAPSHOT, s));
    while at.left > 0 {
        agree_at(at, s);
        agree_at(at, &s[..at.offset + 31]);
        at = calls::step(at, SNAPSHOT, s).next;
    }
    agree_at(at, s);
}

pub fn run(bench: &Bench) {
    let s = snapshot_body();
    agree(&s);
    let row = |what| Row {
        what,
        turns: 10_000,
        parts: 1,
    };
    bench.race(
        row("28 entries stepped through"),
        || steps(black_box(&s), calls::step),
        || steps(black_box(&s), step),
    );
    bench.race(
        row("28 entries stepped, with prices"),
        || steps(black_box(&s), priced(calls::next)),
        || steps(black_box(&s), priced(next)),
    );
}

//! What an entry says; entries and shown quantities by position; the
//! stepping cursor.

use super::layout::{layout, width, Layout, INDEX};
use super::record::{characters, group_end, group_in_range, number, offset_of, shown_count, two};
use super::rules::Rules;
use crate::receiver::{Cursor, Entry, Found, PriceAnswer, Says, StepAnswer};

/// An entry by position: 4 and 5 for the whole body, then "no such entry".
pub fn entry(rules: &Rules, kind: u32, body: &[u8], position: u32) -> Found<Entry> {
    let Some(layout) = layout(kind) else {
        return Found::NoSuchEntry;
    };
    match entry_offset(rules, layout, body, position) {
        Found::Refused(refusal) => Found::Refused(refusal),
        Found::NoSuchEntry => Found::NoSuchEntry,
        Found::Found(offset) => Found::Found(entry_at(rules, layout, &body[offset..])),
    }
}

/// A shown quantity by position: 4 and 5 for the whole body, then "no such
/// entry" for the entry and for the quantity.
pub fn quantity(rules: &Rules, kind: u32, body: &[u8], entry: u32, position: u32) -> Found<i64> {
    let Some(layout) = layout(kind) else {
        return Found::NoSuchEntry;
    };
    let offset = match entry_offset(rules, layout, body, entry) {
        Found::Refused(refusal) => return Found::Refused(refusal),
        Found::NoSuchEntry => return Found::NoSuchEntry,
        Found::Found(offset) => offset,
    };
    if position >= shown_count(layout, body, offset) {
        return Found::NoSuchEntry;
    }
    let from = offset + width(layout.group) + 8 * position as usize;
    Found::Found(number(&body[from..from + 8]))
}

/// The offset of an entry by position. A type without entries has none.
fn entry_offset(rules: &Rules, layout: &Layout, body: &[u8], position: u32) -> Found<usize> {
    match offset_of(rules, layout, body, position) {
        Found::Found(_) if !layout.has_entries() => Found::NoSuchEntry,
        answer => answer,
    }
}

/// The cursor on the first entry, for any body at all.
pub fn start(kind: u32, body: &[u8]) -> Cursor {
    match layout(kind) {
        Some(layout) if layout.has_entries() => {
            let fixed = layout.fixed();
            let bytes = &body[..body.len().min(fixed)];
            let count = bytes.get(fixed - 4..).unwrap_or(&[]);
            Cursor {
                offset: fixed,
                left: number(count) as u32,
            }
        }
        _ => Cursor { offset: 0, left: 0 },
    }
}

/// Steps over the entry at the cursor, whatever cursor it is. Without an
/// entry the cursor stays.
pub fn step(rules: &Rules, kind: u32, body: &[u8], cursor: Cursor) -> StepAnswer {
    match entry_at_cursor(rules, kind, body, cursor) {
        Found::Found((entry, end)) => StepAnswer {
            entry: Found::Found(entry),
            next: Cursor {
                offset: end,
                left: cursor.left - 1,
            },
        },
        Found::NoSuchEntry => StepAnswer {
            entry: Found::NoSuchEntry,
            next: cursor,
        },
        Found::Refused(refusal) => StepAnswer {
            entry: Found::Refused(refusal),
            next: cursor,
        },
    }
}

/// The price that an entry says, to the lent number.
pub fn give_price(found: Found<Entry>, lent: &mut i64) -> PriceAnswer {
    match found {
        Found::Refused(refusal) => PriceAnswer::Refused(refusal),
        Found::NoSuchEntry => PriceAnswer::NoSuchEntry,
        Found::Found(entry) => match entry.says.price() {
            None => PriceAnswer::NoPrice,
            Some(price) => {
                *lent = price;
                PriceAnswer::Price
            }
        },
    }
}

/// The entry at a cursor and the offset behind it.
fn entry_at_cursor(rules: &Rules, kind: u32, body: &[u8], cursor: Cursor) -> Found<(Entry, usize)> {
    let Some(layout) = layout(kind) else {
        return Found::NoSuchEntry;
    };
    if !layout.has_entries() || cursor.left == 0 {
        return Found::NoSuchEntry;
    }
    match judged_entry(rules, layout, body, cursor.offset) {
        Err(refusal) => Found::Refused(refusal),
        Ok(entry) => Found::Found(entry),
    }
}

/// The entry at an offset and the offset behind it: 4, then 5, for this entry
/// and its shown quantities.
fn judged_entry(
    rules: &Rules,
    layout: &Layout,
    body: &[u8],
    offset: usize,
) -> Result<(Entry, usize), u32> {
    let end = group_end(layout, body, offset)?;
    let bytes = &body[offset..end];
    group_in_range(rules, layout, bytes)?;
    Ok((entry_at(rules, layout, bytes), end))
}

/// The entry at the beginning of the bytes.
pub fn entry_at(rules: &Rules, layout: &Layout, bytes: &[u8]) -> Entry {
    let kind: [u8; 2] = characters(&bytes[..2]);
    let price = number(&bytes[2..10]);
    if layout.kind == INDEX {
        return Entry {
            kind,
            shown: 0,
            says: index_says(kind, price),
        };
    }
    let size = number(&bytes[10..18]);
    let level = two(bytes, 18);
    let order_count = number(&bytes[20..28]);
    let says = match &kind {
        b"0 " | b"1 " if price == 0 => Says::LevelWithoutPrice {
            size,
            level,
            order_count,
        },
        b"0 " | b"1 " => Says::Level {
            price,
            size,
            level,
            order_count,
        },
        _ => snapshot_says(rules, kind, price, size),
    };
    let is_level = matches!(says, Says::Level { .. } | Says::LevelWithoutPrice { .. });
    Entry {
        kind,
        shown: if is_level {
            shown_count(layout, bytes, 0)
        } else {
            0
        },
        says,
    }
}

/// What an entry of 300111 says that is no level.
fn snapshot_says(rules: &Rules, kind: [u8; 2], price: i64, size: i64) -> Says {
    match &kind {
        b"xe" if price == rules.no_upper_limit => Says::NoLimit,
        b"xf" if price == rules.no_lower_limit => Says::NoLimit,
        b"xe" | b"xf" => Says::Price { price },
        b"2 " | b"4 " | b"7 " | b"8 " | b"9 " => Says::Price { price },
        b"x1" | b"x2" | b"x5" | b"x6" | b"x7" | b"x8" | b"x9" => Says::Price { price },
        b"xj" | b"xk" => Says::Price { price },
        b"xg" => Says::Size { size },
        b"x3" | b"x4" => Says::PriceAndSize { price, size },
        _ => Says::Unknown,
    }
}

/// What an entry of 309011 says.
fn index_says(kind: [u8; 2], price: i64) -> Says {
    match &kind {
        b"3 " | b"xa" | b"xb" | b"xc" | b"xd" => Says::Price { price },
        _ => Says::Unknown,
    }
}

//! Rust's side: numbers out of bytes, their ranges, and the checksum.
use crate::calls::{Common, Order, Trade};

const PRICE: i64 = 9_999_999_999_999;
const ENTRY_PRICE: i64 = 999_999_999_999_999_999;
const QUANTITY: i64 = 999_999_999_999_999;
const AMOUNT: i64 = 999_999_999_999_999_999;

/// The marks: `xe` and `xf` holding these say no limit.
pub const NO_UPPER_LIMIT: i64 = 999_999_999_999_900;
pub const NO_LOWER_LIMIT: i64 = -999_999_999_999_900;

pub fn word(s: &[u8], at: usize) -> u32 {
    u32::from_be_bytes(s[at..at + 4].try_into().unwrap())
}

pub fn half(s: &[u8], at: usize) -> u16 {
    u16::from_be_bytes(s[at..at + 2].try_into().unwrap())
}

pub fn int(s: &[u8], at: usize) -> i64 {
    i64::from_be_bytes(s[at..at + 8].try_into().unwrap())
}

fn price(z: i64) -> bool {
    (-PRICE..=PRICE).contains(&z)
}

pub fn entry_price(z: i64) -> bool {
    (-ENTRY_PRICE..=ENTRY_PRICE).contains(&z)
}

fn quantity(z: i64) -> bool {
    (0..=QUANTITY).contains(&z)
}

fn amount(z: i64) -> bool {
    (0..=AMOUNT).contains(&z)
}

fn time(z: i64) -> bool {
    let v = z as u64;
    let (second, minute, hour) = (v / 1_000 % 100, v / 100_000 % 100, v / 10_000_000 % 100);
    let (day, month, year) = (
        v / 1_000_000_000 % 100,
        v / 100_000_000_000 % 100,
        v / 10_000_000_000_000,
    );
    second <= 60
        && minute <= 59
        && hour <= 23
        && (1..=31).contains(&day)
        && (1..=12).contains(&month)
        && year <= 9999
}

fn side(b: u8) -> bool {
    matches!(b, b'1' | b'2' | b'G' | b'F')
}

fn order_type(b: u8) -> bool {
    matches!(b, b'1' | b'2' | b'U')
}

fn execution(b: u8) -> bool {
    matches!(b, b'4' | b'F')
}

pub fn order_in(r: &Order) -> bool {
    r.number >= 1
        && price(r.order_price)
        && quantity(r.quantity)
        && side(r.side)
        && time(r.time)
        && order_type(r.order_type)
}

pub fn trade_in(r: &Trade) -> bool {
    r.number >= 1
        && r.bid_number >= 0
        && r.offer_number >= 0
        && price(r.trade_price)
        && quantity(r.quantity)
        && execution(r.execution)
        && time(r.time)
}

pub fn common_in(r: &Common) -> bool {
    time(r.time)
        && price(r.previous_close)
        && r.trade_count >= 0
        && quantity(r.volume)
        && amount(r.amount)
}

pub fn checksum(bytes: &[u8]) -> u32 {
    u32::from(bytes.iter().fold(0u8, |a, &b| a.wrapping_add(b)))
}

/// Where the groups of a snapshot end, if the bytes have them all from an offset on.
pub fn entries_end(s: &[u8], mut at: usize, count: u32) -> Option<usize> {
    for _ in 0..count {
        let shown = word(s.get(at..at + 32)?, 28) as usize;
        at += 32;
        if s.len() - at < 8 * shown {
            return None;
        }
        at += 8 * shown;
    }
    Some(at)
}

/// Whether the fields and shown quantities of a snapshot's entry at an offset, all there, are in range.
pub fn entry_in(s: &[u8], at: usize) -> bool {
    let e = &s[at..at + 32];
    let shown = word(e, 28) as usize;
    entry_price(int(e, 2))
        && quantity(int(e, 10))
        && int(e, 20) >= 0
        && s[at + 32..at + 32 + 8 * shown]
            .chunks_exact(8)
            .all(|q| quantity(int(q, 0)))
}

/// Whether all entries, all there, are in range.
pub fn entries_in(s: &[u8], mut at: usize, count: u32) -> bool {
    for _ in 0..count {
        if !entry_in(s, at) {
            return false;
        }
        at += 32 + 8 * word(s, at + 28) as usize;
    }
    true
}

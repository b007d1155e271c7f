//! What both sides are given.
use crate::calls::{Common, Order, Snapshot, Trade};
use crate::ranges::checksum;

pub const FIXED_TEXTS: &[u8] = b"011000001  102 ";
pub const SNAPSHOT_TEXTS: &[u8] = b"010000001  102 T0      ";
const TIME: i64 = 20_261_115_093_000_123;

pub fn order() -> Order {
    Order {
        channel: 2011,
        number: 5,
        order_price: 123_400,
        quantity: 50_000,
        side: b'1',
        time: TIME,
        order_type: b'2',
    }
}

pub fn trade() -> Trade {
    Trade {
        channel: 2011,
        number: 5,
        bid_number: 3,
        offer_number: 4,
        trade_price: 123_400,
        quantity: 50_000,
        execution: b'F',
        time: TIME,
    }
}

pub fn snapshot() -> Snapshot {
    let common = Common {
        time: TIME,
        channel: 1011,
        previous_close: 123_400,
        trade_count: 7,
        volume: 50_000,
        amount: 9,
    };
    Snapshot { common, count: 28 }
}

pub fn order_body() -> Vec<u8> {
    let r = order();
    let mut s = r.channel.to_be_bytes().to_vec();
    s.extend(r.number.to_be_bytes());
    s.extend(FIXED_TEXTS);
    s.extend(r.order_price.to_be_bytes());
    s.extend(r.quantity.to_be_bytes());
    s.push(r.side);
    s.extend(r.time.to_be_bytes());
    s.push(r.order_type);
    s
}

pub fn trade_body() -> Vec<u8> {
    let r = trade();
    let mut s = r.channel.to_be_bytes().to_vec();
    s.extend(r.number.to_be_bytes());
    s.extend(&FIXED_TEXTS[..3]);
    s.extend(r.bid_number.to_be_bytes());
    s.extend(r.offer_number.to_be_bytes());
    s.extend(&FIXED_TEXTS[3..]);
    s.extend(r.trade_price.to_be_bytes());
    s.extend(r.quantity.to_be_bytes());
    s.push(r.execution);
    s.extend(r.time.to_be_bytes());
    s
}

/// 28 entries, of which two show 50 quantities.
pub fn entry_bytes() -> Vec<u8> {
    let kinds = [b"0 ", b"1 ", b"2 ", b"x3", b"xe", b"xg", b"zz"];
    let mut s = Vec::new();
    for e in 0..28usize {
        s.extend(kinds[(e * 5 + e / 7) % 7]);
        s.extend(12_340_000i64.to_be_bytes());
        s.extend(500i64.to_be_bytes());
        s.extend((e as u16).to_be_bytes());
        s.extend(9i64.to_be_bytes());
        let shown = if e < 2 { 50u32 } else { 0 };
        s.extend(shown.to_be_bytes());
        for _ in 0..shown {
            s.extend(100i64.to_be_bytes());
        }
    }
    s
}

pub fn snapshot_body() -> Vec<u8> {
    let Snapshot { common: r, count } = snapshot();
    let mut s = r.time.to_be_bytes().to_vec();
    s.extend(r.channel.to_be_bytes());
    s.extend(SNAPSHOT_TEXTS);
    for z in [r.previous_close, r.trade_count, r.volume, r.amount] {
        s.extend(z.to_be_bytes());
    }
    s.extend(count.to_be_bytes());
    s.extend(entry_bytes());
    s
}

/// A frame of a type and a body.
pub fn framed(kind: u32, body: &[u8]) -> Vec<u8> {
    let mut bytes = kind.to_be_bytes().to_vec();
    bytes.extend((body.len() as u32).to_be_bytes());
    bytes.extend(body);
    bytes.extend(checksum(&bytes).to_be_bytes());
    bytes
}

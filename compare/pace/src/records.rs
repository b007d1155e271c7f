//! Records read: orders, trades, snapshots, and what else a feed has.
use crate::calls::{self, Answer, ChannelHeartbeat, Common, Index, Order, Snapshot, Texts, Trade};
use crate::calls::{CHANNEL_HEARTBEAT, HEARTBEAT, INDEX, ORDER, SNAPSHOT, TRADE, UNKNOWN};
use crate::inputs::{order_body, snapshot_body, trade_body};
use crate::race::{same, Bench, Row};
use crate::ranges::{
    common_in, entries_end, entries_in, entry_price, half, int, order_in, trade_in, word,
};
use std::fmt::Debug;
use std::hint::black_box;

fn refused<N: Default>(answer: u32) -> Answer<N> {
    Answer {
        answer,
        numbers: N::default(),
        texts: Texts([0; 24]),
    }
}

/// Numbers, and texts of two places one behind the other.
#[inline(always)]
fn accepted<N>(numbers: N, one: &[u8], other: &[u8]) -> Answer<N> {
    let mut texts = [0; 24];
    texts[..one.len()].copy_from_slice(one);
    texts[one.len()..one.len() + other.len()].copy_from_slice(other);
    Answer {
        answer: 0,
        numbers,
        texts: Texts(texts),
    }
}

#[inline(never)]
pub fn order(s: &[u8]) -> Answer<Order> {
    if s.len() < 51 {
        return refused(4);
    }
    let r = Order {
        channel: half(s, 0),
        number: int(s, 2),
        order_price: int(s, 25),
        quantity: int(s, 33),
        side: s[41],
        time: int(s, 42),
        order_type: s[50],
    };
    if !order_in(&r) {
        return refused(5);
    }
    accepted(r, &s[10..25], &[])
}

#[inline(never)]
pub fn trade(s: &[u8]) -> Answer<Trade> {
    if s.len() < 66 {
        return refused(4);
    }
    let r = Trade {
        channel: half(s, 0),
        number: int(s, 2),
        bid_number: int(s, 13),
        offer_number: int(s, 21),
        trade_price: int(s, 41),
        quantity: int(s, 49),
        execution: s[57],
        time: int(s, 58),
    };
    if !trade_in(&r) {
        return refused(5);
    }
    accepted(r, &s[10..13], &s[29..41])
}

#[inline(never)]
pub fn channel_heartbeat(s: &[u8]) -> Answer<ChannelHeartbeat> {
    if s.len() < 12 {
        return refused(4);
    }
    let r = ChannelHeartbeat {
        channel: half(s, 0),
        last_number: int(s, 2),
        end: half(s, 10),
    };
    if r.last_number < 0 || r.end > 1 {
        return refused(5);
    }
    accepted(r, &[], &[])
}

/// The common part of a body that has it.
#[inline(always)]
fn common(s: &[u8]) -> Common {
    Common {
        time: int(s, 0),
        channel: half(s, 8),
        previous_close: int(s, 33),
        trade_count: int(s, 41),
        volume: int(s, 49),
        amount: int(s, 57),
    }
}

#[inline(never)]
pub fn snapshot(s: &[u8]) -> Answer<Snapshot> {
    if s.len() < 69 {
        return refused(4);
    }
    let r = Snapshot {
        common: common(s),
        count: word(s, 65),
    };
    if entries_end(s, 69, r.count).is_none() {
        return refused(4);
    }
    if !common_in(&r.common) || !entries_in(s, 69, r.count) {
        return refused(5);
    }
    accepted(r, &s[10..33], &[])
}

#[inline(never)]
pub fn index(s: &[u8]) -> Answer<Index> {
    if s.len() < 69 || (s.len() - 69) / 10 < word(s, 65) as usize {
        return refused(4);
    }
    let r = Index {
        common: common(s),
        count: word(s, 65),
    };
    let mut points = s[69..69 + 10 * r.count as usize].chunks_exact(10);
    if !common_in(&r.common) || !points.all(|each| entry_price(int(each, 2))) {
        return refused(5);
    }
    accepted(r, &s[10..33], &[])
}

/// How a body of one of these types reads.
#[inline(never)]
pub fn judge(kind: u32, s: &[u8]) -> u32 {
    match kind {
        HEARTBEAT => 0,
        CHANNEL_HEARTBEAT => channel_heartbeat(s).answer,
        ORDER => order(s).answer,
        TRADE => trade(s).answer,
        SNAPSHOT => snapshot(s).answer,
        INDEX => index(s).answer,
        _ => UNKNOWN,
    }
}

type Reader<N> = fn(&[u8]) -> Answer<N>;

fn race_read<N: Debug>(bench: &Bench, row: Row, body: &[u8], ours: Reader<N>, rust: Reader<N>) {
    for length in 0..=body.len() {
        same(ours(&body[..length]), rust(&body[..length]));
    }
    assert_eq!(ours(body).answer, 0);
    bench.race(row, || ours(black_box(body)), || rust(black_box(body)));
}

pub fn run(bench: &Bench) {
    let row = |what, turns| Row {
        what,
        turns,
        parts: 1,
    };
    race_read(
        bench,
        row("order read", 100_000),
        &order_body(),
        calls::order,
        order,
    );
    race_read(
        bench,
        row("trade read", 100_000),
        &trade_body(),
        calls::trade,
        trade,
    );
    let body = snapshot_body();
    race_read(
        bench,
        row("snapshot of 28 entries read", 5_000),
        &body,
        calls::snapshot,
        snapshot,
    );
}

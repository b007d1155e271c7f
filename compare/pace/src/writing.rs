//! Orders, trades and snapshots written.
use crate::calls::{self, Order, Snapshot, Trade, WriteAnswer, ORDER, SNAPSHOT, TRADE};
use crate::inputs::{self, framed, FIXED_TEXTS, SNAPSHOT_TEXTS};
use crate::race::{Bench, Row};
use crate::ranges::{checksum, common_in, entries_end, entries_in, order_in, trade_in};
use std::hint::black_box;

pub fn refused(answer: u32) -> WriteAnswer {
    WriteAnswer { answer, written: 0 }
}

/// Header and checksum round a body that stands in its place.
pub fn sealed(kind: u32, len: usize, out: &mut [u8]) -> WriteAnswer {
    let (frame, sum) = out[..12 + len].split_at_mut(8 + len);
    frame[0..4].copy_from_slice(&kind.to_be_bytes());
    frame[4..8].copy_from_slice(&(len as u32).to_be_bytes());
    sum.copy_from_slice(&checksum(frame).to_be_bytes());
    WriteAnswer {
        answer: 0,
        written: 12 + len,
    }
}

#[inline(never)]
fn order(r: &Order, texts: &[u8], groups: &[u8], out: &mut [u8]) -> WriteAnswer {
    if texts.len() != 15 || !groups.is_empty() {
        return refused(4);
    }
    if !order_in(r) {
        return refused(5);
    }
    if out.len() < 63 {
        return refused(6);
    }
    let b = &mut out[8..59];
    b[0..2].copy_from_slice(&r.channel.to_be_bytes());
    b[2..10].copy_from_slice(&r.number.to_be_bytes());
    b[10..25].copy_from_slice(texts);
    b[25..33].copy_from_slice(&r.order_price.to_be_bytes());
    b[33..41].copy_from_slice(&r.quantity.to_be_bytes());
    b[41] = r.side;
    b[42..50].copy_from_slice(&r.time.to_be_bytes());
    b[50] = r.order_type;
    sealed(ORDER, 51, out)
}

#[inline(never)]
fn trade(r: &Trade, texts: &[u8], groups: &[u8], out: &mut [u8]) -> WriteAnswer {
    if texts.len() != 15 || !groups.is_empty() {
        return refused(4);
    }
    if !trade_in(r) {
        return refused(5);
    }
    if out.len() < 78 {
        return refused(6);
    }
    let b = &mut out[8..74];
    b[0..2].copy_from_slice(&r.channel.to_be_bytes());
    b[2..10].copy_from_slice(&r.number.to_be_bytes());
    b[10..13].copy_from_slice(&texts[0..3]);
    b[13..21].copy_from_slice(&r.bid_number.to_be_bytes());
    b[21..29].copy_from_slice(&r.offer_number.to_be_bytes());
    b[29..41].copy_from_slice(&texts[3..15]);
    b[41..49].copy_from_slice(&r.trade_price.to_be_bytes());
    b[49..57].copy_from_slice(&r.quantity.to_be_bytes());
    b[57] = r.execution;
    b[58..66].copy_from_slice(&r.time.to_be_bytes());
    sealed(TRADE, 66, out)
}

#[inline(never)]
fn snapshot(r: &Snapshot, texts: &[u8], groups: &[u8], out: &mut [u8]) -> WriteAnswer {
    let (len, c) = (69 + groups.len(), &r.common);
    if texts.len() != 23 || entries_end(groups, 0, r.count) != Some(groups.len()) {
        return refused(4);
    }
    if !common_in(c) || !entries_in(groups, 0, r.count) {
        return refused(5);
    }
    if len > 16_384 {
        return refused(2);
    }
    if out.len() < 12 + len {
        return refused(6);
    }
    let b = &mut out[8..8 + len];
    b[0..8].copy_from_slice(&c.time.to_be_bytes());
    b[8..10].copy_from_slice(&c.channel.to_be_bytes());
    b[10..33].copy_from_slice(texts);
    b[33..41].copy_from_slice(&c.previous_close.to_be_bytes());
    b[41..49].copy_from_slice(&c.trade_count.to_be_bytes());
    b[49..57].copy_from_slice(&c.volume.to_be_bytes());
    b[57..65].copy_from_slice(&c.amount.to_be_bytes());
    b[65..69].copy_from_slice(&r.count.to_be_bytes());
    b[69..].copy_from_slice(groups);
    sealed(SNAPSHOT, len, out)
}

type Writer<N> = fn(&N, &[u8], &[u8], &mut [u8]) -> WriteAnswer;

/// What a writer is given, and the frame that comes of it.
struct Draft<'a, N> {
    numbers: &'a N,
    texts: &'a [u8],
    groups: &'a [u8],
    frame: &'a [u8],
}

impl<N> Draft<'_, N> {
    fn written(&self, write: Writer<N>, out: &mut [u8]) -> WriteAnswer {
        write(
            black_box(self.numbers),
            black_box(self.texts),
            black_box(self.groups),
            black_box(out),
        )
    }

    /// What a writer answers and leaves, by the length of the output.
    fn left(&self, write: Writer<N>, room: usize) -> (u32, usize, Vec<u8>) {
        let mut out = vec![0xa5; room];
        let told = self.written(write, &mut out);
        (told.answer, told.written, out)
    }

    fn agree(&self, ours: Writer<N>, rust: Writer<N>) {
        for room in 0..self.frame.len() + 2 {
            let told = self.left(ours, room);
            assert_eq!(told, self.left(rust, room));
            assert_eq!(told.0, if room < self.frame.len() { 6 } else { 0 });
            assert!(told.0 == 6 || told.2.starts_with(self.frame));
        }
    }

    fn race(&self, bench: &Bench, row: Row, ours: Writer<N>, rust: Writer<N>) {
        self.agree(ours, rust);
        let (mut a, mut b) = (vec![0u8; 4_096], vec![0u8; 4_096]);
        bench.race(
            row,
            || self.written(ours, &mut a),
            || self.written(rust, &mut b),
        );
        assert_eq!(a, b);
    }
}

pub fn run(bench: &Bench) {
    let row = |what, turns| Row {
        what,
        turns,
        parts: 1,
    };
    let (texts, groups) = (FIXED_TEXTS, &[]);
    let frame = &framed(ORDER, &inputs::order_body());
    Draft {
        numbers: &inputs::order(),
        texts,
        groups,
        frame,
    }
    .race(
        bench,
        row("order written", 100_000),
        calls::write_order,
        order,
    );
    let frame = &framed(TRADE, &inputs::trade_body());
    Draft {
        numbers: &inputs::trade(),
        texts,
        groups,
        frame,
    }
    .race(
        bench,
        row("trade written", 100_000),
        calls::write_trade,
        trade,
    );
    let (texts, groups) = (SNAPSHOT_TEXTS, &inputs::entry_bytes());
    let frame = &framed(SNAPSHOT, &inputs::snapshot_body());
    let row = row("snapshot of 28 entries written", 5_000);
    Draft {
        numbers: &inputs::snapshot(),
        texts,
        groups,
        frame,
    }
    .race(bench, row, calls::write_snapshot, snapshot);
}

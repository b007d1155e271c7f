//! Frames of several body lengths.
use crate::calls::{self, FrameAnswer, ORDER};
use crate::inputs::framed;
use crate::race::{same, Bench, Row};
use crate::ranges::{checksum, word};
use std::hint::black_box;

#[inline(never)]
pub fn frame(bytes: &[u8]) -> FrameAnswer {
    let refused = |answer, missing| FrameAnswer {
        answer,
        kind: 0,
        len: 0,
        total: 0,
        missing,
    };
    if bytes.len() < 8 {
        return refused(1, 8 - bytes.len());
    }
    let len = word(bytes, 4) as usize;
    if len > 16_384 {
        return refused(2, 0);
    }
    let end = 8 + len;
    if bytes.len() < end + 4 {
        return refused(1, end + 4 - bytes.len());
    }
    if word(bytes, end) != checksum(&bytes[..end]) {
        return refused(3, 0);
    }
    FrameAnswer {
        answer: 0,
        kind: word(bytes, 0),
        len,
        total: end + 4,
        missing: 0,
    }
}

/// Both sides refuse the same: a frame that is cut, one of another type, whose sum is wrong, and one that is too long.
fn agree_on_refusals(bytes: &[u8]) {
    for there in [0, 1, 7, 8, 9, bytes.len() - 1] {
        let cut = &bytes[..there];
        same(calls::frame(cut), frame(cut));
        assert_eq!(calls::frame(cut).answer, 1);
    }
    for (at, answer) in [(0, 3), (4, 2)] {
        let mut damaged = bytes.to_vec();
        damaged[at] ^= 1;
        same(calls::frame(&damaged), frame(&damaged));
        assert_eq!(calls::frame(&damaged).answer, answer);
    }
}

pub fn run(bench: &Bench) {
    for len in [0, 51, 66, 325, 16_384] {
        let body: Vec<u8> = (0..len).map(|i: usize| (i * 31 + 7) as u8).collect();
        let bytes = framed(ORDER, &body);
        same(calls::frame(&bytes), frame(&bytes));
        assert_eq!(calls::frame(&bytes).answer, 0);
        agree_on_refusals(&bytes);
        let turns = if len > 1_000 { 2_000 } else { 100_000 };
        bench.race(
            Row {
                what: &format!("frame, body of {len}"),
                turns,
                parts: 1,
            },
            || calls::frame(black_box(&bytes)),
            || frame(black_box(&bytes)),
        );
    }
}

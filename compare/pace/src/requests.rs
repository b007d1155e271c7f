//! The request for the first of a channel's two runs.
use crate::calls;
use crate::race::{same, Bench, Row};
use crate::ticks::{CHANNELS, MORNING};
use crate::tracker::Tracker;
use std::hint::black_box;

pub fn run(bench: &Bench) {
    let mut ours = calls::set_up(&CHANNELS, &MORNING);
    for n in [1_000, 3_000] {
        calls::tick(&mut ours, 2013, n);
    }
    let rust = Tracker::from(&ours);
    let (mut a, mut b) = ([0u8; 64], [0u8; 64]);
    for channel in [2011, 2013, 2019] {
        same(
            calls::request(&ours, channel, &mut a),
            rust.request(channel, &mut b),
        );
    }
    assert_eq!((a, b[8]), (b, 1));
    bench.race(
        Row {
            what: "request",
            turns: 20_000,
            parts: 1,
        },
        || calls::request(black_box(&ours), black_box(2013), black_box(&mut a)),
        || black_box(&rust).request(black_box(2013), black_box(&mut b)),
    );
}

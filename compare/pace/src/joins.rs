//! Joins of the trackers of two lines, of eight channels with as many runs on each.
use crate::calls::{self, set_up};
use crate::race::{Bench, Row, COPIES};
use crate::ticks::{CHANNELS, MORNING};
use crate::tracker::Tracker;
use std::hint::black_box;

/// The two lines: the number that their first run begins with, and their highest, which has come.
const FIRST: (u64, u64) = (1, 400);
const SECOND: (u64, u64) = (4, 500);

/// A line's tracker: so many runs of six numbers on every channel, ten from run to run. Of each run of the first line the second
/// has received the first half, and it has a run of its own into what the first has received behind.
fn line(runs: usize, (first, highest): (u64, u64)) -> calls::Tracker {
    let mut t = set_up(&CHANNELS, &MORNING);
    t.highest = [highest; 8];
    t.counts = [runs; 8];
    for (at, (from, to)) in t.first.iter_mut().zip(&mut t.last).enumerate() {
        if at % 32 < runs {
            *from = 10 * (at as u64 % 32) + first;
            *to = *from + 5;
        }
    }
    t
}

/// Both sides' answer, the same, with the same state behind it.
fn answer(one: &calls::Tracker, two: &calls::Tracker) -> u32 {
    let (mut ours, mut rust) = (*one, Tracker::from(one));
    let answer = calls::join(&mut ours, two);
    assert_eq!(answer, rust.join(&Tracker::from(two)));
    assert_eq!(Tracker::from(&ours), rust);
    answer
}

/// Both sides refuse the same trackers, whichever comes first, and join others alike.
fn same_answers(one: &calls::Tracker, two: &calls::Tracker) {
    let changes: [(u32, fn(&mut calls::Tracker)); 7] = [
        (10, |t| t.from[1] = 0),
        (10, |t| t.last[255] = 1),
        (11, |t| (t.numbers[7], t.ended[0]) = (2019, 1)),
        (11, |t| t.from[0] += 1),
        (11, |t| *t = set_up(&CHANNELS[..7], &MORNING[..7])),
        (0, |t| t.highest[2] = i64::MAX as u64),
        (0, |t| t.ended = [1; 8]),
    ];
    for (number, change) in changes {
        let mut other = *two;
        change(&mut other);
        assert_eq!([answer(one, &other), answer(&other, one)], [number; 2]);
    }
}

/// Both sides refuse by 9 what needs 60 runs on the last channel, and change none.
fn same_nine() {
    let (mut low, mut high) = (line(30, FIRST), line(30, FIRST));
    (low.highest, high.highest) = ([700; 8], [700; 8]);
    for (first, last) in high.first.iter_mut().zip(&mut high.last).skip(224).take(30) {
        (*first, *last) = (*first + 310, *last + 310);
    }
    (low.counts[7], low.first[254], low.last[254]) = (31, 305, 700);
    high.counts[7] = 31;
    high.first.copy_within(224..254, 225);
    high.last.copy_within(224..254, 225);
    (high.first[224], high.last[224]) = (1, 305);
    assert_eq!([answer(&low, &high), answer(&high, &low)], [9; 2]);
}

/// Runs both sides; the figures are for one join, on a copy of the first line's tracker that nothing has changed.
fn race_lines(bench: &Bench, runs: usize) {
    let (one, two) = (line(runs, FIRST), line(runs, SECOND));
    assert_eq!(answer(&one, &two), 0);
    same_answers(&one, &two);
    let (ours, theirs) = (Tracker::from(&one), Tracker::from(&two));
    bench.race_copies(
        Row {
            what: &format!("join, {runs} runs"),
            turns: 500,
            parts: COPIES,
        },
        (&one, |t| calls::join(t, black_box(&two))),
        (&ours, |t| t.join(black_box(&theirs))),
    );
}

pub fn run(bench: &Bench) {
    same_nine();
    for runs in [0, 8, 30] {
        race_lines(bench, runs);
    }
}

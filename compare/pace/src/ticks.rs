//! Arrivals on a tracker of eight channels: in order, late at a run's end, gaps opened and closed, and before start.
use crate::calls::{self, BEFORE_START};
use crate::race::{Bench, Row};
use crate::tracker;
use std::hint::black_box;

/// The eight channels.
pub const CHANNELS: [u16; 8] = [2011, 2012, 2013, 2014, 2015, 2016, 2017, 2018];

/// The first numbers of boards that are there from the morning on.
pub const MORNING: [i64; 8] = [1; 8];

/// The first numbers of boards that join at noon.
const NOON: [i64; 8] = [1_001; 8];

/// A channel's tick, or its heartbeat.
#[derive(Clone, Copy)]
pub enum Arrival {
    Tick(u16, i64),
    Heartbeat(u16, i64),
}

/// What takes arrivals.
pub trait Tracks: Copy {
    fn tick(&mut self, channel: u16, number: i64) -> u32;
    fn heartbeat(&mut self, channel: u16, last: i64, end: u8) -> u32;

    fn arrive(&mut self, arrival: &Arrival) -> u32 {
        match *arrival {
            Arrival::Tick(channel, number) => self.tick(channel, number),
            Arrival::Heartbeat(channel, last) => self.heartbeat(channel, last, 0),
        }
    }
}

impl Tracks for calls::Tracker {
    fn tick(&mut self, channel: u16, number: i64) -> u32 {
        calls::tick(self, channel, number)
    }

    fn heartbeat(&mut self, channel: u16, last: i64, end: u8) -> u32 {
        calls::heartbeat(self, channel, last, end)
    }
}

impl Tracks for tracker::Tracker {
    fn tick(&mut self, channel: u16, number: i64) -> u32 {
        self.tick(channel, number)
    }

    fn heartbeat(&mut self, channel: u16, last: i64, end: u8) -> u32 {
        self.heartbeat(channel, last, end)
    }
}

/// The sum of the answers to all arrivals, from a state on.
fn play(mut t: impl Tracks, arrivals: &[Arrival]) -> u32 {
    arrivals.iter().map(|each| t.arrive(each)).sum()
}

/// Both sides' answers, the same, with the same state behind each.
pub fn answers(start: &calls::Tracker, arrivals: &[Arrival]) -> Vec<u32> {
    let (mut ours, mut rust) = (*start, tracker::Tracker::from(start));
    let both = |each| {
        let answer = ours.arrive(each);
        assert_eq!(answer, rust.arrive(each));
        assert_eq!(tracker::Tracker::from(&ours), rust);
        answer
    };
    arrivals.iter().map(both).collect()
}

/// Runs both sides on the same arrivals; the figures are for one.
pub fn race_arrivals(bench: &Bench, what: &str, start: &calls::Tracker, arrivals: &[Arrival]) {
    let rust = tracker::Tracker::from(start);
    let (turns, parts) = (20, arrivals.len());
    bench.race(
        Row { what, turns, parts },
        || play(*black_box(start), black_box(arrivals)),
        || play(*black_box(&rust), black_box(arrivals)),
    );
}

/// Ticks on one of the channels.
fn ticks(numbers: impl Iterator<Item = i64>) -> Vec<Arrival> {
    numbers.map(|n| Arrival::Tick(2013, n)).collect()
}

fn race_ticks(bench: &Bench, what: &str, numbers: impl Iterator<Item = i64>) {
    let (start, arrivals) = (calls::set_up(&CHANNELS, &MORNING), ticks(numbers));
    answers(&start, &arrivals);
    race_arrivals(bench, what, &start, &arrivals);
}

/// Both sides refuse by 10 a tracker whose first numbers do not go with the rest.
fn same_refusals(start: &calls::Tracker) {
    const HIGHEST: u64 = i64::MAX as u64;
    let changes: [fn(&mut calls::Tracker); 5] = [
        |t| t.from[1] = 0,
        |t| (t.from[1], t.highest[1]) = (HIGHEST + 1, HIGHEST),
        |t| t.from[1] += 1,
        |t| (t.count, t.numbers[7]) = (7, 0),
        |t| {
            (t.from[1], t.highest[1], t.counts[1]) = (3, 5, 1);
            (t.first[32], t.last[32]) = (2, 4);
        },
    ];
    for change in changes {
        let mut wrong = *start;
        change(&mut wrong);
        assert_eq!(answers(&wrong, &ticks(1..=2)), [10, 10]);
    }
}

/// The whole morning on boards that join at noon.
fn race_before_start(bench: &Bench) {
    let (start, arrivals) = (calls::set_up(&CHANNELS, &NOON), ticks(1..=1_000));
    let all = answers(&start, &arrivals);
    assert!(all.iter().all(|answer| *answer == BEFORE_START));
    race_arrivals(bench, "tick before start", &start, &arrivals);
}

pub fn run(bench: &Bench) {
    same_refusals(&calls::set_up(&CHANNELS, &MORNING));
    race_ticks(bench, "tick in order", 1..=1_000);
    // A far number, then the missing ones from the first on.
    race_ticks(
        bench,
        "tick late at a run's end",
        std::iter::once(1_000).chain(1..1_000),
    );
    // 3, 1, 2, 6, 4, 5: each third number opens a run, which the next two close.
    let gaps = (0..333).flat_map(|i| [3 * i + 3, 3 * i + 1, 3 * i + 2]);
    race_ticks(bench, "tick, gaps opened and closed", gaps);
    race_before_start(bench);
}

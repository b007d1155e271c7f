//! Arrivals on tables of 31 and 32 runs on all eight channels, each kind with heartbeats among its ticks.
use crate::calls::{set_up, Tracker, DUPLICATE, LATE};
use crate::race::Bench;
use crate::ticks::{answers, race_arrivals, Arrival, CHANNELS, MORNING};
use Arrival::{Heartbeat, Tick};

/// A kind of arrivals: those at one run of a channel, on a table of so many.
type Kind = fn(usize, usize, u16) -> Vec<Arrival>;

/// Each channel's highest number, which has come.
const HIGHEST: i64 = 3_300;

/// The first and last number of run j: 61 numbers and one in turn, and 100 from run to run.
fn run_at(j: usize) -> (i64, i64) {
    let first = 100 * j as i64 + 1;
    (first, if j % 2 == 0 { first + 60 } else { first })
}

/// So many runs on every channel.
fn table(runs: usize) -> Tracker {
    let mut t = set_up(&CHANNELS, &MORNING);
    t.highest = [HIGHEST as u64; 8];
    t.counts = [runs; 8];
    for (at, (first, last)) in t.first.iter_mut().zip(&mut t.last).enumerate() {
        if at % 32 < runs {
            let (from, to) = run_at(at % 32);
            (*first, *last) = (from as u64, to as u64);
        }
    }
    t
}

/// A long run splits and a run of one number goes, in turn, so that there are 31 and 32 of them in turn.
fn split(runs: usize, j: usize, channel: u16) -> Vec<Arrival> {
    let middle = Tick(channel, run_at(j).0 + 30);
    let only = Tick(channel, run_at(j + 1).0);
    let heard = Heartbeat(channel, HIGHEST);
    if runs < 32 {
        vec![middle, heard, only]
    } else {
        vec![only, heard, middle]
    }
}

fn at_the_ends(_: usize, j: usize, channel: u16) -> Vec<Arrival> {
    let (first, last) = run_at(j);
    vec![
        Tick(channel, first),
        Heartbeat(channel, last),
        Tick(channel, last),
    ]
}

fn duplicates(_: usize, j: usize, channel: u16) -> Vec<Arrival> {
    let behind = run_at(j).1 + 1;
    vec![
        Tick(channel, behind),
        Heartbeat(channel, behind),
        Tick(channel, HIGHEST),
    ]
}

/// Numbers that would open a run and split one. On 31 runs the first of a channel takes the last place.
fn refused(_: usize, j: usize, channel: u16) -> Vec<Arrival> {
    let far = HIGHEST + 2 + j as i64;
    vec![
        Tick(channel, far),
        Heartbeat(channel, far + 1),
        Tick(channel, run_at(j).0 + 30),
    ]
}

/// One that says nothing new and one with a higher number: on 31 runs that opens one, which then grows; on 32 it is refused.
fn heartbeats(_: usize, j: usize, channel: u16) -> Vec<Arrival> {
    vec![
        Heartbeat(channel, 100 * j as i64),
        Heartbeat(channel, HIGHEST + 1 + j as i64),
    ]
}

/// The arrivals of a kind: for each long run with one behind it, on every channel.
fn all(runs: usize, kind: Kind) -> Vec<Arrival> {
    let long = (0..runs - 1).step_by(2);
    long.flat_map(|j| {
        CHANNELS
            .into_iter()
            .flat_map(move |channel| kind(runs, j, channel))
    })
    .collect()
}

/// Every tick but one a channel must be answered so.
fn told(answers: &[u32], arrivals: &[Arrival], answer: u32) {
    let ticks = answers
        .iter()
        .zip(arrivals)
        .filter(|(_, each)| matches!(each, Tick(..)));
    assert!(ticks.filter(|(&each, _)| each != answer).count() <= CHANNELS.len());
}

pub fn run(bench: &Bench) {
    let kinds: [(_, Kind, _); 5] = [
        ("split", split, LATE),
        ("late at both ends", at_the_ends, LATE),
        ("duplicates", duplicates, DUPLICATE),
        ("refused by 9", refused, 9),
        ("heartbeats", heartbeats, 0),
    ];
    for runs in [31, 32] {
        let start = table(runs);
        for (name, kind, answer) in kinds {
            let arrivals = all(runs, kind);
            told(&answers(&start, &arrivals), &arrivals, answer);
            race_arrivals(bench, &format!("{runs} runs, {name}"), &start, &arrivals);
        }
    }
}

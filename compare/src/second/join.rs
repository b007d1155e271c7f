//! Two trackers of one set-up joined: what either line received is received.

use super::rules::Rules;
use super::tracker::{runs_of, well_formed, with_runs, Run};
use crate::receiver::{JoinAnswer, Tracker};

/// Joins a tracker with another; a refusal gives the tracker back.
pub fn join(rules: &Rules, tracker: &Tracker, other: &Tracker) -> JoinAnswer {
    match judge(rules, tracker, other) {
        Ok(next) => JoinAnswer {
            refused: None,
            next,
        },
        Err(refusal) => JoinAnswer {
            refused: Some(refusal),
            next: *tracker,
        },
    }
}

/// 10 of either, 11, 9; else the joined tracker.
fn judge(rules: &Rules, tracker: &Tracker, other: &Tracker) -> Result<Tracker, u32> {
    if !well_formed(rules, tracker) || !well_formed(rules, other) {
        return Err(10);
    }
    if !same_set_up(tracker, other) {
        return Err(11);
    }
    let mut joined = *tracker;
    for channel in 0..tracker.count {
        joined = with_runs(rules, &joined, channel, &missing(tracker, other, channel))?;
        joined.highest[channel] = tracker.highest[channel].max(other.highest[channel]);
        joined.ended[channel] = tracker.ended[channel].max(other.ended[channel]);
    }
    Ok(joined)
}

/// Whether two trackers have the same channels and the same first numbers.
/// Unused places are zero in both.
fn same_set_up(tracker: &Tracker, other: &Tracker) -> bool {
    tracker.count == other.count && tracker.numbers == other.numbers && tracker.from == other.from
}

/// What a channel received, from its first number to its highest: all that
/// stands before, between and behind its runs. Each part has a first and a last
/// number.
fn received(tracker: &Tracker, channel: usize) -> Vec<Run> {
    let mut parts = Vec::new();
    let mut next = tracker.from[channel];
    for (first, last) in runs_of(tracker, channel) {
        parts.push((next, first - 1));
        next = last + 1;
    }
    parts.push((next, tracker.highest[channel]));
    parts.retain(|part| part.0 <= part.1);
    parts
}

/// The numbers from the first to the larger highest that neither received.
fn missing(tracker: &Tracker, other: &Tracker, channel: usize) -> Vec<Run> {
    let mut parts = received(tracker, channel);
    parts.extend(received(other, channel));
    parts.sort_unstable();
    let highest = tracker.highest[channel].max(other.highest[channel]);
    // What lies behind all that was received is a part too, so that what is
    // missing always ends before one.
    parts.push((highest + 1, highest + 1));
    let mut runs = Vec::new();
    let mut next = tracker.from[channel];
    for (first, last) in parts {
        if next < first {
            runs.push((next, first - 1));
        }
        next = next.max(last + 1);
    }
    runs
}

//! The tracker: the first and the highest number, the ended mark and the runs
//! of missing numbers of each channel; and the request for lost messages.

use super::layout::RESEND;
use super::rules::Rules;
use super::writer;
use crate::receiver::{
    ArrivalAnswer, Draft, RequestAnswer, SetUpAnswer, Tracker, Verdict, WriteAnswer, CHANNELS,
    NUMBERS, RUNS,
};

/// A run of missing numbers: its first and its last.
pub(super) type Run = (u64, u64);

/// Sets up a tracker. Refused by 10 it is the all-zero tracker.
pub fn set_up(rules: &Rules, channels: &[u16], from: &[i64]) -> SetUpAnswer {
    match first_numbers(rules, channels, from) {
        None => SetUpAnswer {
            refused: Some(10),
            tracker: Tracker::ZERO,
        },
        Some(from) => SetUpAnswer {
            refused: None,
            tracker: fresh(channels, &from),
        },
    }
}

/// The first numbers of good lists: one for each channel.
fn first_numbers(rules: &Rules, channels: &[u16], from: &[i64]) -> Option<Vec<u64>> {
    if !good_list(rules, channels) || from.len() != channels.len() {
        return None;
    }
    from.iter()
        .map(|first| u64::try_from(*first).ok())
        .map(|first| first.filter(|first| is_first(rules, *first)))
        .collect()
}

/// The tracker to which nothing has come: each channel's highest number is one
/// below its first.
fn fresh(channels: &[u16], from: &[u64]) -> Tracker {
    let mut tracker = Tracker::ZERO;
    tracker.count = channels.len();
    tracker.numbers[..channels.len()].copy_from_slice(channels);
    tracker.from[..from.len()].copy_from_slice(from);
    for (place, first) in from.iter().enumerate() {
        tracker.highest[place] = first - 1;
    }
    tracker
}

/// Whether a channel can begin with this number.
fn is_first(rules: &Rules, first: u64) -> bool {
    rules.first_numbers.0 <= first && first <= rules.first_numbers.1
}

/// 1 to 8 channel numbers, strictly ascending.
fn good_list(rules: &Rules, channels: &[u16]) -> bool {
    !channels.is_empty()
        && channels.len() <= rules.channels
        && channels.windows(2).all(|pair| pair[0] < pair[1])
}

/// Whether a tracker keeps the rules.
pub(super) fn well_formed(rules: &Rules, tracker: &Tracker) -> bool {
    let count = tracker.count;
    count <= CHANNELS
        && good_list(rules, &tracker.numbers[..count])
        && (0..count).all(|channel| channel_holds(rules, tracker, channel))
        && (count..CHANNELS).all(|channel| channel_is_unused(tracker, channel))
}

/// Whether a channel in use keeps the rules.
fn channel_holds(rules: &Rules, tracker: &Tracker, channel: usize) -> bool {
    let count = tracker.counts[channel];
    let (from, highest) = (tracker.from[channel], tracker.highest[channel]);
    if count > rules.runs || tracker.ended[channel] > 1 {
        return false;
    }
    if !is_first(rules, from) || highest < from - 1 || highest > rules.number_limit {
        return false;
    }
    let runs = runs_of(tracker, channel);
    let inside = |run: &Run| from <= run.0 && run.0 <= run.1 && run.1 <= highest;
    runs.iter().all(inside)
        && runs.windows(2).all(|pair| pair[0].1 + 1 < pair[1].0)
        && (count..RUNS).all(|place| run_at(tracker, channel, place) == (0, 0))
}

/// Whether an unused channel's places are zero.
fn channel_is_unused(tracker: &Tracker, channel: usize) -> bool {
    tracker.numbers[channel] == 0
        && tracker.from[channel] == 0
        && tracker.highest[channel] == 0
        && tracker.ended[channel] == 0
        && tracker.counts[channel] == 0
        && (0..RUNS).all(|place| run_at(tracker, channel, place) == (0, 0))
}

/// The run at a place of a channel.
fn run_at(tracker: &Tracker, channel: usize, place: usize) -> Run {
    let at = channel * RUNS + place;
    (tracker.first[at], tracker.last[at])
}

/// A channel's runs in use.
pub(super) fn runs_of(tracker: &Tracker, channel: usize) -> Vec<Run> {
    let count = tracker.counts[channel];
    (0..count)
        .map(|place| run_at(tracker, channel, place))
        .collect()
}

/// The tracker with other runs for a channel; 9 for a 33rd run.
pub(super) fn with_runs(
    rules: &Rules,
    tracker: &Tracker,
    channel: usize,
    runs: &[Run],
) -> Result<Tracker, u32> {
    if runs.len() > rules.runs {
        return Err(9);
    }
    let mut next = *tracker;
    next.counts[channel] = runs.len();
    for place in 0..RUNS {
        let run = runs.get(place).copied().unwrap_or((0, 0));
        next.first[channel * RUNS + place] = run.0;
        next.last[channel * RUNS + place] = run.1;
    }
    Ok(next)
}

/// The place of a channel number: 10, then 7.
fn place_of(rules: &Rules, tracker: &Tracker, channel: u16) -> Result<usize, u32> {
    if !well_formed(rules, tracker) {
        return Err(10);
    }
    let used = &tracker.numbers[..tracker.count];
    used.iter().position(|number| *number == channel).ok_or(7)
}

/// The answer to an arrival; a refusal gives the tracker back.
fn answer(tracker: &Tracker, judged: Result<(Verdict, Tracker), u32>) -> ArrivalAnswer {
    match judged {
        Ok((verdict, next)) => ArrivalAnswer { verdict, next },
        Err(refusal) => ArrivalAnswer {
            verdict: Verdict::Refused(refusal),
            next: *tracker,
        },
    }
}

/// A tick arrives.
pub fn tick(rules: &Rules, tracker: &Tracker, channel: u16, number: i64) -> ArrivalAnswer {
    answer(tracker, judge_tick(rules, tracker, channel, number))
}

/// 10, 7, 8; then before start; then 9; else new, late or duplicate.
fn judge_tick(
    rules: &Rules,
    tracker: &Tracker,
    channel: u16,
    number: i64,
) -> Result<(Verdict, Tracker), u32> {
    let place = place_of(rules, tracker, channel)?;
    if number < rules.record_from {
        return Err(8);
    }
    let number = number as u64;
    if number < tracker.from[place] {
        return Ok((Verdict::BeforeStart, *tracker));
    }
    if number > tracker.highest[place] {
        let mut next = with_missing(rules, tracker, place, number - 1)?;
        next.highest[place] = number;
        return Ok((Verdict::New, next));
    }
    let runs = runs_of(tracker, place);
    match runs
        .iter()
        .position(|run| run.0 <= number && number <= run.1)
    {
        None => Ok((Verdict::Duplicate, *tracker)),
        Some(at) => {
            let left = without(&runs, at, number);
            Ok((Verdict::Late, with_runs(rules, tracker, place, &left)?))
        }
    }
}

/// The tracker in which all numbers from highest+1 to the given one are
/// missing. A run that ends at the highest grows.
fn with_missing(rules: &Rules, tracker: &Tracker, channel: usize, to: u64) -> Result<Tracker, u32> {
    let highest = tracker.highest[channel];
    if to <= highest {
        return Ok(*tracker);
    }
    let mut runs = runs_of(tracker, channel);
    match runs.last_mut() {
        Some(run) if run.1 == highest => run.1 = to,
        _ => runs.push((highest + 1, to)),
    }
    with_runs(rules, tracker, channel, &runs)
}

/// The runs when a number leaves the run at a place, which may split.
fn without(runs: &[Run], at: usize, number: u64) -> Vec<Run> {
    let (first, last) = runs[at];
    let mut left = runs[..at].to_vec();
    if first < number {
        left.push((first, number - 1));
    }
    if number < last {
        left.push((number + 1, last));
    }
    left.extend_from_slice(&runs[at + 1..]);
    left
}

/// A channel heartbeat arrives.
pub fn heartbeat(
    rules: &Rules,
    tracker: &Tracker,
    channel: u16,
    last: i64,
    end: u8,
) -> ArrivalAnswer {
    answer(tracker, judge_heartbeat(rules, tracker, channel, last, end))
}

/// 10, 7, 8, 9; else heard.
fn judge_heartbeat(
    rules: &Rules,
    tracker: &Tracker,
    channel: u16,
    last: i64,
    end: u8,
) -> Result<(Verdict, Tracker), u32> {
    let place = place_of(rules, tracker, channel)?;
    if last < rules.reference_from {
        return Err(8);
    }
    let last = last as u64;
    let mut next = *tracker;
    if last > tracker.highest[place] {
        next = with_missing(rules, tracker, place, last)?;
        next.highest[place] = last;
    }
    if end != 0 {
        next.ended[place] = 1;
    }
    Ok((Verdict::Heard, next))
}

/// Asks for a channel's first run, or its first 200 numbers: 10, 7, nothing
/// missing, 6.
pub fn request(rules: &Rules, tracker: &Tracker, channel: u16, output: &mut [u8]) -> RequestAnswer {
    let place = match place_of(rules, tracker, channel) {
        Ok(place) => place,
        Err(refusal) => return RequestAnswer::Refused(refusal),
    };
    if tracker.counts[place] == 0 {
        return RequestAnswer::NothingMissing;
    }
    let (first, run_last) = run_at(tracker, place, 0);
    let last = run_last.min(first + (rules.batch - 1));
    let numbers = resend_numbers(channel, first as i64, last as i64);
    let draft = Draft {
        kind: RESEND,
        numbers,
        texts: &[b' '; 24],
        groups: &[],
    };
    match writer::write(rules, &draft, output) {
        WriteAnswer::Refused(refusal) => RequestAnswer::Refused(refusal),
        WriteAnswer::Written(size) => RequestAnswer::Written(size),
    }
}

/// The fixed fields of a 390094 frame: resend type 1, channel, first, last,
/// status 0.
fn resend_numbers(channel: u16, first: i64, last: i64) -> [i64; NUMBERS] {
    let mut numbers = [0; NUMBERS];
    numbers[..5].copy_from_slice(&[1, i64::from(channel), first, last, 0]);
    numbers
}

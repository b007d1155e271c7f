//! Lists of arrivals, and trackers good and malformed.

use super::dice::Dice;
use super::lists::{channels, first_number};
use super::{Call, Input, Lists};
use crate::receiver::{Tracker, CHANNELS, PLACES, RUNS};

/// Made-up counts go up to this.
const COUNT_LIMIT: usize = usize::MAX;

/// The highest number that there can be.
pub(super) const HIGHEST: u64 = i64::MAX as u64;

/// The ways for a tracker to be malformed.
#[derive(Clone, Copy, PartialEq, Eq, Debug)]
pub enum Way {
    AllZero,
    NoChannel,
    TooManyChannels,
    ChannelNumbersEqual,
    ChannelNumbersDescending,
    UnusedChannelNumber,
    UnusedFirstNumber,
    UnusedHighest,
    UnusedEndedMark,
    UnusedRunCount,
    UnusedChannelRun,
    FirstNumberZero,
    FirstNumberAboveTheLimit,
    HighestBelowTheStart,
    HighestAboveTheLimit,
    OtherEndedMark,
    TooManyRuns,
    RunBeginsAtZero,
    RunBeginsBelowTheStart,
    RunEndsAboveTheHighest,
    RunFirstAboveItsLast,
    RunsTouch,
    RunsOverlap,
    RunsNotAscending,
    UnusedRunFirst,
    UnusedRunLast,
}

impl Way {
    pub const ALL: [Way; 26] = [
        Way::AllZero,
        Way::NoChannel,
        Way::TooManyChannels,
        Way::ChannelNumbersEqual,
        Way::ChannelNumbersDescending,
        Way::UnusedChannelNumber,
        Way::UnusedFirstNumber,
        Way::UnusedHighest,
        Way::UnusedEndedMark,
        Way::UnusedRunCount,
        Way::UnusedChannelRun,
        Way::FirstNumberZero,
        Way::FirstNumberAboveTheLimit,
        Way::HighestBelowTheStart,
        Way::HighestAboveTheLimit,
        Way::OtherEndedMark,
        Way::TooManyRuns,
        Way::RunBeginsAtZero,
        Way::RunBeginsBelowTheStart,
        Way::RunEndsAboveTheHighest,
        Way::RunFirstAboveItsLast,
        Way::RunsTouch,
        Way::RunsOverlap,
        Way::RunsNotAscending,
        Way::UnusedRunFirst,
        Way::UnusedRunLast,
    ];

    pub fn name(self) -> &'static str {
        match self {
            Way::AllZero => "all zero",
            Way::NoChannel => "no channel",
            Way::TooManyChannels => "more than 8 channels",
            Way::ChannelNumbersEqual => "channel numbers equal",
            Way::ChannelNumbersDescending => "channel numbers descending",
            Way::UnusedChannelNumber => "unused channel number not zero",
            Way::UnusedFirstNumber => "unused first number not zero",
            Way::UnusedHighest => "unused highest not zero",
            Way::UnusedEndedMark => "unused ended mark not zero",
            Way::UnusedRunCount => "unused run count not zero",
            Way::UnusedChannelRun => "unused channel's run not zero",
            Way::FirstNumberZero => "first number 0",
            Way::FirstNumberAboveTheLimit => "first number above the limit",
            Way::HighestBelowTheStart => "highest below the first number less 1",
            Way::HighestAboveTheLimit => "highest above the limit",
            Way::OtherEndedMark => "ended mark neither 0 nor 1",
            Way::TooManyRuns => "more than 32 runs",
            Way::RunBeginsAtZero => "run begins at 0",
            Way::RunBeginsBelowTheStart => "run begins below the first number",
            Way::RunEndsAboveTheHighest => "run ends above the highest",
            Way::RunFirstAboveItsLast => "run's first above its last",
            Way::RunsTouch => "runs touch",
            Way::RunsOverlap => "runs overlap",
            Way::RunsNotAscending => "runs not ascending",
            Way::UnusedRunFirst => "unused run's first not zero",
            Way::UnusedRunLast => "unused run's last not zero",
        }
    }
}

/// A list of arrivals, each kind in turn.
pub fn arrivals(dice: &mut Dice, turn: u64) -> Input {
    let count = 1 + dice.below(8) as usize;
    let mut lists = Lists::good(dice, count);
    let calls = match turn % 5 {
        0 => walk(dice, &lists),
        1 => {
            leave_room(&mut lists);
            full_table(dice, &lists)
        }
        2 => high_numbers(dice, &lists),
        3 => wide_runs(dice, &lists),
        _ => starts(dice, &lists),
    };
    Input::Arrivals { lists, calls }
}

/// The channel, at times one that may not be in the tracker.
fn a_channel(dice: &mut Dice, known: u16) -> u16 {
    match dice.below(24) {
        0 => known.wrapping_add(1),
        1 => dice.pick(&[0, 1, u16::MAX, 2011]),
        _ => known,
    }
}

/// A request with a short, exact or long output.
fn a_request(dice: &mut Dice, channel: u16) -> Call {
    let output = dice.pick(&[0, 11, 55, 55, 56, 56, 56, 57, 100]);
    Call::Request { channel, output }
}

/// An end: no, or one of the ways to say yes.
fn an_end(dice: &mut Dice) -> u8 {
    dice.pick(&[0, 0, 0, 0, 1, 1, 2, 255])
}

/// A tick or a channel heartbeat.
fn an_arrival(dice: &mut Dice, channel: u16, number: i64) -> Call {
    if dice.one_in(4) {
        return Call::Heartbeat {
            channel,
            last: number,
            end: an_end(dice),
        };
    }
    Call::Tick { channel, number }
}

/// A number so far above another, or the highest possible.
fn above(number: i64, more: u64) -> i64 {
    number.saturating_add_unsigned(more)
}

/// A number at a first number, beside it or far below.
fn at_a_start(dice: &mut Dice, first: i64) -> i64 {
    let far = 1 + dice.below(first as u64) as i64;
    dice.pick(&[
        first,
        first,
        first - 1,
        first - 1,
        above(first, 1),
        first - 2,
        far,
        1,
    ])
}

/// A call on a channel with any of these numbers, or one at its start; or a
/// request.
fn any_call(dice: &mut Dice, lists: &Lists, place: usize, numbers: &[i64]) -> Call {
    let channel = a_channel(dice, lists.channels[place]);
    if dice.one_in(6) {
        return a_request(dice, channel);
    }
    let number = match dice.below(12) {
        0 => dice.pick(&[0, -1, i64::MIN, -5]),
        1 => at_a_start(dice, lists.from[place]),
        _ => dice.pick(numbers),
    };
    an_arrival(dice, channel, number)
}

/// Numbers that mostly go on, with gaps, repeats and late ones.
pub(super) fn walk(dice: &mut Dice, lists: &Lists) -> Vec<Call> {
    let mut highest: Vec<i64> = lists.from.iter().map(|first| first - 1).collect();
    let mut calls = Vec::new();
    for _ in 0..20 + dice.below(60) {
        let place = lists.a_place(dice);
        let (first, before) = (lists.from[place], highest[place]);
        let number = match dice.below(9) {
            0 | 1 => above(first, dice.below((before - first + 2) as u64)),
            2 => before,
            3 => above(before, 2 + dice.below(5)),
            4 => at_a_start(dice, first),
            _ => above(before, 1),
        };
        highest[place] = before.max(number);
        let channel = a_channel(dice, lists.channels[place]);
        calls.push(an_arrival(dice, channel, number));
        if dice.one_in(6) {
            calls.push(a_request(dice, channel));
        }
    }
    calls
}

/// Numbers that `full_table` goes above a first number.
const ROOM: i64 = 250;

/// Lowers first numbers, so that a table can be filled above each.
pub(super) fn leave_room(lists: &mut Lists) {
    for first in &mut lists.from {
        *first = (*first).min(i64::MAX - ROOM);
    }
}

/// A table with all 32 runs in use, or nearly so, and what comes then.
pub(super) fn full_table(dice: &mut Dice, lists: &Lists) -> Vec<Call> {
    let place = lists.a_place(dice);
    let (channel, first) = (lists.channels[place], lists.from[place]);
    let step = 2 + dice.below(4) as i64;
    let ticks = 30 + dice.below(5) as i64;
    let mut calls: Vec<Call> = (1..=ticks)
        .map(|n| Call::Tick {
            channel,
            number: first - 1 + n * step,
        })
        .collect();
    if dice.one_in(2) {
        calls.push(Call::Heartbeat {
            channel,
            last: first - 1 + (ticks + 1) * step,
            end: 0,
        });
    }
    let mut highest = first - 1 + ticks * step;
    for _ in 0..10 + dice.below(30) {
        let number = match dice.below(6) {
            0 => highest + 1,
            1 => highest + 2,
            2 => highest,
            _ => first + dice.below((highest - first) as u64 + 4) as i64,
        };
        highest += dice.below(2) as i64;
        calls.push(any_call(dice, lists, place, &[number]));
    }
    calls
}

/// The highest possible numbers.
fn high_numbers(dice: &mut Dice, lists: &Lists) -> Vec<Call> {
    let mut numbers: Vec<i64> = (0..6).map(|below| i64::MAX - below).collect();
    numbers.extend_from_slice(&[1, 2, 3, 200, 201, 202, i64::MAX / 2, 1 << 32, (1 << 32) + 1]);
    numbers.push(dice.wide() as i64 & i64::MAX);
    let calls = 10 + dice.below(40);
    (0..calls)
        .map(|_| {
            let place = lists.a_place(dice);
            any_call(dice, lists, place, &numbers)
        })
        .collect()
}

/// Wide runs that late numbers split, around the batch of 200.
pub(super) fn wide_runs(dice: &mut Dice, lists: &Lists) -> Vec<Call> {
    let few = lists.channels.len().min(2) as u64;
    let mut calls = Vec::new();
    for _ in 0..40 + dice.below(60) {
        let place = dice.below(few) as usize;
        let most = dice.pick(&[100, 250, 1_000, 5_000]);
        let behind = dice.below(most);
        let numbers = [behind, behind, 198, 199, 200, 201];
        let numbers = numbers.map(|behind| above(lists.from[place], behind));
        calls.push(any_call(dice, lists, place, &numbers));
    }
    calls
}

/// Arrivals at the channels' first numbers, and few others.
pub(super) fn starts(dice: &mut Dice, lists: &Lists) -> Vec<Call> {
    let mut calls = Vec::new();
    for _ in 0..10 + dice.below(30) {
        let place = lists.a_place(dice);
        let first = lists.from[place];
        let (near, far) = (dice.below(8), dice.below(300));
        let numbers = [
            at_a_start(dice, first),
            at_a_start(dice, first),
            above(first, near),
            above(first, far),
        ];
        calls.push(any_call(dice, lists, place, &numbers));
    }
    calls
}

/// A well-formed tracker with so many channels; each has so many runs.
fn tracker(dice: &mut Dice, count: usize, least: usize, most: usize) -> Tracker {
    let mut tracker = Tracker::ZERO;
    tracker.count = count;
    for (place, number) in channels(dice, count).into_iter().enumerate() {
        tracker.numbers[place] = number;
        tracker.ended[place] = dice.below(2) as u8;
        let runs = match dice.below(6) {
            0 | 1 => most,
            2 => least,
            _ => least + dice.below((most - least) as u64 + 1) as usize,
        };
        add_runs(dice, &mut tracker, place, runs);
    }
    tracker
}

/// Gives a channel a first number that leaves room for so many runs, these
/// runs, and a highest number above them.
fn add_runs(dice: &mut Dice, tracker: &mut Tracker, channel: usize, runs: usize) {
    let room = 2 * (runs as u64).max(1);
    let from = (first_number(dice) as u64).min(HIGHEST + 2 - room);
    let fits = |magnitude: &u32| from + ((runs as u64) << (magnitude + 1)) <= HIGHEST + 2;
    let magnitudes: Vec<u32> = [0, 1, 2, 8, 40, 57].into_iter().filter(fits).collect();
    let magnitude = dice.pick(&magnitudes);
    let mut free = from;
    tracker.from[channel] = from;
    tracker.counts[channel] = runs;
    for place in channel * RUNS..channel * RUNS + runs {
        let first = free + dice.below(1 << magnitude);
        let last = first + dice.below(1 << magnitude);
        tracker.first[place] = first;
        tracker.last[place] = last;
        free = last + 2;
    }
    let least = if runs == 0 { from - 1 } else { free - 2 };
    tracker.highest[channel] = match dice.below(4) {
        0 => least,
        1 => HIGHEST,
        _ => (least + dice.below(1 << magnitude)).min(HIGHEST),
    };
}

/// The lists of a well-formed tracker's set-up.
fn lists_of(tracker: &Tracker) -> Lists {
    let from = &tracker.from[..tracker.count];
    Lists {
        channels: tracker.numbers[..tracker.count].to_vec(),
        from: from.iter().map(|first| *first as i64).collect(),
    }
}

/// Numbers around a channel's first and highest number, and its runs.
fn telling_numbers(dice: &mut Dice, tracker: &Tracker, channel: usize) -> Vec<i64> {
    let (from, highest) = (tracker.from[channel], tracker.highest[channel]);
    let mut numbers = vec![highest, highest + 1, highest + 2, 1];
    numbers.extend_from_slice(&[from, from - 1]);
    for _ in 0..4 {
        let place = channel * RUNS + dice.below(RUNS as u64) as usize;
        let (first, last) = (tracker.first[place], tracker.last[place]);
        let middle = first / 2 + last / 2;
        numbers.extend_from_slice(&[first, last, middle, last + 1]);
        numbers.push(first.saturating_sub(1));
    }
    numbers
        .iter()
        .map(|number| (*number).min(HIGHEST) as i64)
        .collect()
}

/// A well-formed tracker and calls.
pub fn good(dice: &mut Dice) -> Input {
    let count = 1 + dice.below(8) as usize;
    let tracker = tracker(dice, count, 0, RUNS);
    let lists = lists_of(&tracker);
    let mut calls = Vec::new();
    for _ in 0..12 {
        let place = lists.a_place(dice);
        let numbers = telling_numbers(dice, &tracker, place);
        calls.push(any_call(dice, &lists, place, &numbers));
    }
    Input::Tracker {
        way: None,
        tracker: Box::new(tracker),
        calls,
    }
}

/// A tracker malformed in one way, each way in turn, and each call on it;
/// some calls would be refused for other reasons too.
pub fn malformed(dice: &mut Dice, turn: u64) -> Input {
    let way = Way::ALL[(turn % Way::ALL.len() as u64) as usize];
    let count = 2 + dice.below(6) as usize;
    let mut tracker = tracker(dice, count, 2, RUNS - 1);
    spoil(dice, way, &mut tracker);
    let known = dice.pick(&tracker.numbers[..count]);
    let channel = a_channel(dice, known);
    let number = dice.pick(&[1, 2, 5, 0, -1, i64::MIN, i64::MAX]);
    let end = an_end(dice);
    let calls = vec![
        Call::Tick { channel, number },
        Call::Heartbeat {
            channel,
            last: number,
            end,
        },
        a_request(dice, channel),
    ];
    Input::Tracker {
        way: Some(way),
        tracker: Box::new(tracker),
        calls,
    }
}

/// Spoils a tracker of 2 to 7 channels with 2 to 31 runs each.
pub(super) fn spoil(dice: &mut Dice, way: Way, tracker: &mut Tracker) {
    let count = tracker.count;
    let unused = count + dice.below((CHANNELS - count) as u64) as usize;
    let used = dice.below(count as u64) as usize;
    match way {
        Way::AllZero => *tracker = Tracker::ZERO,
        Way::NoChannel => tracker.count = 0,
        Way::TooManyChannels => {
            tracker.count = dice.pick(&[9, 10, 16, 255, 256, 1 << 32, COUNT_LIMIT])
        }
        Way::ChannelNumbersEqual => tracker.numbers[1] = tracker.numbers[0],
        Way::ChannelNumbersDescending => tracker.numbers.swap(count - 2, count - 1),
        Way::UnusedChannelNumber => tracker.numbers[unused] = 1 + dice.below(65_535) as u16,
        Way::UnusedFirstNumber => {
            let any = 1 + dice.wide() % HIGHEST;
            tracker.from[unused] = dice.pick(&[1, any, HIGHEST + 1, u64::MAX])
        }
        Way::UnusedHighest => tracker.highest[unused] = 1 + dice.wide() % HIGHEST,
        Way::UnusedEndedMark => tracker.ended[unused] = 1,
        Way::UnusedRunCount => {
            tracker.counts[unused] = dice.pick(&[1, 2, 32, 33, 1 << 32, COUNT_LIMIT])
        }
        Way::UnusedChannelRun => {
            let place = unused * RUNS + dice.below(RUNS as u64) as usize;
            spoil_place(dice, tracker, place);
        }
        Way::HighestAboveTheLimit => {
            tracker.highest[used] = dice.pick(&[HIGHEST + 1, HIGHEST + 2, u64::MAX])
        }
        Way::OtherEndedMark => tracker.ended[used] = dice.pick(&[2, 3, 128, 255]),
        Way::TooManyRuns => {
            tracker.counts[used] = dice.pick(&[33, 34, 64, 255, 256, 1 << 32, COUNT_LIMIT])
        }
        Way::FirstNumberZero
        | Way::FirstNumberAboveTheLimit
        | Way::HighestBelowTheStart
        | Way::RunBeginsBelowTheStart => spoil_start(dice, way, tracker, used),
        _ => spoil_runs(dice, way, tracker, used),
    }
}

/// Spoils how the first number of a channel in use goes with the rest of it.
fn spoil_start(dice: &mut Dice, way: Way, tracker: &mut Tracker, used: usize) {
    match way {
        Way::FirstNumberZero => {
            tracker.from[used] = 0;
            if dice.one_in(2) {
                take_runs(tracker, used);
                tracker.highest[used] = dice.pick(&[0, 0, 1, HIGHEST]);
            }
        }
        Way::FirstNumberAboveTheLimit => {
            take_runs(tracker, used);
            tracker.highest[used] = HIGHEST;
            tracker.from[used] = HIGHEST + 1;
        }
        Way::HighestBelowTheStart => {
            take_runs(tracker, used);
            let from = tracker.from[used].max(2);
            tracker.from[used] = from;
            tracker.highest[used] = dice.pick(&[from - 2, from - 2, from / 2, 0]).min(from - 2);
        }
        _ => {
            let place = used * RUNS;
            let below = [
                tracker.first[place],
                tracker.last[place],
                tracker.highest[used],
            ];
            tracker.from[used] = (dice.pick(&below) + 1).min(HIGHEST);
        }
    }
}

/// Takes a channel's runs away.
pub(super) fn take_runs(tracker: &mut Tracker, channel: usize) {
    tracker.counts[channel] = 0;
    tracker.first[channel * RUNS..][..RUNS].fill(0);
    tracker.last[channel * RUNS..][..RUNS].fill(0);
}

/// Spoils the runs of a channel in use.
fn spoil_runs(dice: &mut Dice, way: Way, tracker: &mut Tracker, used: usize) {
    let runs = tracker.counts[used];
    let one = used * RUNS + dice.below(runs as u64 - 1) as usize;
    let unused = used * RUNS + runs + dice.below((RUNS - runs) as u64) as usize;
    match way {
        Way::RunBeginsAtZero => tracker.first[used * RUNS] = 0,
        Way::RunEndsAboveTheHighest => {
            let last = tracker.last[used * RUNS + runs - 1];
            let least = tracker.from[used] - 1;
            let low = [last - 1, last / 2, least];
            tracker.highest[used] = dice.pick(&low).clamp(least, last - 1);
        }
        Way::RunFirstAboveItsLast => tracker.first[one] = tracker.last[one] + 1,
        Way::RunsTouch => tracker.last[one] = tracker.first[one + 1] - 1,
        Way::RunsOverlap => tracker.last[one] = tracker.first[one + 1],
        Way::RunsNotAscending => {
            tracker.first.swap(one, one + 1);
            tracker.last.swap(one, one + 1);
        }
        Way::UnusedRunFirst => tracker.first[unused] = 1 + dice.wide() % HIGHEST,
        _ => tracker.last[unused] = 1 + dice.wide() % HIGHEST,
    }
}

/// Makes a run place other than zero.
fn spoil_place(dice: &mut Dice, tracker: &mut Tracker, place: usize) {
    let place = place.min(PLACES - 1);
    if dice.one_in(2) {
        tracker.first[place] = 1 + dice.below(9);
    } else {
        tracker.last[place] = 1 + dice.below(9);
    }
}

//! Each malformed tracker of the inputs breaks one rule alone: with that
//! mended, it is well-formed.

use super::second;
use compare::inputs::{Input, Inputs, Way};
use compare::receiver::{Receiver, Tracker, Verdict, RUNS};

const INPUTS: u64 = 30_000;
const SEED: u64 = 20_170_401;
const HIGHEST: u64 = 9_223_372_036_854_775_807;

/// The places of a channel's runs that are not zero.
fn places(tracker: &Tracker, channel: usize) -> usize {
    let runs = channel * RUNS..(channel + 1) * RUNS;
    runs.filter(|place| tracker.last[*place] != 0).count()
}

/// Mends what is wrong of a tracker that is malformed in a way, and nothing
/// else.
fn mend(way: Way, tracker: &mut Tracker) {
    match way {
        Way::AllZero | Way::NoChannel | Way::TooManyChannels => {
            tracker.count = tracker.from.iter().filter(|first| **first != 0).count()
        }
        Way::ChannelNumbersEqual | Way::ChannelNumbersDescending => {
            let used = tracker.numbers[..tracker.count].iter_mut();
            used.zip(1..).for_each(|(number, next)| *number = next);
        }
        Way::UnusedChannelNumber => tracker.numbers[tracker.count..].fill(0),
        Way::UnusedFirstNumber => tracker.from[tracker.count..].fill(0),
        Way::UnusedHighest => tracker.highest[tracker.count..].fill(0),
        Way::UnusedEndedMark => tracker.ended[tracker.count..].fill(0),
        Way::UnusedRunCount => tracker.counts[tracker.count..].fill(0),
        Way::UnusedChannelRun => {
            tracker.first[tracker.count * RUNS..].fill(0);
            tracker.last[tracker.count * RUNS..].fill(0);
        }
        _ => (0..tracker.count).for_each(|channel| mend_channel(way, tracker, channel)),
    }
}

/// The same of a channel in use.
fn mend_channel(way: Way, tracker: &mut Tracker, channel: usize) {
    let (from, highest) = (&mut tracker.from[channel], &mut tracker.highest[channel]);
    match way {
        Way::FirstNumberZero => *from = (*from).max(1),
        Way::FirstNumberAboveTheLimit => *from = (*from).min(HIGHEST),
        Way::HighestBelowTheStart => *highest = (*highest).max(*from - 1),
        Way::HighestAboveTheLimit => *highest = (*highest).min(HIGHEST),
        Way::RunBeginsBelowTheStart => *from = (*from).min(tracker.first[channel * RUNS]),
        Way::RunEndsAboveTheHighest => *highest = HIGHEST,
        Way::OtherEndedMark => tracker.ended[channel] = 1,
        Way::TooManyRuns => tracker.counts[channel] = places(tracker, channel),
        _ => mend_runs(way, tracker, channel),
    }
}

/// The same of a channel's runs.
fn mend_runs(way: Way, tracker: &mut Tracker, channel: usize) {
    let (count, from) = (tracker.counts[channel], tracker.from[channel]);
    let first = &mut tracker.first[channel * RUNS..][..RUNS];
    let last = &mut tracker.last[channel * RUNS..][..RUNS];
    match way {
        Way::RunBeginsAtZero => first[0] = first[0].max(from),
        Way::RunFirstAboveItsLast => first[..count].copy_from_slice(&last[..count]),
        Way::RunsTouch | Way::RunsOverlap => last[..count].copy_from_slice(&first[..count]),
        Way::RunsNotAscending => {
            first[..count].sort_unstable();
            last[..count].sort_unstable();
        }
        Way::UnusedRunFirst => first[count..].fill(0),
        Way::UnusedRunLast => last[count..].fill(0),
        _ => panic!("{way:?} is not of runs"),
    }
}

/// Whether a tracker is refused by 10.
fn is_malformed(tracker: &Tracker) -> bool {
    second().tick(tracker, 0, 0).verdict == Verdict::Refused(10)
}

#[test]
fn each_way_breaks_one_rule() {
    let inputs = Inputs::new(&second().rules, SEED);
    let mut met = vec![0; Way::ALL.len()];
    for index in 0..INPUTS {
        let Input::Tracker {
            way: Some(way),
            mut tracker,
            ..
        } = inputs.input(index)
        else {
            continue;
        };
        met[way as usize] += 1;
        assert!(is_malformed(&tracker), "{way:?} at input {index}");
        mend(way, &mut tracker);
        let still = is_malformed(&tracker);
        // There is no channel to mend in a tracker of zeros.
        let none = way == Way::AllZero;
        assert_eq!(still, none, "{way:?} at input {index}: {tracker:?}");
    }
    assert!(met.iter().all(|times| *times >= 20), "{met:?}");
}

#[test]
fn good_trackers_have_any_first_number() {
    let inputs = Inputs::new(&second().rules, SEED);
    let (mut ones, mut tight, mut largest) = (0, 0, 0);
    for index in 0..INPUTS {
        let Input::Tracker {
            way: None, tracker, ..
        } = inputs.input(index)
        else {
            continue;
        };
        assert!(!is_malformed(&tracker), "input {index}: {tracker:?}");
        for channel in 0..tracker.count {
            let (from, highest) = (tracker.from[channel], tracker.highest[channel]);
            ones += usize::from(from == 1);
            tight += usize::from(highest == from - 1);
            largest += usize::from(from == HIGHEST);
        }
    }
    let met = [ones, tight, largest];
    assert!(met.iter().all(|times| *times >= 20), "{met:?}");
}

//! The rules' cases of a join, by both receivers; all short lists of arrivals
//! on two lines, whose gaps are those of both histories; and the pairs of the
//! inputs, which are what they are said to be.

use super::histories::{arrivals_near, play, Arrival, History, CHANNEL, HIGHEST};
use super::samples::both;
use super::second;
use compare::inputs::{Beside, Differs, Input, Inputs, MadePair, Pair};
use compare::receiver::{Receiver, RequestAnswer, Tracker, Verdict, RUNS};
use Arrival::{Heartbeat, Tick};

/// The tracker of a line with one channel, from a first number on, to which
/// all this came; nothing of it is refused.
fn line(receiver: &dyn Receiver, first: i64, arrivals: &[Arrival]) -> Tracker {
    let fresh = receiver.set_up(&[CHANNEL], &[first]).tracker;
    played(receiver, fresh, CHANNEL, arrivals)
}

/// A tracker to which all this comes on a channel; nothing of it is refused.
fn played(
    receiver: &dyn Receiver,
    mut tracker: Tracker,
    channel: u16,
    arrivals: &[Arrival],
) -> Tracker {
    for arrival in arrivals {
        let answer = match *arrival {
            Tick(number) => receiver.tick(&tracker, channel, number),
            Heartbeat(last, end) => receiver.heartbeat(&tracker, channel, last, end),
        };
        let refused = matches!(answer.verdict, Verdict::Refused(_));
        assert!(!refused, "{arrival:?} on {tracker:?}");
        tracker = answer.next;
    }
    tracker
}

/// Ticks.
fn ticks(numbers: impl IntoIterator<Item = i64>) -> Vec<Arrival> {
    numbers.into_iter().map(Tick).collect()
}

/// Two trackers joined, in both orders to the same one.
fn joined(receiver: &dyn Receiver, one: &Tracker, two: &Tracker) -> Tracker {
    let (there, back) = (receiver.join(one, two), receiver.join(two, one));
    assert_eq!((there.refused, back.refused), (None, None));
    assert_eq!(there.next, back.next);
    there.next
}

/// Two trackers that are refused, in both orders, with the first as it stood.
fn refused(receiver: &dyn Receiver, one: &Tracker, two: &Tracker, refusal: u32) {
    for (one, two) in [(one, two), (two, one)] {
        let answer = receiver.join(one, two);
        assert_eq!((answer.refused, answer.next), (Some(refusal), *one));
    }
}

/// The runs of a channel, with zeros behind them.
fn runs(tracker: &Tracker, channel: usize) -> Vec<(u64, u64)> {
    let places = channel * RUNS..(channel + 1) * RUNS;
    let all = places.map(|place| (tracker.first[place], tracker.last[place]));
    let all: Vec<(u64, u64)> = all.collect();
    let (used, unused) = all.split_at(tracker.counts[channel]);
    assert!(unused.iter().all(|run| *run == (0, 0)), "{tracker:?}");
    used.to_vec()
}

#[test]
fn what_either_line_received_is_received() {
    for receiver in both() {
        let one = line(&*receiver, 1, &ticks([1, 2, 5, 9]));
        let two = line(&*receiver, 1, &ticks([1, 3, 5, 6, 9]));
        let next = joined(&*receiver, &one, &two);
        assert_eq!(runs(&next, 0), [(4, 4), (7, 8)]);
        assert_eq!(next.highest[0], 9);
        let rest = line(&*receiver, 1, &ticks([4, 7, 8, 9]));
        assert_eq!(runs(&joined(&*receiver, &next, &rest), 0), []);
    }
}

#[test]
fn the_highest_is_the_larger_one() {
    for receiver in both() {
        let low = line(&*receiver, 1, &ticks(1..=3));
        let high = line(&*receiver, 1, &ticks(1..=7));
        let next = joined(&*receiver, &low, &high);
        assert_eq!((next.highest[0], runs(&next, 0)), (7, vec![]));
        let heard = line(&*receiver, 1, &[Heartbeat(9, 0)]);
        let next = joined(&*receiver, &high, &heard);
        assert_eq!((next.highest[0], runs(&next, 0)), (9, vec![(8, 9)]));
    }
}

#[test]
fn behind_the_lower_highest_the_other_line_decides() {
    for receiver in both() {
        let low = line(&*receiver, 1, &ticks([1, 2, 4]));
        let high = line(&*receiver, 1, &ticks([2, 6, 9]));
        let next = joined(&*receiver, &low, &high);
        assert_eq!(runs(&next, 0), [(3, 3), (5, 5), (7, 8)]);
    }
}

#[test]
fn a_run_that_ends_at_the_lower_highest_goes_on() {
    for receiver in both() {
        let low = line(&*receiver, 1, &[Tick(2), Heartbeat(5, 0)]);
        let high = line(&*receiver, 1, &[Tick(2), Tick(9), Heartbeat(12, 0)]);
        let next = joined(&*receiver, &low, &high);
        assert_eq!(runs(&next, 0), [(1, 1), (3, 8), (10, 12)]);
        let higher = line(&*receiver, 1, &[Tick(2), Heartbeat(9, 0)]);
        let next = joined(&*receiver, &low, &higher);
        assert_eq!(runs(&next, 0), [(1, 1), (3, 9)]);
    }
}

#[test]
fn a_channel_has_ended_if_it_has_in_either() {
    for receiver in both() {
        let lines = [0, 1].map(|end| line(&*receiver, 1, &[Tick(3), Heartbeat(1, end)]));
        for one in &lines {
            for two in &lines {
                let next = joined(&*receiver, one, two);
                assert_eq!(next.ended[0], one.ended[0].max(two.ended[0]));
            }
        }
    }
}

#[test]
fn a_fresh_line_changes_nothing() {
    for receiver in both() {
        for first in [1, 1_000, HIGHEST] {
            let fresh = line(&*receiver, first, &[]);
            assert_eq!(joined(&*receiver, &fresh, &fresh), fresh);
            let came = line(&*receiver, first, &[Tick(first), Heartbeat(HIGHEST, 1)]);
            assert_eq!(joined(&*receiver, &fresh, &came), came);
        }
    }
}

#[test]
fn a_copy_changes_nothing() {
    for receiver in both() {
        let odd = full(&*receiver, 1);
        assert_eq!(runs(&odd, 0).len(), 32);
        assert_eq!(joined(&*receiver, &odd, &odd), odd);
    }
}

#[test]
fn the_largest_numbers_are_joined() {
    let highest = HIGHEST as u64;
    for receiver in both() {
        let one = line(&*receiver, 1, &ticks([HIGHEST]));
        let two = line(&*receiver, 1, &[Tick(2), Heartbeat(HIGHEST, 0)]);
        let next = joined(&*receiver, &one, &two);
        assert_eq!(runs(&next, 0), [(1, 1), (3, highest - 1)]);
        let low = line(&*receiver, 1, &ticks([1]));
        let next = joined(&*receiver, &low, &two);
        assert_eq!(runs(&next, 0), [(3, highest)]);
        let heard = line(&*receiver, HIGHEST, &[Heartbeat(HIGHEST, 0)]);
        let came = line(&*receiver, HIGHEST, &ticks([HIGHEST]));
        assert_eq!(runs(&heard, 0), [(highest, highest)]);
        assert_eq!(joined(&*receiver, &heard, &came), came);
    }
}

#[test]
fn each_channel_is_joined_by_itself() {
    for receiver in both() {
        let fresh = receiver.set_up(&[7, 8, 9], &[1, 1_000, 5]).tracker;
        let mut one = played(&*receiver, fresh, 7, &[Tick(3), Heartbeat(3, 1)]);
        one = played(&*receiver, one, 9, &ticks([9]));
        let mut two = played(&*receiver, fresh, 8, &ticks([1_002]));
        two = played(&*receiver, two, 9, &ticks([6, 12]));
        let next = joined(&*receiver, &one, &two);
        assert_eq!(next.highest[..3], [3, 1_002, 12]);
        assert_eq!(next.ended[..3], [1, 0, 0]);
        assert_eq!(runs(&next, 0), [(1, 2)]);
        assert_eq!(runs(&next, 1), [(1_000, 1_001)]);
        assert_eq!(runs(&next, 2), [(5, 5), (7, 8), (10, 11)]);
        assert_eq!((next.numbers, next.from), (fresh.numbers, fresh.from));
    }
}

#[test]
fn a_joined_tracker_is_played_on() {
    for receiver in both() {
        let one = line(&*receiver, 1, &ticks([5]));
        let two = line(&*receiver, 1, &ticks([2, 8]));
        let next = joined(&*receiver, &one, &two);
        assert_eq!(runs(&next, 0), [(1, 1), (3, 4), (6, 7)]);
        let tick = |number| receiver.tick(&next, CHANNEL, number).verdict;
        assert_eq!([tick(2), tick(5), tick(8)], [Verdict::Duplicate; 3]);
        assert_eq!([tick(1), tick(4), tick(7)], [Verdict::Late; 3]);
        assert_eq!(tick(9), Verdict::New);
        let mut output = [0; 56];
        let asked = receiver.request(&next, CHANNEL, &mut output);
        assert_eq!(asked, RequestAnswer::Written(56));
        assert_eq!(
            output[11..27],
            [0, 0, 0, 0, 0, 0, 0, 1, 0, 0, 0, 0, 0, 0, 0, 1]
        );
    }
}

#[test]
fn three_lines_are_joined_in_any_order() {
    for receiver in both() {
        let one = line(&*receiver, 1, &[Tick(1), Tick(6), Heartbeat(20, 0)]);
        let two = line(&*receiver, 1, &[Tick(3), Heartbeat(9, 1)]);
        let three = line(&*receiver, 1, &ticks([2, 6, 14]));
        let left = joined(&*receiver, &joined(&*receiver, &one, &two), &three);
        let right = joined(&*receiver, &one, &joined(&*receiver, &two, &three));
        assert_eq!(left, right);
        assert_eq!(runs(&left, 0), [(4, 5), (7, 13), (15, 20)]);
    }
}

/// A line with 32 runs: one number each, every second one from this one on.
fn full(receiver: &dyn Receiver, first: i64) -> Tracker {
    line(
        receiver,
        first,
        &ticks((1..=32).map(|run| first + 2 * run - 1)),
    )
}

/// Two lines that need so many runs below a number and above it: the first has
/// received nothing below, the second nothing above.
fn halves(receiver: &dyn Receiver, low: i64, high: i64) -> [Tracker; 2] {
    let middle = 1 + 2 * low;
    let mut one = vec![Heartbeat(middle - 1, 0), Tick(middle)];
    one.extend(ticks((1..=high).map(|run| middle + 2 * run)));
    let mut two = ticks((1..=low).map(|run| 2 * run));
    two.push(Tick(middle));
    two.push(Heartbeat(middle + 2 * high, 0));
    [one, two].map(|arrivals| line(receiver, 1, &arrivals))
}

#[test]
fn nine_is_for_a_33rd_run_and_32_fit() {
    for receiver in both() {
        for low in 1..=31 {
            for high in 1..=31 {
                let [one, two] = halves(&*receiver, low, high);
                if low + high > 32 {
                    refused(&*receiver, &one, &two, 9);
                    continue;
                }
                let next = joined(&*receiver, &one, &two);
                assert_eq!(runs(&next, 0).len() as i64, low + high);
            }
        }
    }
}

#[test]
fn full_tables_are_joined_where_they_need_no_more() {
    for receiver in both() {
        let odd = full(&*receiver, 1);
        let other = line(&*receiver, 1, &ticks((1..=32).map(|run| 2 * run - 1)));
        assert_eq!(runs(&other, 0).len(), 31);
        assert_eq!(runs(&joined(&*receiver, &odd, &other), 0), []);
        let wide = line(&*receiver, 1, &ticks((1..=16).map(|run| 4 * run)));
        assert_eq!((runs(&wide, 0).len(), wide.highest), (16, odd.highest));
        assert_eq!(joined(&*receiver, &odd, &wide), odd);
        let wider = line(&*receiver, 1, &ticks((1..=17).map(|run| 4 * run)));
        refused(&*receiver, &odd, &wider, 9);
    }
}

#[test]
fn a_last_run_that_goes_on_needs_no_place_more() {
    for receiver in both() {
        let mut low = ticks((1..=31).map(|run| 2 * run));
        let mut high = low.clone();
        low.push(Heartbeat(70, 0));
        high.push(Heartbeat(90, 0));
        let lines = [low, high].map(|arrivals| line(&*receiver, 1, &arrivals));
        let next = joined(&*receiver, &lines[0], &lines[1]);
        assert_eq!(runs(&next, 0).len(), 32);
        assert_eq!(runs(&next, 0)[31], (63, 90));
    }
}

#[test]
fn a_join_refused_by_9_changes_no_channel() {
    for receiver in both() {
        let pair = halves(&*receiver, 20, 20);
        for full in 0..3 {
            let lines = [0, 1].map(|which: usize| {
                let mut tracker = receiver.set_up(&[1, 2, 3], &[1; 3]).tracker;
                for channel in 0..3 {
                    let end = which as u8;
                    let came = [Tick(3 + which as i64), Heartbeat(1, end)];
                    tracker = played(&*receiver, tracker, 1 + channel, &came);
                }
                place(&mut tracker, full, &pair[which]);
                tracker
            });
            refused(&*receiver, &lines[0], &lines[1], 9);
        }
    }
}

/// Puts the one channel of a tracker at a place of another.
fn place(tracker: &mut Tracker, channel: usize, one: &Tracker) {
    tracker.from[channel] = one.from[0];
    tracker.highest[channel] = one.highest[0];
    tracker.counts[channel] = one.counts[0];
    let places = channel * RUNS..(channel + 1) * RUNS;
    tracker.first[places.clone()].copy_from_slice(&one.first[..RUNS]);
    tracker.last[places].copy_from_slice(&one.last[..RUNS]);
}

#[test]
fn set_ups_that_differ_are_11() {
    for receiver in both() {
        let set_up = |channels: &[u16], from: &[i64]| {
            let answer = receiver.set_up(channels, from);
            assert_eq!(answer.refused, None);
            answer.tracker
        };
        let one = set_up(&[1, 2, 3], &[1, 50, 100]);
        assert_eq!(joined(&*receiver, &one, &one), one);
        let others: [(&[u16], &[i64]); 9] = [
            (&[1, 2], &[1, 50]),
            (&[2, 3], &[50, 100]),
            (&[1, 2, 3, 4], &[1, 50, 100, 1]),
            (&[0, 2, 3], &[1, 50, 100]),
            (&[1, 2, 4], &[1, 50, 100]),
            (&[1, 2, 259], &[1, 50, 100]),
            (&[1, 2, 3], &[2, 50, 100]),
            (&[1, 2, 3], &[1, 50, 4_294_967_396]),
            (&[1, 2, 3], &[1, 100, 50]),
        ];
        for (channels, from) in others {
            refused(&*receiver, &one, &set_up(channels, from), 11);
        }
    }
}

/// A channel set up and played, and one that breaks a rule.
fn spoilt(tracker: &Tracker) -> Tracker {
    let mut spoilt = *tracker;
    spoilt.ended[0] = 2;
    spoilt
}

#[test]
fn ten_of_either_comes_before_11_and_11_before_9() {
    for receiver in both() {
        let [one, two] = halves(&*receiver, 20, 20);
        let mut other = two;
        other.numbers[0] += 1;
        refused(&*receiver, &one, &two, 9);
        refused(&*receiver, &one, &other, 11);
        refused(&*receiver, &spoilt(&one), &two, 10);
        refused(&*receiver, &spoilt(&one), &other, 10);
        refused(&*receiver, &one, &spoilt(&two), 10);
        refused(&*receiver, &one, &spoilt(&other), 10);
        refused(&*receiver, &spoilt(&one), &spoilt(&other), 10);
        refused(&*receiver, &one, &Tracker::ZERO, 10);
        refused(&*receiver, &Tracker::ZERO, &Tracker::ZERO, 10);
    }
}

#[test]
fn a_place_that_nobody_uses_is_10_in_either() {
    for receiver in both() {
        let good = line(&*receiver, 1, &ticks([3, 6]));
        let changes: [fn(&mut Tracker); 8] = [
            |tracker| tracker.numbers[7] = 1,
            |tracker| tracker.from[7] = 1,
            |tracker| tracker.highest[7] = 1,
            |tracker| tracker.ended[7] = 1,
            |tracker| tracker.counts[7] = 1,
            |tracker| tracker.first[255] = 1,
            |tracker| tracker.last[255] = 1,
            |tracker| tracker.last[2] = 1,
        ];
        for change in changes {
            let mut other = good;
            change(&mut other);
            refused(&*receiver, &good, &other, 10);
            refused(&*receiver, &other, &other, 10);
        }
    }
}

/// All lists of up to two of these arrivals.
fn short_lists(arrivals: &[Arrival]) -> Vec<Vec<Arrival>> {
    let mut lists = vec![Vec::new()];
    lists.extend(arrivals.iter().map(|one| vec![*one]));
    for one in arrivals {
        lists.extend(arrivals.iter().map(|two| vec![*one, *two]));
    }
    lists
}

/// Whether an arrival is accepted, at a table that is not full.
fn is_accepted(arrival: &Arrival) -> bool {
    match *arrival {
        Tick(number) => number >= 1,
        Heartbeat(last, _) => last >= 0,
    }
}

/// The history of a list.
fn history(first: i64, list: &[Arrival]) -> History {
    let fresh = History::new(first);
    list.iter().fold(fresh, |history, each| history.with(*each))
}

#[test]
fn every_two_arrivals_on_two_lines_leave_the_gaps_of_both_histories() {
    for first in [1, 2, 1_000, HIGHEST - 2, HIGHEST] {
        let near = arrivals_near(first, -1..=3);
        let near: Vec<Arrival> = near.into_iter().filter(is_accepted).collect();
        let lists = short_lists(&near);
        for receiver in both() {
            let lines: Vec<(Tracker, History)> = lists
                .iter()
                .map(|list| (line(&*receiver, first, list), history(first, list)))
                .collect();
            for (one, came) in &lines {
                for (two, other) in &lines {
                    let answer = receiver.join(one, two);
                    let next = came.and(other).tracker();
                    let told = (answer.refused, answer.next);
                    assert_eq!(told, (None, next), "{one:?}\n{two:?}");
                }
            }
        }
    }
}

#[test]
fn a_join_is_both_lists_played_into_one() {
    for first in [1, 1_000, HIGHEST - 1] {
        let near = arrivals_near(first, -1..=3);
        let near: Vec<Arrival> = near.into_iter().filter(is_accepted).collect();
        let lists = short_lists(&near);
        for receiver in both() {
            let all = |list: &Vec<Arrival>| line(&*receiver, first, list);
            let lines: Vec<Tracker> = lists.iter().map(all).collect();
            for (one, list) in lines.iter().zip(&lists) {
                for (two, more) in lines.iter().zip(&lists) {
                    let next = played(&*receiver, *one, CHANNEL, more);
                    assert_eq!(receiver.join(one, two).next, next, "{list:?} {more:?}");
                }
            }
        }
    }
}

#[test]
fn arrivals_behind_a_join_are_answered_by_both_histories() {
    let first = 1_000;
    let near = arrivals_near(first, -1..=3);
    let lists: Vec<Vec<Arrival>> = near.iter().map(|each| vec![*each]).collect();
    for receiver in both() {
        for one in &lists {
            for two in &lists {
                let both = history(first, one).and(&history(first, two));
                let [one, two] = [one, two].map(|list| line(&*receiver, first, list));
                assert_eq!(joined(&*receiver, &one, &two), both.tracker());
                play(&*receiver, &both, &near, 1);
            }
        }
    }
}

const INPUTS: u64 = 30_000;
const SEED: u64 = 20_170_401;

/// Whether a tracker is refused by 10.
fn is_malformed(tracker: &Tracker) -> bool {
    second().tick(tracker, 0, 0).verdict == Verdict::Refused(10)
}

/// A tracker with those of its channels alone that another one has too, from
/// the same first number on.
fn shared(tracker: &Tracker, other: &Tracker) -> Tracker {
    let set_up = |of: &Tracker, at: usize| (of.numbers[at], of.from[at]);
    let has = |at: &usize| (0..other.count).any(|each| set_up(other, each) == set_up(tracker, *at));
    let mut kept = Tracker::ZERO;
    for (to, at) in (0..tracker.count).filter(has).enumerate() {
        let mut one = Tracker::ZERO;
        (one.from[0], one.highest[0]) = (tracker.from[at], tracker.highest[at]);
        one.counts[0] = tracker.counts[at];
        one.first[..RUNS].copy_from_slice(&tracker.first[at * RUNS..][..RUNS]);
        one.last[..RUNS].copy_from_slice(&tracker.last[at * RUNS..][..RUNS]);
        (kept.count, kept.numbers[to]) = (to + 1, tracker.numbers[at]);
        place(&mut kept, to, &one);
    }
    kept
}

/// Whether a pair of well-formed trackers is what it is said to be.
fn is_as_said(pair: &Pair) -> bool {
    let (one, two) = (&pair.tracker, &pair.other);
    let same = (one.count, one.numbers, one.from) == (two.count, two.numbers, two.from);
    let MadePair::Differs { how, beside } = pair.made else {
        return same;
    };
    let (mut one, mut two) = (*one, *two);
    match how {
        Differs::AllChannels => two.numbers = one.numbers,
        _ => (one, two) = (shared(&one, &two), shared(&two, &one)),
    }
    let refused = second().join(&one, &two).refused;
    !same && refused == (beside == Beside::Nine).then_some(9)
}

#[test]
fn pairs_are_what_they_are_said_to_be() {
    let inputs = Inputs::new(&second().rules, SEED);
    let mut met = 0;
    for index in 0..INPUTS {
        let Input::Joins { pairs } = inputs.input(index) else {
            continue;
        };
        for pair in pairs {
            let broken = [&pair.tracker, &pair.other].map(is_malformed);
            let said = match pair.made {
                MadePair::Malformed { both, .. } => [true, both],
                _ => [false, false],
            };
            assert_eq!(broken, said, "input {index}: {pair}");
            if said == [false, false] {
                assert!(is_as_said(&pair), "input {index}: {pair}");
                met += 1;
            }
        }
    }
    assert!(met >= 1_000, "{met}");
}

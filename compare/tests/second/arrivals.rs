//! The rules' cases of the tracker.

use super::samples::both;
use super::second;
use compare::receiver::{Receiver, Tracker, Verdict};

const CHANNEL: u16 = 2011;
const HIGHEST: i64 = 9_223_372_036_854_775_807;
/// A board's first number where it joins at noon.
const NOON: i64 = 1_000;

/// A receiver's tracker of one channel, played on.
struct Played {
    receiver: Box<dyn Receiver>,
    tracker: Tracker,
}

impl Played {
    /// The second program's, from 1 on.
    fn new() -> Played {
        Played::set_up(Box::new(second()), 1)
    }

    fn set_up(receiver: Box<dyn Receiver>, first: i64) -> Played {
        let answer = receiver.set_up(&[CHANNEL], &[first]);
        assert_eq!(answer.refused, None);
        Played {
            receiver,
            tracker: answer.tracker,
        }
    }

    /// The second program's and the product's, from a first number on.
    fn both(first: i64) -> [Played; 2] {
        both().map(|receiver| Played::set_up(receiver, first))
    }

    /// A tick; a refusal, and before start, gives the tracker back.
    fn tick(&mut self, number: i64) -> Verdict {
        let answer = self.receiver.tick(&self.tracker, CHANNEL, number);
        if let Verdict::Refused(_) | Verdict::BeforeStart = answer.verdict {
            assert_eq!(answer.next, self.tracker);
        }
        self.tracker = answer.next;
        answer.verdict
    }

    /// A channel heartbeat; a refusal gives the tracker back.
    fn heartbeat(&mut self, last: i64, end: u8) -> Verdict {
        let answer = self.receiver.heartbeat(&self.tracker, CHANNEL, last, end);
        if let Verdict::Refused(_) = answer.verdict {
            assert_eq!(answer.next, self.tracker);
        }
        self.tracker = answer.next;
        answer.verdict
    }

    /// The runs, and zeros behind them.
    fn missing(&self) -> Vec<(u64, u64)> {
        let count = self.tracker.counts[0];
        assert!(self.tracker.first[count..].iter().all(|place| *place == 0));
        assert!(self.tracker.last[count..].iter().all(|place| *place == 0));
        let runs = self
            .tracker
            .first
            .iter()
            .zip(&self.tracker.last)
            .take(count);
        runs.map(|(first, last)| (*first, *last)).collect()
    }
}

#[test]
fn ticks_1_2_5_in_two_orders() {
    for order in [[1, 2, 5], [5, 2, 1]] {
        let mut played = Played::new();
        for number in order {
            assert_ne!(played.tick(number), Verdict::Duplicate);
        }
        assert_eq!(played.missing(), [(3, 4)]);
        assert_eq!(played.tick(3), Verdict::Late);
        assert_eq!(played.missing(), [(4, 4)]);
        assert_eq!(played.heartbeat(7, 0), Verdict::Heard);
        assert_eq!(played.missing(), [(4, 4), (6, 7)]);
        assert_eq!(played.tracker.highest[0], 7);
    }
}

#[test]
fn duplicate_and_below_range() {
    let mut played = Played::new();
    assert_eq!(played.tick(5), Verdict::New);
    assert_eq!(played.tick(5), Verdict::Duplicate);
    assert_eq!(played.tick(0), Verdict::Refused(8));
    assert_eq!(played.tick(-1), Verdict::Refused(8));
    assert_eq!(played.heartbeat(-1, 1), Verdict::Refused(8));
    assert_eq!(played.heartbeat(0, 0), Verdict::Heard);
    assert_eq!(played.missing(), [(1, 4)]);
}

#[test]
fn last_number_0_is_accepted() {
    let mut played = Played::new();
    assert_eq!(played.heartbeat(0, 0), Verdict::Heard);
    assert_eq!(played.tracker, Played::new().tracker);
}

#[test]
fn first_tick_is_the_highest_number() {
    let mut played = Played::new();
    assert_eq!(played.tick(HIGHEST), Verdict::New);
    assert_eq!(played.missing(), [(1, HIGHEST as u64 - 1)]);
    assert_eq!(played.heartbeat(HIGHEST, 1), Verdict::Heard);
    assert_eq!(played.tick(HIGHEST), Verdict::Duplicate);
}

/// Ticks 2, 4, up to 64.
fn full() -> Played {
    let mut played = Played::new();
    (1..=32).for_each(|half| assert_eq!(played.tick(2 * half), Verdict::New));
    assert_eq!(played.missing().len(), 32);
    played
}

#[test]
fn a_33rd_run_is_9() {
    let mut played = full();
    assert_eq!(played.tick(66), Verdict::Refused(9));
    assert_eq!(played.heartbeat(66, 1), Verdict::Refused(9));
    assert_eq!(played.tracker.ended[0], 0);
    assert_eq!(played.tick(65), Verdict::New);
    assert_eq!(played.tick(1), Verdict::Late);
    assert_eq!(played.missing().len(), 31);
    assert_eq!(played.tick(67), Verdict::New);
    assert_eq!(played.missing().len(), 32);
}

#[test]
fn a_split_of_a_full_table_is_9() {
    let mut played = Played::new();
    (1..=32).for_each(|tenth| assert_eq!(played.tick(10 * tenth), Verdict::New));
    assert_eq!(played.tick(15), Verdict::Refused(9));
    assert_eq!(played.tick(11), Verdict::Late);
    assert_eq!(played.tick(19), Verdict::Late);
    assert_eq!(played.missing()[1], (12, 18));
}

#[test]
fn a_run_that_ends_at_the_highest_grows() {
    let mut played = Played::new();
    played.tick(3);
    played.heartbeat(7, 0);
    assert_eq!(played.tick(11), Verdict::New);
    assert_eq!(played.missing(), [(1, 2), (4, 10)]);
    played.heartbeat(13, 0);
    played.heartbeat(20, 0);
    assert_eq!(played.missing(), [(1, 2), (4, 10), (12, 20)]);
}

#[test]
fn a_full_table_takes_what_needs_no_run() {
    let mut played = Played::new();
    (1..=31).for_each(|half| assert_eq!(played.tick(2 * half), Verdict::New));
    played.heartbeat(70, 0);
    assert_eq!(played.missing().len(), 32);
    assert_eq!(played.heartbeat(90, 1), Verdict::Heard);
    assert_eq!(played.tick(100), Verdict::New);
    assert_eq!(played.missing()[31], (63, 99));
    assert_eq!(played.heartbeat(50, 0), Verdict::Heard);
    assert_eq!(played.tracker.ended[0], 1);
}

#[test]
fn late_number_leaves_its_run() {
    let mut played = Played::new();
    played.tick(10);
    assert_eq!(played.tick(5), Verdict::Late);
    assert_eq!(played.missing(), [(1, 4), (6, 9)]);
    assert_eq!(played.tick(5), Verdict::Duplicate);
    (1..=4).for_each(|number| assert_eq!(played.tick(number), Verdict::Late));
    assert_eq!(played.missing(), [(6, 9)]);
}

#[test]
fn end_mark_stays() {
    let mut played = Played::new();
    played.heartbeat(0, 1);
    assert_eq!(played.tracker.ended[0], 1);
    played.heartbeat(3, 0);
    assert_eq!(played.tick(2), Verdict::Late);
    assert_eq!(played.tracker.ended[0], 1);
}

#[test]
fn set_up_refuses_bad_lists() {
    let bad: [&[u16]; 4] = [&[], &[1, 2, 3, 4, 5, 6, 7, 8, 9], &[2, 2], &[3, 2]];
    for list in bad {
        refused(list, &vec![1; list.len()]);
    }
    let good = second().set_up(&[0, 1, 2, 3, 4, 5, 6, 65_535], &[1; 8]);
    assert_eq!((good.refused, good.tracker.count), (None, 8));
}

/// Both receivers refuse the lists by 10, and later calls too.
fn refused(channels: &[u16], from: &[i64]) {
    for receiver in both() {
        let answer = receiver.set_up(channels, from);
        assert_eq!((answer.refused, answer.tracker), (Some(10), Tracker::ZERO));
        let later = receiver.tick(&answer.tracker, 2, 0);
        assert_eq!(
            (later.verdict, later.next),
            (Verdict::Refused(10), Tracker::ZERO)
        );
    }
}

#[test]
fn first_numbers_below_1_are_10() {
    for low in [0, -1, -NOON, i64::MIN] {
        refused(&[CHANNEL], &[low]);
        refused(&[2011, 2012], &[1, low]);
        refused(&[2011, 2012], &[low, 1]);
        refused(&[1, 2, 3, 4, 5, 6, 7, 8], &[1, 1, 1, 1, 1, 1, 1, low]);
    }
}

#[test]
fn lists_of_different_lengths_are_10() {
    let channels = [1, 2, 3, 4, 5, 6, 7, 8, 9];
    for count in 0..=9 {
        for firsts in (0..=9).filter(|firsts| *firsts != count) {
            refused(&channels[..count], &[NOON; 9][..firsts]);
        }
    }
    for receiver in both() {
        for count in 1..=8 {
            let answer = receiver.set_up(&channels[..count], &[NOON; 9][..count]);
            assert_eq!((answer.refused, answer.tracker.count), (None, count));
        }
    }
}

#[test]
fn each_channel_begins_one_below_its_first_number() {
    for receiver in both() {
        let answer = receiver.set_up(&[0, 2011, 65_535], &[NOON, 1, HIGHEST]);
        assert_eq!(answer.refused, None);
        let mut fresh = Tracker::ZERO;
        fresh.count = 3;
        fresh.numbers[..3].copy_from_slice(&[0, 2011, 65_535]);
        fresh.from[..3].copy_from_slice(&[1_000, 1, 9_223_372_036_854_775_807]);
        fresh.highest[..3].copy_from_slice(&[999, 0, 9_223_372_036_854_775_806]);
        assert_eq!(answer.tracker, fresh);
    }
}

#[test]
fn a_tick_below_the_first_number_is_before_start() {
    for mut played in Played::both(NOON) {
        for number in [999, 998, 500, 1] {
            assert_eq!(played.tick(number), Verdict::BeforeStart);
        }
        assert_eq!(played.tick(1_003), Verdict::New);
        assert_eq!(played.tick(999), Verdict::BeforeStart);
        assert_eq!(played.missing(), [(1_000, 1_002)]);
        assert_eq!(played.heartbeat(1_005, 1), Verdict::Heard);
        assert_eq!(played.tick(1), Verdict::BeforeStart);
        assert_eq!(played.missing(), [(1_000, 1_002), (1_004, 1_005)]);
    }
}

#[test]
fn the_first_number_itself_counts() {
    for mut played in Played::both(NOON) {
        assert_eq!(played.tick(1_000), Verdict::New);
        assert_eq!(played.tracker.highest[0], 1_000);
        assert_eq!(played.missing(), []);
        assert_eq!(played.tick(1_000), Verdict::Duplicate);
        assert_eq!(played.tick(999), Verdict::BeforeStart);
    }
    for mut played in Played::both(NOON) {
        assert_eq!(played.heartbeat(1_000, 0), Verdict::Heard);
        assert_eq!(played.missing(), [(1_000, 1_000)]);
        assert_eq!(played.tick(1_000), Verdict::Late);
        assert_eq!(played.missing(), []);
    }
}

#[test]
fn gaps_run_from_the_first_number() {
    for order in [[1_000, 1_001, 1_004], [1_004, 1_001, 1_000]] {
        for mut played in Played::both(NOON) {
            for number in order {
                assert_ne!(played.tick(number), Verdict::Duplicate);
            }
            assert_eq!(played.missing(), [(1_002, 1_003)]);
        }
    }
    for mut played in Played::both(NOON) {
        assert_eq!(played.tick(1_005), Verdict::New);
        assert_eq!(played.missing(), [(1_000, 1_004)]);
        assert_eq!(played.heartbeat(1_008, 0), Verdict::Heard);
        assert_eq!(played.missing(), [(1_000, 1_004), (1_006, 1_008)]);
    }
}

#[test]
fn a_last_number_below_the_first_sets_only_the_mark() {
    for mut played in Played::both(NOON) {
        let mut fresh = played.tracker;
        for last in [999, 998, 1, 0] {
            assert_eq!(played.heartbeat(last, 0), Verdict::Heard);
        }
        assert_eq!(played.tracker, fresh);
        assert_eq!(played.heartbeat(5, 1), Verdict::Heard);
        fresh.ended[0] = 1;
        assert_eq!(played.tracker, fresh);
        assert_eq!(played.heartbeat(999, 0), Verdict::Heard);
        assert_eq!(played.tracker, fresh);
        assert_eq!(played.tick(1_002), Verdict::New);
        assert_eq!(played.missing(), [(1_000, 1_001)]);
    }
}

#[test]
fn the_largest_first_number_lets_one_number_come() {
    for mut played in Played::both(HIGHEST) {
        assert_eq!(played.tracker.highest[0], HIGHEST as u64 - 1);
        assert_eq!(played.tick(HIGHEST - 1), Verdict::BeforeStart);
        assert_eq!(played.heartbeat(HIGHEST - 1, 0), Verdict::Heard);
        assert_eq!(played.missing(), []);
        assert_eq!(played.tick(HIGHEST), Verdict::New);
        assert_eq!(played.tracker.highest[0], HIGHEST as u64);
        assert_eq!(played.tick(HIGHEST), Verdict::Duplicate);
        assert_eq!(played.heartbeat(HIGHEST, 0), Verdict::Heard);
        assert_eq!(played.missing(), []);
    }
    for mut played in Played::both(HIGHEST) {
        assert_eq!(played.heartbeat(HIGHEST, 0), Verdict::Heard);
        assert_eq!(played.missing(), [(HIGHEST as u64, HIGHEST as u64)]);
        assert_eq!(played.tick(HIGHEST), Verdict::Late);
        assert_eq!(played.missing(), []);
    }
}

#[test]
fn before_start_is_judged_after_8_and_before_9() {
    for mut played in Played::both(NOON) {
        (0..32).for_each(|run| assert_eq!(played.tick(1_001 + 2 * run), Verdict::New));
        assert_eq!(played.missing().len(), 32);
        assert_eq!(played.tick(1_065), Verdict::Refused(9));
        for low in [0, -1, i64::MIN] {
            assert_eq!(played.tick(low), Verdict::Refused(8));
        }
        for number in [1, 2, 999] {
            assert_eq!(played.tick(number), Verdict::BeforeStart);
        }
        assert_eq!(played.heartbeat(-1, 1), Verdict::Refused(8));
        assert_eq!(played.tracker.ended[0], 0);
        assert_eq!(played.heartbeat(999, 1), Verdict::Heard);
        assert_eq!(played.tracker.ended[0], 1);
        let other = played.receiver.tick(&played.tracker, 2012, 1);
        assert_eq!(other.verdict, Verdict::Refused(7));
        played.tracker.ended[0] = 2;
        assert_eq!(played.tick(1), Verdict::Refused(10));
        assert_eq!(played.tick(999), Verdict::Refused(10));
    }
}

#[test]
fn a_channel_is_judged_by_its_own_first_number() {
    for receiver in both() {
        let tracker = receiver.set_up(&[2011, 2013], &[1, NOON]).tracker;
        assert_eq!(receiver.tick(&tracker, 2011, 5).verdict, Verdict::New);
        let low = receiver.tick(&tracker, 2013, 5);
        assert_eq!((low.verdict, low.next), (Verdict::BeforeStart, tracker));
        let next = receiver.tick(&tracker, 2013, 1_002).next;
        assert_eq!(
            (next.counts, next.first[32], next.last[32]),
            ([0, 1, 0, 0, 0, 0, 0, 0], 1_000, 1_001)
        );
        assert_eq!(next.from, tracker.from);
    }
}

#[test]
fn channel_not_in_the_tracker_is_7() {
    let tracker = second().set_up(&[2011, 2013], &[1, 1]).tracker;
    assert_eq!(
        second().tick(&tracker, 2012, 0).verdict,
        Verdict::Refused(7)
    );
    assert_eq!(second().tick(&tracker, 0, 1).verdict, Verdict::Refused(7));
    assert_eq!(
        second().heartbeat(&tracker, 2012, -1, 1).verdict,
        Verdict::Refused(7)
    );
    let next = second().tick(&tracker, 2013, 2).next;
    assert_eq!(
        (next.counts, next.first[32], next.last[32]),
        ([0, 1, 0, 0, 0, 0, 0, 0], 1, 1)
    );
}

/// A tracker that breaks a rule is refused before all else.
fn malformed(change: impl Fn(&mut Tracker)) {
    let mut tracker = full().tracker;
    assert_eq!(second().tick(&tracker, 9, 0).verdict, Verdict::Refused(7));
    change(&mut tracker);
    let answer = second().tick(&tracker, 9, 0);
    assert_eq!(
        (answer.verdict, answer.next),
        (Verdict::Refused(10), tracker)
    );
}

#[test]
fn malformed_trackers_are_10() {
    malformed(|tracker| tracker.count = 0);
    malformed(|tracker| tracker.count = 9);
    malformed(|tracker| tracker.count = 2);
    malformed(|tracker| tracker.numbers[1] = 3000);
    malformed(|tracker| tracker.highest[7] = 1);
    malformed(|tracker| tracker.ended[7] = 1);
    malformed(|tracker| tracker.ended[0] = 2);
    malformed(|tracker| tracker.counts[7] = 1);
    malformed(|tracker| tracker.last[255] = 1);
    malformed(|tracker| tracker.highest[0] = HIGHEST as u64 + 1);
    malformed(|tracker| tracker.highest[0] = 62);
    malformed(|tracker| tracker.counts[0] = 33);
    malformed(|tracker| tracker.counts[0] = 31);
    malformed(|tracker| tracker.first[0] = 0);
    malformed(|tracker| tracker.last[0] = 2);
    malformed(|tracker| tracker.first[1] = 4);
}

/// Both receivers refuse a channel with this first and highest number and
/// these runs, by 10, or none does.
fn judged(from: u64, highest: u64, runs: &[(u64, u64)], malformed: bool) {
    let mut tracker = Tracker::ZERO;
    (tracker.count, tracker.numbers[0]) = (1, CHANNEL);
    (tracker.from[0], tracker.highest[0]) = (from, highest);
    tracker.counts[0] = runs.len();
    for (place, run) in runs.iter().enumerate() {
        (tracker.first[place], tracker.last[place]) = *run;
    }
    let refusal = if malformed { 10 } else { 7 };
    for receiver in both() {
        let answer = receiver.tick(&tracker, 9, 0);
        assert_eq!(
            (answer.verdict, answer.next),
            (Verdict::Refused(refusal), tracker)
        );
        let answer = receiver.heartbeat(&tracker, 9, -1, 1);
        assert_eq!(
            (answer.verdict, answer.next),
            (Verdict::Refused(refusal), tracker)
        );
    }
}

#[test]
fn trackers_that_do_not_fit_their_first_number_are_10() {
    let largest = HIGHEST as u64;
    judged(1, 0, &[], false);
    judged(0, 0, &[], true);
    judged(0, 5, &[(1, 4)], true);
    judged(largest, largest - 1, &[], false);
    judged(largest, largest, &[(largest, largest)], false);
    judged(largest + 1, largest, &[], true);
    judged(1_000, 999, &[], false);
    judged(1_000, 998, &[], true);
    judged(1_000, 0, &[], true);
    judged(1_000, 1_005, &[(1_000, 1_004)], false);
    judged(1_000, 1_005, &[(999, 1_004)], true);
    judged(1_000, 1_005, &[(5, 7)], true);
    judged(1_000, 999, &[(5, 999)], true);
    judged(1_000, 1_005, &[(5, 7), (1_000, 1_004)], true);
    malformed(|tracker| tracker.from[0] = 2);
    malformed(|tracker| tracker.from[0] = 0);
    malformed(|tracker| tracker.from[1] = 1);
    malformed(|tracker| tracker.from[7] = 1);
}

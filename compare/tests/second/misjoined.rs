//! Receivers that get a join wrong, and nothing else.

use compare::product::STRAY;
use compare::receiver::{JoinAnswer, Receiver, Tracker, Verdict, CHANNELS, RUNS};
use compare::second::Second;

/// Ways to get a join wrong.
#[derive(Clone, Copy, PartialEq, Eq, Debug)]
pub enum Misjoin {
    /// None: a join in another way than the second program's.
    Nothing,
    GapsOfTheFirst,
    GapsOfTheSecond,
    GapsOfTheHigher,
    GapsOfTheFirstOfEqual,
    GapsOfEither,
    OverlapsOnce,
    OverlapsWithoutTheFirst,
    OverlapsWithoutTheLast,
    BehindIsReceived,
    BehindIsMissing,
    BehindFromOneFurther,
    BehindFromTheHighest,
    TouchingRunsApart,
    SmallerHighest,
    HighestOfTheFirst,
    HighestOfTheSecond,
    MarkOfTheFirst,
    MarkOfTheSecond,
    MarkOfBoth,
    MarkOfTheHigher,
    MarkAlways,
    ChangesNothing,
    JoinsTheFirstChannel,
    LeavesOutTheLastChannel,
    OldRunsBehind,
    OldRunCount,
    LastNumbersBehind,
    DropsThe33rd,
    NineAt32,
    NineByBothCounts,
    NineBeforeTheyTouch,
    NineOfTheFirstChannel,
    NineOfTheLastChannel,
    NineWithoutTheFirstChannel,
    NineBeforeEleven,
    NineBeforeTen,
    ElevenBeforeTen,
    TenForEleven,
    ElevenForNine,
    AcceptsAMalformedFirst,
    AcceptsAMalformedSecond,
    AcceptsOtherCounts,
    AcceptsMoreChannels,
    AcceptsFewerChannels,
    AcceptsOtherChannels,
    ComparesOneChannel,
    ComparesLowBytes,
    AcceptsOtherFirsts,
    AcceptsLaterFirsts,
    AcceptsEarlierFirsts,
    ComparesOneFirst,
    ComparesLowHalves,
    ComparesFirstsInAnyOrder,
    HalfWritten,
    HalfWrittenBeforeEleven,
    RefusalSetsTheMarks,
    RefusalRaisesTheHighest,
    RefusalGivesTheSecond,
    RefusalGivesZeros,
    ChangesTheSecond,
}

/// Those that leave another tracker, or are refused where they should not be.
pub const OF_JOINED: [Misjoin; 32] = [
    Misjoin::GapsOfTheFirst,
    Misjoin::GapsOfTheSecond,
    Misjoin::GapsOfTheHigher,
    Misjoin::GapsOfTheFirstOfEqual,
    Misjoin::GapsOfEither,
    Misjoin::OverlapsOnce,
    Misjoin::OverlapsWithoutTheFirst,
    Misjoin::OverlapsWithoutTheLast,
    Misjoin::BehindIsReceived,
    Misjoin::BehindIsMissing,
    Misjoin::BehindFromOneFurther,
    Misjoin::BehindFromTheHighest,
    Misjoin::TouchingRunsApart,
    Misjoin::SmallerHighest,
    Misjoin::HighestOfTheFirst,
    Misjoin::HighestOfTheSecond,
    Misjoin::MarkOfTheFirst,
    Misjoin::MarkOfTheSecond,
    Misjoin::MarkOfBoth,
    Misjoin::MarkOfTheHigher,
    Misjoin::MarkAlways,
    Misjoin::ChangesNothing,
    Misjoin::JoinsTheFirstChannel,
    Misjoin::LeavesOutTheLastChannel,
    Misjoin::OldRunsBehind,
    Misjoin::OldRunCount,
    Misjoin::LastNumbersBehind,
    Misjoin::NineAt32,
    Misjoin::NineByBothCounts,
    Misjoin::NineBeforeTheyTouch,
    Misjoin::ChangesTheSecond,
    Misjoin::DropsThe33rd,
];

/// Those that answer another refusal, or none.
pub const OF_REFUSALS: [Misjoin; 22] = [
    Misjoin::NineOfTheFirstChannel,
    Misjoin::NineOfTheLastChannel,
    Misjoin::NineWithoutTheFirstChannel,
    Misjoin::NineBeforeEleven,
    Misjoin::NineBeforeTen,
    Misjoin::ElevenBeforeTen,
    Misjoin::TenForEleven,
    Misjoin::ElevenForNine,
    Misjoin::AcceptsAMalformedFirst,
    Misjoin::AcceptsAMalformedSecond,
    Misjoin::AcceptsOtherCounts,
    Misjoin::AcceptsMoreChannels,
    Misjoin::AcceptsFewerChannels,
    Misjoin::AcceptsOtherChannels,
    Misjoin::ComparesOneChannel,
    Misjoin::ComparesLowBytes,
    Misjoin::AcceptsOtherFirsts,
    Misjoin::AcceptsLaterFirsts,
    Misjoin::AcceptsEarlierFirsts,
    Misjoin::ComparesOneFirst,
    Misjoin::ComparesLowHalves,
    Misjoin::ComparesFirstsInAnyOrder,
];

/// Those that do not give the first tracker back beside a refusal.
pub const OF_KEPT: [Misjoin; 6] = [
    Misjoin::HalfWritten,
    Misjoin::HalfWrittenBeforeEleven,
    Misjoin::RefusalSetsTheMarks,
    Misjoin::RefusalRaisesTheHighest,
    Misjoin::RefusalGivesTheSecond,
    Misjoin::RefusalGivesZeros,
];

/// A run of missing numbers: its first and its last.
type Run = (u64, u64);

/// The channels that two trackers, also malformed ones, both have.
fn common(tracker: &Tracker, other: &Tracker) -> usize {
    tracker.count.min(other.count).min(CHANNELS)
}

/// A channel's runs; the tracker may be malformed.
fn runs_of(tracker: &Tracker, channel: usize) -> Vec<Run> {
    let count = tracker.counts[channel].min(RUNS);
    let places = channel * RUNS..channel * RUNS + count;
    places
        .map(|place| (tracker.first[place], tracker.last[place]))
        .collect()
}

/// What is in a run of each.
fn in_both(one: &[Run], two: &[Run]) -> Vec<Run> {
    let pairs = one.iter().flat_map(|a| two.iter().map(move |b| (a, b)));
    pairs
        .map(|(a, b)| (a.0.max(b.0), a.1.min(b.1)))
        .filter(|run| run.0 <= run.1)
        .collect()
}

/// What is in a run of either.
fn in_either(one: &[Run], two: &[Run]) -> Vec<Run> {
    let mut all = [one, two].concat();
    all.sort_unstable();
    let mut runs: Vec<Run> = Vec::new();
    for run in all {
        match runs.last_mut() {
            Some(last) if run.0 <= last.1.saturating_add(1) => last.1 = last.1.max(run.1),
            _ => runs.push(run),
        }
    }
    runs
}

impl Misjoin {
    /// A join, broken.
    pub fn join(self, second: &Second, tracker: &Tracker, other: &Tracker) -> JoinAnswer {
        let refused = self.refusal(second, tracker, other);
        let next = match refused {
            None => self.joined(tracker, other),
            Some(number) => self.kept(number, tracker, other),
        };
        let refused = match (self, refused) {
            (Misjoin::TenForEleven, Some(11)) => Some(10),
            (Misjoin::ElevenForNine, Some(9)) => Some(11),
            (Misjoin::ChangesTheSecond, None) => Some(STRAY),
            _ => refused,
        };
        JoinAnswer { refused, next }
    }

    /// What refuses a join, in an order.
    fn refusal(self, second: &Second, tracker: &Tracker, other: &Tracker) -> Option<u32> {
        let order = match self {
            Misjoin::NineBeforeEleven => [10, 9, 11],
            Misjoin::NineBeforeTen => [9, 10, 11],
            Misjoin::ElevenBeforeTen => [11, 10, 9],
            _ => [10, 11, 9],
        };
        order.into_iter().find(|number| match number {
            10 => self.is_malformed(second, tracker, other),
            11 => self.differ(tracker, other),
            _ => self.is_overfull(tracker, other),
        })
    }

    /// Whether one of two trackers breaks a rule.
    fn is_malformed(self, second: &Second, tracker: &Tracker, other: &Tracker) -> bool {
        let broken = |each: &Tracker| second.tick(each, 0, 0).verdict == Verdict::Refused(10);
        match self {
            Misjoin::AcceptsAMalformedFirst => broken(other),
            Misjoin::AcceptsAMalformedSecond => broken(tracker),
            _ => broken(tracker) || broken(other),
        }
    }

    /// Whether two set-ups differ.
    fn differ(self, tracker: &Tracker, other: &Tracker) -> bool {
        let counts = match self {
            Misjoin::AcceptsOtherCounts => false,
            Misjoin::AcceptsMoreChannels => other.count < tracker.count,
            Misjoin::AcceptsFewerChannels => tracker.count < other.count,
            _ => tracker.count != other.count,
        };
        let channels = 0..common(tracker, other);
        counts || self.channels_differ(tracker, other) || {
            let (mut one, mut two) = (tracker.from, other.from);
            if self == Misjoin::ComparesFirstsInAnyOrder {
                one[channels.clone()].sort_unstable();
                two[channels.clone()].sort_unstable();
            }
            channels
                .into_iter()
                .any(|at| self.firsts_differ(at, one[at], two[at]))
        }
    }

    /// Whether channel numbers of two set-ups differ.
    fn channels_differ(self, tracker: &Tracker, other: &Tracker) -> bool {
        (0..common(tracker, other)).any(|at| {
            let (one, two) = (tracker.numbers[at], other.numbers[at]);
            match self {
                Misjoin::AcceptsOtherChannels => false,
                Misjoin::ComparesOneChannel => at == 0 && one != two,
                Misjoin::ComparesLowBytes => one as u8 != two as u8,
                _ => one != two,
            }
        })
    }

    /// Whether the first numbers of two channels at a place differ.
    fn firsts_differ(self, at: usize, one: u64, two: u64) -> bool {
        match self {
            Misjoin::AcceptsOtherFirsts => false,
            Misjoin::AcceptsLaterFirsts => two < one,
            Misjoin::AcceptsEarlierFirsts => one < two,
            Misjoin::ComparesOneFirst => at == 0 && one != two,
            Misjoin::ComparesLowHalves => one as u32 != two as u32,
            _ => one != two,
        }
    }

    /// Whether a channel would need a run more than there is place for.
    fn is_overfull(self, tracker: &Tracker, other: &Tracker) -> bool {
        let last = common(tracker, other).saturating_sub(1);
        let judged = |channel: &usize| match self {
            Misjoin::NineOfTheFirstChannel => *channel == 0,
            Misjoin::NineOfTheLastChannel => *channel == last,
            Misjoin::NineWithoutTheFirstChannel => *channel > 0,
            _ => true,
        };
        let most = match self {
            Misjoin::NineAt32 => RUNS - 1,
            Misjoin::DropsThe33rd => usize::MAX,
            _ => RUNS,
        };
        let mut channels = (0..common(tracker, other)).filter(judged);
        channels.any(|channel| self.needs(tracker, other, channel) > most)
    }

    /// How many runs a channel would need.
    fn needs(self, tracker: &Tracker, other: &Tracker, channel: usize) -> usize {
        match self {
            Misjoin::NineByBothCounts => tracker.counts[channel] + other.counts[channel],
            Misjoin::NineBeforeTheyTouch => {
                let apart = Misjoin::TouchingRunsApart;
                apart.gaps(tracker, other, channel).len()
            }
            _ => self.gaps(tracker, other, channel).len(),
        }
    }

    /// A channel's gaps.
    fn gaps(self, tracker: &Tracker, other: &Tracker, channel: usize) -> Vec<Run> {
        let (one, two) = (tracker.highest[channel], other.highest[channel]);
        let to = one.max(two);
        let missing = self.overlaps(
            &self.unreceived(tracker, channel, to),
            &self.unreceived(other, channel, to),
        );
        match self {
            Misjoin::GapsOfTheFirst => runs_of(tracker, channel),
            Misjoin::GapsOfTheSecond => runs_of(other, channel),
            Misjoin::GapsOfTheHigher if one < two => runs_of(other, channel),
            Misjoin::GapsOfTheHigher if two < one => runs_of(tracker, channel),
            Misjoin::GapsOfTheFirstOfEqual if one == two => runs_of(tracker, channel),
            Misjoin::GapsOfEither => {
                in_either(&runs_of(tracker, channel), &runs_of(other, channel))
            }
            Misjoin::BehindIsMissing if one != two => {
                in_either(&missing, &[(one.min(two) + 1, to)])
            }
            _ => missing,
        }
    }

    /// What is in a run of each.
    fn overlaps(self, one: &[Run], two: &[Run]) -> Vec<Run> {
        let mut runs = in_both(one, two);
        match self {
            Misjoin::OverlapsOnce => {
                let within = |run: &Run, of: &Run| of.0 <= run.0 && run.1 <= of.1;
                let whole = |run: &Run| one.iter().find(|of| within(run, of));
                runs.dedup_by_key(|run| whole(run));
            }
            Misjoin::OverlapsWithoutTheFirst => runs.iter_mut().for_each(|run| run.0 += 1),
            Misjoin::OverlapsWithoutTheLast => runs.iter_mut().for_each(|run| run.1 -= 1),
            _ => {}
        }
        runs.retain(|run| run.0 <= run.1);
        runs
    }

    /// What a line did not receive of a channel, up to a number.
    fn unreceived(self, tracker: &Tracker, channel: usize, to: u64) -> Vec<Run> {
        let mut runs = runs_of(tracker, channel);
        let highest = tracker.highest[channel];
        let behind = match self {
            Misjoin::BehindFromOneFurther => highest.saturating_add(2),
            Misjoin::BehindFromTheHighest => highest.max(tracker.from[channel]),
            _ => highest.saturating_add(1),
        };
        if highest >= to || behind > to || self == Misjoin::BehindIsReceived {
            return runs;
        }
        match self {
            Misjoin::TouchingRunsApart => runs.push((behind, to)),
            _ => runs = in_either(&runs, &[(behind, to)]),
        }
        runs
    }

    /// The joined tracker.
    fn joined(self, tracker: &Tracker, other: &Tracker) -> Tracker {
        let mut next = *tracker;
        let count = common(tracker, other);
        let channels = match self {
            Misjoin::ChangesNothing => 0..0,
            Misjoin::JoinsTheFirstChannel => 0..1,
            Misjoin::LeavesOutTheLastChannel => 0..count.saturating_sub(1),
            _ => 0..count,
        };
        channels.for_each(|channel| self.lay(&mut next, tracker, other, channel));
        next
    }

    /// Joins a channel.
    fn lay(self, next: &mut Tracker, tracker: &Tracker, other: &Tracker, channel: usize) {
        let gaps = self.gaps(tracker, other, channel);
        if self != Misjoin::OldRunCount {
            next.counts[channel] = gaps.len().min(RUNS);
        }
        for place in 0..RUNS {
            let at = channel * RUNS + place;
            match gaps.get(place) {
                Some(run) => (next.first[at], next.last[at]) = *run,
                None if self == Misjoin::OldRunsBehind => {}
                None if self == Misjoin::LastNumbersBehind => next.first[at] = 0,
                None => (next.first[at], next.last[at]) = (0, 0),
            }
        }
        next.highest[channel] = self.highest(tracker.highest[channel], other.highest[channel]);
        next.ended[channel] = self.mark(tracker, other, channel);
    }

    /// A channel's highest number.
    fn highest(self, one: u64, two: u64) -> u64 {
        match self {
            Misjoin::SmallerHighest => one.min(two),
            Misjoin::HighestOfTheFirst => one,
            Misjoin::HighestOfTheSecond => two,
            _ => one.max(two),
        }
    }

    /// A channel's ended mark.
    fn mark(self, tracker: &Tracker, other: &Tracker, channel: usize) -> u8 {
        let (one, two) = (tracker.ended[channel], other.ended[channel]);
        match self {
            Misjoin::MarkOfTheFirst => one,
            Misjoin::MarkOfTheSecond => two,
            Misjoin::MarkOfBoth => one & two,
            Misjoin::MarkOfTheHigher if tracker.highest[channel] < other.highest[channel] => two,
            Misjoin::MarkOfTheHigher if tracker.highest[channel] > other.highest[channel] => one,
            Misjoin::MarkAlways => 1,
            _ => one | two,
        }
    }

    /// What a refused join leaves.
    fn kept(self, refusal: u32, tracker: &Tracker, other: &Tracker) -> Tracker {
        let mut next = *tracker;
        match (self, refusal) {
            (Misjoin::RefusalGivesTheSecond, _) => next = *other,
            (Misjoin::RefusalGivesZeros, _) => next = Tracker::ZERO,
            (Misjoin::HalfWritten, 9) | (Misjoin::HalfWrittenBeforeEleven, 11) => {
                self.lay_in_front(&mut next, tracker, other)
            }
            (Misjoin::RefusalSetsTheMarks, 9) => (0..tracker.count).for_each(|channel| {
                next.ended[channel] = self.mark(tracker, other, channel);
            }),
            (Misjoin::RefusalRaisesTheHighest, 9) => (0..tracker.count).for_each(|channel| {
                let (one, two) = (tracker.highest[channel], other.highest[channel]);
                next.highest[channel] = one.max(two);
            }),
            _ => {}
        }
        next
    }

    /// Joins the channels in front of the first one that cannot be joined.
    fn lay_in_front(self, next: &mut Tracker, tracker: &Tracker, other: &Tracker) {
        for channel in 0..common(tracker, other) {
            let set_up = |of: &Tracker| (of.numbers[channel], of.from[channel]);
            let differ = set_up(tracker) != set_up(other);
            if differ || self.needs(tracker, other, channel) > RUNS {
                return;
            }
            self.lay(next, tracker, other, channel);
        }
    }
}

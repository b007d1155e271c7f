//! Receivers that get a channel's first number wrong, and nothing else.

use compare::receiver::{
    ArrivalAnswer, Receiver, RequestAnswer, SetUpAnswer, Tracker, Verdict, RUNS,
};
use compare::second::Second;

/// Ways to get a first number wrong.
#[derive(Clone, Copy, PartialEq, Eq, Debug)]
pub enum Start {
    TakesZero,
    TakesNegative,
    TakesFewer,
    TakesMore,
    RefusalKeepsTheLists,
    HighestAtTheFirst,
    HighestAtZero,
    ForgetsTheFirst,
    OneForAll,
    BelowIsDuplicate,
    BelowIsEight,
    BelowIsLate,
    BelowLowersTheFirst,
    BelowSetsTheMark,
    AtIsBelow,
    BelowBeforeEight,
    BelowBeforeSeven,
    BelowBeforeTen,
    NineBeforeBelow,
    GapsFromOne,
    GapsBehindTheFirst,
    LowLastSetsNoMark,
    LowLastIsBelow,
    LowLastIsEight,
    LowLastIsTheHighest,
    AcceptsZero,
    AcceptsAboveTheLimit,
    AcceptsALowHighest,
    AcceptsALowRun,
    AcceptsAnUnusedOne,
}

/// Those that a set-up tells.
pub const OF_SET_UPS: [Start; 9] = [
    Start::TakesZero,
    Start::TakesNegative,
    Start::TakesFewer,
    Start::TakesMore,
    Start::RefusalKeepsTheLists,
    Start::HighestAtTheFirst,
    Start::HighestAtZero,
    Start::ForgetsTheFirst,
    Start::OneForAll,
];

/// Those that a tick tells.
pub const OF_TICKS: [Start; 10] = [
    Start::BelowIsDuplicate,
    Start::BelowIsEight,
    Start::BelowIsLate,
    Start::BelowLowersTheFirst,
    Start::BelowSetsTheMark,
    Start::AtIsBelow,
    Start::BelowBeforeEight,
    Start::BelowBeforeSeven,
    Start::BelowBeforeTen,
    Start::NineBeforeBelow,
];

/// Those that a tick or a heartbeat tells, by the runs that it leaves.
pub const OF_GAPS: [Start; 2] = [Start::GapsFromOne, Start::GapsBehindTheFirst];

/// Those that a heartbeat tells.
pub const OF_HEARTBEATS: [Start; 4] = [
    Start::LowLastSetsNoMark,
    Start::LowLastIsBelow,
    Start::LowLastIsEight,
    Start::LowLastIsTheHighest,
];

/// Those that accept a malformed tracker.
pub const OF_TRACKERS: [Start; 5] = [
    Start::AcceptsZero,
    Start::AcceptsAboveTheLimit,
    Start::AcceptsALowHighest,
    Start::AcceptsALowRun,
    Start::AcceptsAnUnusedOne,
];

/// The largest first number.
const LARGEST: u64 = i64::MAX as u64;

/// The place of a channel.
fn place_of(tracker: &Tracker, channel: u16) -> Option<usize> {
    let used = tracker.numbers.get(..tracker.count)?;
    used.iter().position(|number| *number == channel)
}

impl Start {
    /// A set-up, broken.
    pub fn set_up(self, second: &Second, channels: &[u16], from: &[i64]) -> SetUpAnswer {
        let mut answer = second.set_up(channels, &self.taken(channels, from));
        let tracker = &mut answer.tracker;
        match self {
            Start::TakesZero | Start::TakesNegative if answer.refused.is_none() => {
                let held = tracker.from.iter_mut().zip(from);
                held.for_each(|(place, first)| *place = *first as u64);
            }
            Start::RefusalKeepsTheLists => {
                let held = tracker.from.iter_mut().zip(from);
                held.for_each(|(place, first)| *place = *first as u64);
            }
            Start::HighestAtTheFirst => tracker.highest = tracker.from,
            Start::HighestAtZero => tracker.highest = [0; 8],
            Start::ForgetsTheFirst => tracker.from[..tracker.count].fill(1),
            _ => {}
        }
        answer
    }

    /// The first numbers that a set-up takes for those handed in.
    fn taken(self, channels: &[u16], from: &[i64]) -> Vec<i64> {
        let mut taken = from.to_vec();
        match self {
            Start::TakesZero => taken.iter_mut().for_each(|first| {
                if *first == 0 {
                    *first = 1;
                }
            }),
            Start::TakesNegative => taken.iter_mut().for_each(|first| {
                if *first < 0 {
                    *first = 1;
                }
            }),
            Start::TakesFewer if from.len() < channels.len() => taken.resize(channels.len(), 1),
            Start::TakesMore => taken.truncate(channels.len()),
            Start::OneForAll => taken.fill(from.first().copied().unwrap_or(1)),
            _ => {}
        }
        taken
    }

    /// A tick, broken.
    pub fn tick(
        self,
        second: &Second,
        tracker: &Tracker,
        channel: u16,
        number: i64,
    ) -> ArrivalAnswer {
        let mut answer = second.tick(&self.looked_at(tracker), channel, number);
        answer.next.from = tracker.from;
        match answer.verdict {
            Verdict::BeforeStart => self.break_below(tracker, channel, number, &mut answer),
            Verdict::Refused(refusal) => {
                if self.is_below(tracker, channel, number, refusal) {
                    answer.verdict = Verdict::BeforeStart;
                }
            }
            _ => self.break_counted(tracker, channel, number, &mut answer),
        }
        answer
    }

    /// A tick before start, broken.
    fn break_below(self, tracker: &Tracker, channel: u16, number: i64, answer: &mut ArrivalAnswer) {
        let Some(place) = place_of(tracker, channel) else {
            return;
        };
        match self {
            Start::BelowIsDuplicate => answer.verdict = Verdict::Duplicate,
            Start::BelowIsEight => answer.verdict = Verdict::Refused(8),
            Start::BelowIsLate => answer.verdict = Verdict::Late,
            Start::BelowLowersTheFirst => answer.next.from[place] = number as u64,
            Start::BelowSetsTheMark => answer.next.ended[place] = 1,
            Start::NineBeforeBelow if tracker.counts[place] == RUNS => {
                answer.verdict = Verdict::Refused(9)
            }
            _ => {}
        }
    }

    /// Whether a refused tick is answered before start.
    fn is_below(self, tracker: &Tracker, channel: u16, number: i64, refusal: u32) -> bool {
        let below = |first: &u64| number >= 1 && (number as u64) < *first;
        match (self, refusal) {
            (Start::BelowBeforeEight, 8) => true,
            (Start::BelowBeforeSeven, 7) => tracker.from[..tracker.count].iter().all(below),
            (Start::BelowBeforeTen, 10) => {
                place_of(tracker, channel).is_some_and(|place| below(&tracker.from[place]))
            }
            _ => false,
        }
    }

    /// A tick that counts, broken.
    fn break_counted(
        self,
        tracker: &Tracker,
        channel: u16,
        number: i64,
        answer: &mut ArrivalAnswer,
    ) {
        let Some(place) = place_of(tracker, channel) else {
            return;
        };
        if self == Start::AtIsBelow && number as u64 == tracker.from[place] {
            *answer = ArrivalAnswer {
                verdict: Verdict::BeforeStart,
                next: *tracker,
            };
        }
        self.break_gaps(place, &mut answer.next);
    }

    /// A run that begins at the first number, broken.
    fn break_gaps(self, place: usize, next: &mut Tracker) {
        let from = next.from[place];
        let (first, last) = (&mut next.first[place * RUNS], next.last[place * RUNS]);
        match self {
            Start::GapsFromOne if *first == from => *first = 1,
            Start::GapsBehindTheFirst if *first == from && from < last => *first += 1,
            _ => {}
        }
    }

    /// A channel heartbeat, broken.
    pub fn heartbeat(
        self,
        second: &Second,
        tracker: &Tracker,
        channel: u16,
        last: i64,
        end: u8,
    ) -> ArrivalAnswer {
        let mut answer = second.heartbeat(&self.looked_at(tracker), channel, last, end);
        answer.next.from = tracker.from;
        let Some(place) = place_of(tracker, channel) else {
            return answer;
        };
        if answer.verdict != Verdict::Heard {
            return answer;
        }
        if (last as u64) < tracker.from[place] {
            self.break_low_last(tracker, place, last as u64, &mut answer);
        }
        self.break_gaps(place, &mut answer.next);
        answer
    }

    /// A last number below the first number, broken.
    fn break_low_last(
        self,
        tracker: &Tracker,
        place: usize,
        last: u64,
        answer: &mut ArrivalAnswer,
    ) {
        match self {
            Start::LowLastSetsNoMark => answer.next = *tracker,
            Start::LowLastIsBelow => answer.verdict = Verdict::BeforeStart,
            Start::LowLastIsEight => {
                *answer = ArrivalAnswer {
                    verdict: Verdict::Refused(8),
                    next: *tracker,
                }
            }
            Start::LowLastIsTheHighest => answer.next.highest[place] = last,
            _ => {}
        }
    }

    /// A request, broken.
    pub fn request(
        self,
        second: &Second,
        tracker: &Tracker,
        channel: u16,
        output: &mut [u8],
    ) -> RequestAnswer {
        second.request(&self.looked_at(tracker), channel, output)
    }

    /// The tracker as it is judged: with other first numbers, where those that
    /// it has are malformed in a way that is accepted.
    fn looked_at(self, tracker: &Tracker) -> Tracker {
        let mut seen = *tracker;
        for place in 0..seen.from.len() {
            let used = place < tracker.count;
            let (first, highest) = (tracker.first[place * RUNS], tracker.highest[place]);
            let from = &mut seen.from[place];
            match self {
                Start::AcceptsZero if used && *from == 0 => *from = 1,
                Start::AcceptsAboveTheLimit if used => *from = (*from).min(LARGEST),
                Start::AcceptsALowHighest if used && highest < *from => *from = highest + 1,
                Start::AcceptsALowRun if used && 0 < first && first < *from => *from = first,
                Start::AcceptsAnUnusedOne if !used => *from = 0,
                _ => {}
            }
        }
        seen
    }
}

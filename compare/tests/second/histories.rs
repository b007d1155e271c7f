//! All short lists of arrivals around a first number: answers and gaps are
//! those of the history, which knows no runs.

use super::samples::both;
use compare::receiver::{Receiver, Tracker, Verdict};
use std::collections::BTreeSet;
use std::ops::RangeInclusive;

pub const CHANNEL: u16 = 2011;
pub const HIGHEST: i64 = 9_223_372_036_854_775_807;

#[derive(Clone, Copy, Debug)]
pub enum Arrival {
    Tick(i64),
    Heartbeat(i64, u8),
}

/// What was accepted on a channel: the numbers that came, the highest that
/// came or was announced, and whether an end was.
#[derive(Clone)]
pub struct History {
    first: i64,
    came: BTreeSet<i64>,
    highest: i64,
    ended: bool,
}

impl History {
    pub fn new(first: i64) -> History {
        History {
            first,
            came: BTreeSet::new(),
            highest: first - 1,
            ended: false,
        }
    }

    /// The answer to an arrival.
    fn answer(&self, arrival: Arrival) -> Verdict {
        match arrival {
            Arrival::Tick(number) if number < 1 => Verdict::Refused(8),
            Arrival::Tick(number) if number < self.first => Verdict::BeforeStart,
            Arrival::Tick(number) if number > self.highest => Verdict::New,
            Arrival::Tick(number) if self.came.contains(&number) => Verdict::Duplicate,
            Arrival::Tick(_) => Verdict::Late,
            Arrival::Heartbeat(last, _) if last < 0 => Verdict::Refused(8),
            Arrival::Heartbeat(..) => Verdict::Heard,
        }
    }

    /// The history with an arrival that is accepted.
    pub fn with(&self, arrival: Arrival) -> History {
        let mut next = self.clone();
        let (Arrival::Tick(number) | Arrival::Heartbeat(number, _)) = arrival;
        next.highest = next.highest.max(number);
        match arrival {
            Arrival::Tick(number) => drop(next.came.insert(number)),
            Arrival::Heartbeat(_, end) => next.ended |= end != 0,
        }
        next
    }

    /// The history of two lines: what came to either.
    pub fn and(&self, other: &History) -> History {
        History {
            first: self.first,
            came: self.came.union(&other.came).copied().collect(),
            highest: self.highest.max(other.highest),
            ended: self.ended || other.ended,
        }
    }

    /// The tracker whose gaps are the numbers from the first to the highest,
    /// less those that came.
    pub fn tracker(&self) -> Tracker {
        let mut tracker = Tracker::ZERO;
        (tracker.count, tracker.numbers[0]) = (1, CHANNEL);
        (tracker.from[0], tracker.highest[0]) = (self.first as u64, self.highest as u64);
        tracker.ended[0] = u8::from(self.ended);
        let mut runs = 0;
        let missing = (self.first..=self.highest).filter(|number| !self.came.contains(number));
        for number in missing.map(|number| number as u64) {
            if runs == 0 || tracker.last[runs - 1] + 1 < number {
                tracker.first[runs] = number;
                runs += 1;
            }
            tracker.last[runs - 1] = number;
        }
        tracker.counts[0] = runs;
        tracker
    }
}

/// Plays all lists of so many arrivals behind a history.
pub fn play(receiver: &dyn Receiver, history: &History, arrivals: &[Arrival], more: usize) {
    let tracker = history.tracker();
    for arrival in arrivals {
        let answer = match *arrival {
            Arrival::Tick(number) => receiver.tick(&tracker, CHANNEL, number),
            Arrival::Heartbeat(last, end) => receiver.heartbeat(&tracker, CHANNEL, last, end),
        };
        let verdict = history.answer(*arrival);
        let next = match verdict {
            Verdict::Refused(_) => history.clone(),
            _ => history.with(*arrival),
        };
        assert_eq!(answer.verdict, verdict, "{arrival:?} on {tracker:?}");
        assert_eq!(answer.next, next.tracker(), "{arrival:?} on {tracker:?}");
        if more > 1 {
            play(receiver, &next, arrivals, more - 1);
        }
    }
}

/// Ticks and channel heartbeats, without and with an end, of numbers so far
/// beside a first number.
pub fn arrivals_near(first: i64, beside: RangeInclusive<i64>) -> Vec<Arrival> {
    let near = beside.filter_map(|beside| first.checked_add(beside));
    near.flat_map(|number| {
        let heard = [0, 1].map(|end| Arrival::Heartbeat(number, end));
        [Arrival::Tick(number), heard[0], heard[1]]
    })
    .collect()
}

#[test]
fn every_three_arrivals_leave_the_gaps_of_their_history() {
    for first in [1, 2, 1_000, HIGHEST - 2, HIGHEST] {
        let arrivals = arrivals_near(first, -2..=4);
        for receiver in both() {
            let fresh = receiver.set_up(&[CHANNEL], &[first]);
            let history = History::new(first);
            assert_eq!((fresh.refused, fresh.tracker), (None, history.tracker()));
            play(&*receiver, &history, &arrivals, 3);
        }
    }
}

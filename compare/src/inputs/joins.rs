//! Pairs of trackers to be joined: of one set-up, with runs that lie beside
//! each other in each way; of set-ups that differ; malformed ones. What each
//! pair is joined to is known from how it was made.

use super::dice::Dice;
use super::lists::{channels, first_number};
use super::plans::{few, laid, Plan, Shape};
use super::trackers::{spoil, take_runs, Way, HIGHEST};
use super::Input;
use crate::receiver::{Tracker, CHANNELS, RUNS};
use std::fmt;

/// The ways for two set-ups to differ.
#[derive(Clone, Copy, PartialEq, Eq, Debug)]
pub enum Differs {
    LastChannelLacks,
    OtherChannelLacks,
    ChannelNumber,
    FirstNumber,
    FirstNumbersSwapped,
    AllChannels,
}

impl Differs {
    pub const ALL: [Differs; 6] = [
        Differs::LastChannelLacks,
        Differs::OtherChannelLacks,
        Differs::ChannelNumber,
        Differs::FirstNumber,
        Differs::FirstNumbersSwapped,
        Differs::AllChannels,
    ];

    pub fn name(self) -> &'static str {
        match self {
            Differs::LastChannelLacks => "one lacks the last channel",
            Differs::OtherChannelLacks => "one lacks another channel",
            Differs::ChannelNumber => "one channel number",
            Differs::FirstNumber => "one first number",
            Differs::FirstNumbersSwapped => "first numbers swapped",
            Differs::AllChannels => "other channels",
        }
    }
}

/// What else would refuse a join that is refused.
#[derive(Clone, Copy, PartialEq, Eq, Debug)]
pub enum Beside {
    Nothing,
    /// Set-ups that differ.
    Eleven,
    /// A channel that would need a 33rd run.
    Nine,
}

/// How a pair was made.
#[derive(Clone, Copy, PartialEq, Eq, Debug)]
pub enum Made {
    /// The runs of the channel at a place; no other channel can need too many.
    Shaped {
        shape: Shape,
        place: usize,
    },
    Differs {
        how: Differs,
        beside: Beside,
    },
    /// The first is malformed, or both are.
    Malformed {
        way: Way,
        both: bool,
        beside: Beside,
    },
}

/// Two trackers to be joined, in both orders; and what they are joined to, or
/// what refuses them.
#[derive(Clone, PartialEq, Eq, Debug)]
pub struct Pair {
    pub made: Made,
    pub tracker: Tracker,
    pub other: Tracker,
    pub joined: Result<Tracker, u32>,
}

impl fmt::Display for Pair {
    fn fmt(&self, out: &mut fmt::Formatter<'_>) -> fmt::Result {
        let (made, one, two) = (self.made, &self.tracker, &self.other);
        write!(out, "\n{made:?}\n{one:?}\n{two:?}")
    }
}

/// A pair of one set-up, each shape in turn, and two of set-ups that differ,
/// each way in turn: with few runs, and with a channel of both that would need
/// a 33rd.
pub fn good(dice: &mut Dice, turn: u64) -> Input {
    let shape = Shape::ALL[(turn % Shape::ALL.len() as u64) as usize];
    let how = Differs::ALL[(turn % Differs::ALL.len() as u64) as usize];
    let pairs = vec![
        of_one_set_up(dice, shape),
        of_two_set_ups(dice, how, Beside::Nothing),
        of_two_set_ups(dice, how, Beside::Nine),
    ];
    Input::Joins { pairs }
}

/// A pair of one set-up, with a shape on one of its channels.
fn of_one_set_up(dice: &mut Dice, shape: Shape) -> Pair {
    let pieces = match dice.below(8) {
        0 => 0,
        1 | 2 => 32,
        3 => 33,
        4 => 34 + dice.below(29) as usize,
        _ => 1 + dice.below(31) as usize,
    };
    let count = 1 + dice.below(8) as usize;
    let place = dice.below(count as u64) as usize;
    let mut plans = few(dice, count);
    plans[place] = Plan::any(dice, shape, pieces, RUNS);
    if pieces == RUNS {
        plans[place].trim(RUNS);
    }
    let (tracker, other, joined) = laid(dice, &plans);
    Pair {
        made: Made::Shaped { shape, place },
        tracker,
        other,
        joined,
    }
}

/// A pair of set-ups that differ in a way.
fn of_two_set_ups(dice: &mut Dice, how: Differs, beside: Beside) -> Pair {
    let count = 3 + dice.below(6) as usize;
    let place = dice.below(count as u64 - 1) as usize;
    let mut plans = few(dice, count);
    if beside == Beside::Nine {
        let pieces = 33 + dice.below(29) as usize;
        plans[place] = Plan::interleaved(dice, pieces);
    }
    let (mut tracker, mut other, _) = laid(dice, &plans);
    differ(dice, how, place, &mut tracker, &mut other);
    Pair {
        made: Made::Differs { how, beside },
        tracker,
        other,
        joined: Err(11),
    }
}

/// Makes the set-ups of two trackers of 3 channels or more differ in a way; the
/// channel at a place, which is not the last, stays as it is in both.
fn differ(dice: &mut Dice, how: Differs, place: usize, one: &mut Tracker, two: &mut Tracker) {
    let count = two.count;
    let others: Vec<usize> = (0..count).filter(|each| *each != place).collect();
    let at = dice.below(others.len() as u64 - 1) as usize;
    let (some, next) = (others[at], others[at + 1]);
    match how {
        Differs::LastChannelLacks => take_channel(two, count - 1),
        Differs::OtherChannelLacks => take_channel(two, some),
        Differs::ChannelNumber => renumber(dice, &others, two),
        Differs::FirstNumber => restart(dice, some, two),
        Differs::FirstNumbersSwapped => swap_firsts(dice, [some, next], one, two),
        Differs::AllChannels => {
            while two.numbers == one.numbers {
                two.numbers[..count].copy_from_slice(&channels(dice, count));
            }
        }
    }
}

/// Takes a channel out of a tracker.
fn take_channel(tracker: &mut Tracker, channel: usize) {
    let old = *tracker;
    let kept = (0..old.count).filter(|each| *each != channel);
    *tracker = Tracker::ZERO;
    tracker.count = old.count - 1;
    for (to, from) in kept.enumerate() {
        tracker.numbers[to] = old.numbers[from];
        tracker.from[to] = old.from[from];
        tracker.highest[to] = old.highest[from];
        tracker.ended[to] = old.ended[from];
        tracker.counts[to] = old.counts[from];
        let (to, from) = (to * RUNS, from * RUNS);
        tracker.first[to..to + RUNS].copy_from_slice(&old.first[from..from + RUNS]);
        tracker.last[to..to + RUNS].copy_from_slice(&old.last[from..from + RUNS]);
    }
}

/// Gives one of these channels another number, or where none has room any
/// other.
fn renumber(dice: &mut Dice, some: &[usize], tracker: &mut Tracker) {
    let used = &tracker.numbers[..tracker.count];
    let free = |at: usize| {
        let low = at.checked_sub(1).map_or(0, |before| used[before] + 1);
        let high = used.get(at + 1).map_or(u16::MAX, |behind| behind - 1);
        let number = used[at];
        let beside = [number.wrapping_add(1), number.wrapping_sub(1)];
        let others = [low, high, beside[0], beside[1], number ^ 0x100];
        let fits = move |each: &u16| *each != number && low <= *each && *each <= high;
        others.into_iter().filter(fits).map(move |each| (at, each))
    };
    let mut all: Vec<(usize, u16)> = some.iter().flat_map(|at| free(*at)).collect();
    if all.is_empty() {
        all = (0..used.len()).flat_map(free).collect();
    }
    let (at, number) = dice.pick(&all);
    tracker.numbers[at] = number;
}

/// Gives a channel another first number, and keeps what came where that can
/// be.
fn restart(dice: &mut Dice, channel: usize, tracker: &mut Tracker) {
    let from = tracker.from[channel];
    let first = match tracker.counts[channel] {
        0 => tracker.highest[channel] + 1,
        _ => tracker.first[channel * RUNS],
    };
    let far = from.saturating_sub(1 << 32);
    let others = [from - 1, from - 1, from / 2, 1, far, from + 1, first];
    let fits = |each: &u64| *each != from && 1 <= *each && *each <= first.min(HIGHEST);
    let others: Vec<u64> = others.into_iter().filter(fits).collect();
    if others.is_empty() {
        // The first number is 1, and did not come.
        take_runs(tracker, channel);
        tracker.from[channel] = 2;
        tracker.highest[channel] = tracker.highest[channel].max(1);
        return;
    }
    tracker.from[channel] = dice.pick(&others);
}

/// Gives two channels of both trackers first numbers, the one's in the other
/// order; nothing is missing there.
fn swap_firsts(dice: &mut Dice, places: [usize; 2], one: &mut Tracker, two: &mut Tracker) {
    let low = (first_number(dice) as u64).min(HIGHEST - 1);
    let high = low + 1 + dice.below((HIGHEST - low).min(1_000));
    for (tracker, firsts) in [(one, [low, high]), (two, [high, low])] {
        for (place, first) in places.into_iter().zip(firsts) {
            take_runs(tracker, place);
            tracker.from[place] = first;
            tracker.highest[place] = high;
        }
    }
}

/// Pairs of which one is malformed, and both are, each way in turn: alone,
/// beside set-ups that differ, and beside channels that would need a 33rd run.
pub fn malformed(dice: &mut Dice, turn: u64) -> Input {
    let way = Way::ALL[(turn % Way::ALL.len() as u64) as usize];
    let besides = [Beside::Nothing, Beside::Eleven, Beside::Nine];
    let pairs = besides
        .into_iter()
        .flat_map(|beside| [false, true].map(|both| spoilt(dice, way, both, beside)))
        .collect();
    Input::Joins { pairs }
}

/// A pair of which the first is malformed in a way, or both are.
fn spoilt(dice: &mut Dice, way: Way, both: bool, beside: Beside) -> Pair {
    let count = 3 + dice.below((CHANNELS - 3) as u64) as usize;
    let plans: Vec<Plan> = (0..count)
        .map(|_| {
            let pieces = match beside {
                Beside::Nine => 33 + dice.below(28),
                _ => 3 + dice.below(30),
            };
            Plan::interleaved(dice, pieces as usize)
        })
        .collect();
    let (mut tracker, mut other, _) = laid(dice, &plans);
    if beside == Beside::Eleven {
        let how = dice.pick(&[
            Differs::LastChannelLacks,
            Differs::OtherChannelLacks,
            Differs::ChannelNumber,
        ]);
        differ(dice, how, 0, &mut tracker, &mut other);
    }
    spoil(dice, way, &mut tracker);
    match both {
        true if beside == Beside::Nothing && dice.one_in(2) => other = tracker,
        true => spoil(dice, way, &mut other),
        false => {}
    }
    Pair {
        made: Made::Malformed { way, both, beside },
        tracker,
        other,
        joined: Err(10),
    }
}

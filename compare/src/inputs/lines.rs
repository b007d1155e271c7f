//! Two lines of the same feed, each with its own losses, whose trackers are
//! joined, played on and joined again.

use super::dice::Dice;
use super::trackers::{full_table, leave_room, starts, walk, wide_runs};
use super::{Call, Input, Lists};

/// A call on the tracker of one of two lines, or a join of it with the other's.
#[derive(Clone, Copy, PartialEq, Eq, Debug)]
pub enum Step {
    On(usize, Call),
    Join(usize),
}

/// Two or three times calls on both lines, and joins.
pub fn lines(dice: &mut Dice) -> Input {
    let count = 1 + dice.below(3) as usize;
    let mut lists = Lists::good(dice, count);
    leave_room(&mut lists);
    let mut steps = Vec::new();
    for part in 0..2 + dice.below(2) as i64 {
        let calls = both(dice, &lists, part);
        shuffle(dice, calls, &mut steps);
        let line = dice.below(2) as usize;
        steps.push(Step::Join(line));
        if dice.one_in(3) {
            steps.push(Step::Join(1 - line));
        }
    }
    Input::Lines { lists, steps }
}

/// What comes on each line in a part of the day.
fn both(dice: &mut Dice, lists: &Lists, part: i64) -> [Vec<Call>; 2] {
    match dice.below(9) {
        0..=2 => feed(dice, lists, part),
        3 | 4 => halves(dice, lists),
        5 => [(); 2].map(|()| some(dice, lists, walk)),
        6 => [(); 2].map(|()| some(dice, lists, starts)),
        7 => splits(dice, lists),
        _ => [full_table(dice, lists), some(dice, lists, wide_runs)],
    }
}

/// Some calls of a kind.
fn some(dice: &mut Dice, lists: &Lists, kind: fn(&mut Dice, &Lists) -> Vec<Call>) -> Vec<Call> {
    let mut calls = kind(dice, lists);
    calls.truncate(8 + dice.below(12) as usize);
    calls
}

/// Twenty numbers of a channel, of which each line loses some and has some
/// twice; at times a heartbeat tells the last.
fn feed(dice: &mut Dice, lists: &Lists, part: i64) -> [Vec<Call>; 2] {
    let place = lists.a_place(dice);
    let channel = lists.channels[place];
    let next = lists.from[place] + 20 * part;
    [(); 2].map(|()| {
        let mut calls = Vec::new();
        for number in next..next + 20 {
            let times = dice.pick(&[0, 1, 1, 1, 1, 2]);
            calls.extend((0..times).map(|_| Call::Tick { channel, number }));
        }
        if dice.one_in(3) {
            let last = next + 19 + dice.below(3) as i64;
            let end = dice.pick(&[0, 0, 1]);
            calls.push(Call::Heartbeat { channel, last, end });
        }
        calls
    })
}

/// The first line lacks all up to a middle number, and every second number
/// behind it; the second line every second number up to the middle, and all
/// behind it. Joined they have up to 62 runs.
fn halves(dice: &mut Dice, lists: &Lists) -> [Vec<Call>; 2] {
    let place = lists.a_place(dice);
    let (channel, first) = (lists.channels[place], lists.from[place]);
    let low = 5 + dice.below(27) as i64;
    let high = 5 + dice.below(27) as i64;
    let middle = first + 2 * low;
    let heard = |last| Call::Heartbeat {
        channel,
        last,
        end: 0,
    };
    let tick = |number| Call::Tick { channel, number };
    let mut one = vec![heard(middle)];
    one.extend((1..=high).map(|run| tick(middle + 2 * run)));
    let mut two: Vec<Call> = (1..=low).map(|run| tick(first + 2 * run - 1)).collect();
    two.push(heard(middle + 2 * high));
    if dice.one_in(2) {
        [one, two]
    } else {
        [two, one]
    }
}

/// One line has every fourth number, and all places in use; the other one has
/// the three numbers between, the middle one first. Joined they need fewer
/// places, but a tracker that the second list is played into behind the first
/// needs one more in between.
fn splits(dice: &mut Dice, lists: &Lists) -> [Vec<Call>; 2] {
    let place = lists.a_place(dice);
    let (channel, first) = (lists.channels[place], lists.from[place]);
    let tick = |number| Call::Tick { channel, number };
    let one = (1..=32).map(|run| tick(first + 4 * run - 1)).collect();
    let runs = 3 + dice.below(5) as i64;
    let two = (0..runs).flat_map(|run| [1, 0, 2].map(|at| tick(first + 4 * run + at)));
    [one, two.collect()]
}

/// The calls of both lines, those of each in their order.
fn shuffle(dice: &mut Dice, calls: [Vec<Call>; 2], steps: &mut Vec<Step>) {
    let mut left = calls.map(|calls| calls.into_iter().peekable());
    while left.iter_mut().any(|calls| calls.peek().is_some()) {
        let line = dice.below(2) as usize;
        steps.extend(left[line].next().map(|call| Step::On(line, call)));
    }
}

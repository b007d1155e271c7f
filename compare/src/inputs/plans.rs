//! Channels of two lines, planned in blocks of numbers that each line lacks or
//! not: what the lines are joined to is known without their runs.

use super::dice::Dice;
use super::lists::{channels, first_number};
use super::trackers::HIGHEST;
use crate::receiver::{Tracker, RUNS};

/// How the runs of two lines lie beside each other on a channel.
#[derive(Clone, Copy, PartialEq, Eq, Debug)]
pub enum Shape {
    Any,
    Equal,
    Touching,
    Disjoint,
    Nested,
    Interleaved,
    Halves,
}

impl Shape {
    pub const ALL: [Shape; 7] = [
        Shape::Any,
        Shape::Equal,
        Shape::Touching,
        Shape::Disjoint,
        Shape::Nested,
        Shape::Interleaved,
        Shape::Halves,
    ];

    pub fn name(self) -> &'static str {
        match self {
            Shape::Any => "any runs",
            Shape::Equal => "equal runs",
            Shape::Touching => "runs that touch",
            Shape::Disjoint => "runs apart",
            Shape::Nested => "runs in runs",
            Shape::Interleaved => "interleaved runs",
            Shape::Halves => "runs in the other's long one",
        }
    }
}

/// Numbers that follow each other on a channel: whether each line lacks them.
type Block = [bool; 2];

const NEITHER: Block = [false, false];
const FIRST: Block = [true, false];
const SECOND: Block = [false, true];
const BOTH: Block = [true, true];

/// A channel of two lines: blocks, and behind how many of them the highest
/// number of each line stands. The higher one stands behind all.
pub(super) struct Plan {
    blocks: Vec<Block>,
    ends: [usize; 2],
}

impl Plan {
    /// So many pieces of a shape, as far as each line has this many runs at
    /// most, with any ends.
    pub(super) fn any(dice: &mut Dice, shape: Shape, pieces: usize, most: usize) -> Plan {
        let mut blocks = shaped(dice, shape, pieces);
        if dice.one_in(2) && blocks.last() == Some(&NEITHER) {
            blocks.pop();
        }
        while (0..2).any(|line| runs(blocks.len(), |at| blocks[at][line]).len() > most) {
            blocks.pop();
        }
        // A run that goes on behind the lower highest number.
        let goes_on = blocks.last() == Some(&BOTH) && dice.one_in(3);
        if goes_on {
            blocks.push(BOTH);
        }
        let all = blocks.len();
        let low = match dice.below(8) {
            _ if goes_on => all - 1,
            0 | 1 => 0,
            2 => all.saturating_sub(1),
            3 | 4 => dice.below(all as u64 + 1) as usize,
            _ => all,
        };
        let ends = if dice.one_in(2) {
            [low, all]
        } else {
            [all, low]
        };
        Plan { blocks, ends }
    }

    /// Interleaved runs with equal ends, which need this many places; each line
    /// has about half as many runs.
    pub(super) fn interleaved(dice: &mut Dice, pieces: usize) -> Plan {
        let blocks = shaped(dice, Shape::Interleaved, pieces);
        let ends = [blocks.len(); 2];
        Plan { blocks, ends }
    }

    /// As much of the plan as needs no more places than this.
    pub(super) fn trim(&mut self, most: usize) {
        while self.joined().len() > most {
            self.blocks.pop();
            self.ends = self.ends.map(|end| end.min(self.blocks.len()));
        }
    }

    /// Whether a line did not receive a block: it lacks it, or has not come so
    /// far.
    fn lacks(&self, line: usize, block: usize) -> bool {
        block >= self.ends[line] || self.blocks[block][line]
    }

    /// The runs of a line.
    fn line(&self, line: usize) -> Vec<(usize, usize)> {
        runs(self.ends[line], |block| self.blocks[block][line])
    }

    /// The runs of what neither line received.
    fn joined(&self) -> Vec<(usize, usize)> {
        runs(self.blocks.len(), |block| {
            self.lacks(0, block) && self.lacks(1, block)
        })
    }

    /// The number that each block begins with, and the one behind the last.
    fn cuts(&self, dice: &mut Dice) -> Vec<u64> {
        let blocks = self.blocks.len() as u64;
        let from = (first_number(dice) as u64).min(HIGHEST + 1 - blocks);
        let fits = |magnitude: &u32| from + (blocks << magnitude) <= HIGHEST + 1;
        let magnitudes: Vec<u32> = [0, 1, 2, 8, 40, 55].into_iter().filter(fits).collect();
        let magnitude = dice.pick(&magnitudes);
        let mut cuts = vec![from];
        let mut next = from;
        for _ in 0..blocks {
            next += 1 + dice.below(1 << magnitude);
            cuts.push(next);
        }
        if blocks > 0 && dice.one_in(8) {
            cuts[blocks as usize] = HIGHEST + 1;
        }
        cuts
    }
}

/// The runs of blocks that hold, up to an end: where each begins, and the block
/// behind it.
fn runs(end: usize, holds: impl Fn(usize) -> bool) -> Vec<(usize, usize)> {
    let mut runs: Vec<(usize, usize)> = Vec::new();
    for block in (0..end).filter(|block| holds(*block)) {
        match runs.last_mut() {
            Some(run) if run.1 == block => run.1 = block + 1,
            _ => runs.push((block, block + 1)),
        }
    }
    runs
}

/// So many pieces of a shape.
fn shaped(dice: &mut Dice, shape: Shape, pieces: usize) -> Vec<Block> {
    match shape {
        Shape::Interleaved => {
            let chain = [BOTH, FIRST, BOTH, SECOND];
            chain.into_iter().cycle().take(2 * pieces).collect()
        }
        Shape::Halves => {
            let low = pieces.div_ceil(2).max(pieces.saturating_sub(31));
            let mut blocks = [BOTH, SECOND].repeat(low);
            blocks.push(NEITHER);
            blocks.extend([FIRST, BOTH].repeat(pieces - low));
            blocks
        }
        _ => (0..pieces).flat_map(|_| piece(dice, shape)).collect(),
    }
}

/// A piece of a shape.
fn piece(dice: &mut Dice, shape: Shape) -> Vec<Block> {
    let any = [NEITHER, FIRST, SECOND, BOTH, BOTH, BOTH];
    let (one, two) = dice.pick(&[(FIRST, SECOND), (SECOND, FIRST)]);
    match shape {
        Shape::Equal => vec![BOTH, NEITHER],
        Shape::Touching => vec![one, two, NEITHER],
        Shape::Disjoint => vec![one, NEITHER, two, NEITHER],
        Shape::Nested => match dice.below(4) {
            0 => vec![one, BOTH, NEITHER],
            1 => vec![BOTH, one, NEITHER],
            2 => vec![one, BOTH, one, NEITHER],
            _ => vec![BOTH, one, BOTH, NEITHER],
        },
        _ => [(); 4].map(|()| dice.pick(&any)).to_vec(),
    }
}

/// Lays a channel at its place: its first number, its highest, which ends the
/// blocks up to an end, and its runs.
fn lay(tracker: &mut Tracker, place: usize, cuts: &[u64], end: usize, runs: &[(usize, usize)]) {
    tracker.from[place] = cuts[0];
    tracker.highest[place] = cuts[end] - 1;
    tracker.counts[place] = runs.len();
    for (at, (first, behind)) in runs.iter().enumerate() {
        tracker.first[place * RUNS + at] = cuts[*first];
        tracker.last[place * RUNS + at] = cuts[*behind] - 1;
    }
}

/// The trackers of two lines, a plan for each channel, and what they are
/// joined to.
pub(super) fn laid(dice: &mut Dice, plans: &[Plan]) -> (Tracker, Tracker, Result<Tracker, u32>) {
    let mut bare = Tracker::ZERO;
    bare.count = plans.len();
    bare.numbers[..plans.len()].copy_from_slice(&channels(dice, plans.len()));
    let (mut one, mut two, mut joined) = (bare, bare, bare);
    let mut refused = false;
    for (place, plan) in plans.iter().enumerate() {
        let cuts = plan.cuts(dice);
        lay(&mut one, place, &cuts, plan.ends[0], &plan.line(0));
        lay(&mut two, place, &cuts, plan.ends[1], &plan.line(1));
        one.ended[place] = dice.below(2) as u8;
        two.ended[place] = dice.below(2) as u8;
        joined.ended[place] = one.ended[place] | two.ended[place];
        let runs = plan.joined();
        match runs.len() {
            0..=RUNS => lay(&mut joined, place, &cuts, plan.blocks.len(), &runs),
            _ => refused = true,
        }
    }
    let joined = if refused { Err(9) } else { Ok(joined) };
    (one, two, joined)
}

/// Plans of so many channels with few runs; at times all that came is one block
/// of one line.
pub(super) fn few(dice: &mut Dice, count: usize) -> Vec<Plan> {
    (0..count)
        .map(|_| match dice.below(16) {
            0 => Plan {
                blocks: vec![dice.pick(&[NEITHER, BOTH])],
                ends: dice.pick(&[[0, 1], [1, 0]]),
            },
            _ => {
                let pieces = dice.below(9) as usize;
                Plan::any(dice, Shape::Any, pieces, RUNS)
            }
        })
        .collect()
}

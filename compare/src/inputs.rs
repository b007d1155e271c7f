//! Inputs for receivers, the same for the same seed: input `index` of seed
//! `seed` under the given rules.

#![forbid(unsafe_code)]

mod bodies;
mod damage;
mod dice;
mod drafts;
mod joins;
mod lines;
mod lists;
mod plans;
mod pushes;
mod streams;
mod trackers;

pub use bodies::frame_of;
pub use dice::Dice;
pub use joins::{Beside, Differs, Made as MadePair, Pair};
pub use lines::Step;
pub use lists::{Lists, Unfit};
pub use plans::Shape;
pub use pushes::{pushes, End, Push};
pub use streams::Unled;
pub use trackers::Way;

use crate::layout::{layout, INDEX, LISTED, SNAPSHOT};
use crate::receiver::{Cursor, Stream, Tracker, NUMBERS};
use crate::second::rules::Rules;
use bodies::{Made, Wish};
use std::fmt;

/// Made-up offsets of a cursor go up to this.
const PLACE_LIMIT: u64 = usize::MAX as u64;

/// Positions to ask for.
#[derive(Clone, Copy, PartialEq, Eq, Debug)]
pub struct Asked {
    pub entry: u32,
    pub quantity: u32,
}

/// A call on a tracker; a request with the length of its output.
#[derive(Clone, Copy, PartialEq, Eq, Debug)]
pub enum Call {
    Tick { channel: u16, number: i64 },
    Heartbeat { channel: u16, last: i64, end: u8 },
    Request { channel: u16, output: usize },
}

/// A call on a stream.
#[derive(Clone, Copy, PartialEq, Eq, Debug)]
pub enum Hand {
    /// The bytes of the stream up to this offset that were not taken yet. What
    /// is left of them then comes again alone, until all are taken; or it
    /// comes with the next cut.
    Cut {
        to: usize,
        alone: bool,
    },
    /// A cut of no bytes.
    Nothing,
    End,
}

/// One input. `made_as` is the type before any damage, `pushed` the place in
/// `pushes` of the one field that was pushed over an end of its range.
#[derive(Clone, PartialEq, Eq, Debug)]
pub enum Input {
    /// Bytes for the frame reader; a body goes on to the record reader.
    Frame {
        made_as: u32,
        pushed: Option<usize>,
        bytes: Vec<u8>,
        asked: Asked,
    },
    /// A body for the record reader.
    Body {
        kind: u32,
        body: Vec<u8>,
        asked: Asked,
    },
    /// A cursor for a step.
    Step {
        kind: u32,
        body: Vec<u8>,
        cursor: Cursor,
    },
    /// What the writer takes, and its output as it stands before.
    Write {
        pushed: Option<usize>,
        kind: u32,
        numbers: [i64; NUMBERS],
        texts: Vec<u8>,
        groups: Vec<u8>,
        output: Vec<u8>,
    },
    /// Lists for a set-up, refused in one way or good.
    SetUp { way: Option<Unfit>, lists: Lists },
    /// A set-up, and calls one after the other.
    Arrivals { lists: Lists, calls: Vec<Call> },
    /// A tracker, malformed in one way or good, and
    /// calls one after the other.
    Tracker {
        way: Option<Way>,
        tracker: Box<Tracker>,
        calls: Vec<Call>,
    },
    /// Pairs of trackers to be joined.
    Joins { pairs: Vec<Pair> },
    /// A set-up for two lines, and steps one after the other.
    Lines { lists: Lists, steps: Vec<Step> },
    /// A fresh stream or a made-up one, to which no calls lead in one way or
    /// some do; its buffer as it stands before; the bytes that come, and calls
    /// one after the other.
    Stream {
        way: Option<Unled>,
        start: Option<Stream>,
        buffer: Vec<u8>,
        bytes: Vec<u8>,
        calls: Vec<Hand>,
    },
}

/// Input after input of a seed.
pub struct Inputs {
    rules: Rules,
    seed: u64,
    pushes: Vec<Push>,
}

/// Inputs repeat their kind after so many.
const SLOTS: u64 = 38;

impl Inputs {
    pub fn new(rules: &Rules, seed: u64) -> Inputs {
        Inputs {
            rules: *rules,
            seed,
            pushes: pushes(rules),
        }
    }

    /// The input with this index.
    pub fn input(&self, index: u64) -> Input {
        let mut dice = Dice::new(self.seed, index);
        let turn = index / SLOTS;
        match index % SLOTS {
            slot @ 0..=9 => self.frame(&mut dice, slot, turn),
            slot @ 10..=14 => self.pushed_frame(&mut dice, turn * 5 + slot - 10),
            15 => self.unlisted(&mut dice),
            16 => self.body(&mut dice, turn),
            17..=18 => self.step(&mut dice),
            19..=20 => drafts::valid(&self.rules, &mut dice, listed(turn)),
            slot @ 21..=23 => drafts::damaged(&self.rules, &mut dice, turn * 3 + slot - 21),
            slot @ 24..=26 => self.pushed_draft(&mut dice, turn * 3 + slot - 24),
            27 => lists::set_up(&mut dice, turn),
            28..=29 => trackers::arrivals(&mut dice, turn),
            30 => trackers::malformed(&mut dice, turn),
            31 => trackers::good(&mut dice),
            32..=33 => streams::cut_up(&self.rules, &mut dice),
            34 => streams::made_up(&self.rules, &mut dice, turn),
            35 => joins::good(&mut dice, turn),
            36 => joins::malformed(&mut dice, turn),
            _ => lines::lines(&mut dice),
        }
    }

    /// A valid frame, whole or with one damage.
    fn frame(&self, dice: &mut Dice, slot: u64, turn: u64) -> Input {
        let made = match slot {
            2 => self.snapshot(dice),
            _ => self.valid(dice, turn),
        };
        let asked = asked(dice, &made);
        let rules = &self.rules;
        let bytes = match slot {
            0..=2 => frame_of(made.kind, &made.body),
            3 => damage::cut(dice, &made),
            4 => damage::lengthened(rules, dice, &made),
            5 => damage::flipped(dice, &made),
            6 => damage::wrong_checksum(dice, &made),
            7 => damage::wrong_length(rules, dice, &made),
            8 => damage::body_cut(dice, &made),
            _ => damage::counts_changed(dice, &made),
        };
        Input::Frame {
            made_as: made.kind,
            pushed: None,
            bytes,
            asked,
        }
    }

    /// A valid body of each listed type in turn, then of an unlisted one.
    fn valid(&self, dice: &mut Dice, turn: u64) -> Made {
        let place = (turn % (LISTED.len() as u64 + 1)) as usize;
        match LISTED.get(place) {
            Some(layout) => bodies::make(&self.rules, dice, layout, Wish::any()),
            None => bodies::make_unlisted(&self.rules, dice),
        }
    }

    /// A snapshot with an entry and shown quantities.
    fn snapshot(&self, dice: &mut Dice) -> Made {
        let layout = layout(SNAPSHOT).expect("a listed type");
        let wish = Wish {
            shown: dice.one_in(2),
            ..Wish::groups(1)
        };
        bodies::make(&self.rules, dice, layout, wish)
    }

    /// A frame with one field pushed over an end, its checksum right.
    fn pushed_frame(&self, dice: &mut Dice, turn: u64) -> Input {
        let place = (turn % self.pushes.len() as u64) as usize;
        let made = pushes::pushed(&self.rules, dice, &self.pushes[place]);
        let asked = asked(dice, &made);
        let mut body = made.body;
        let cut = dice.one_in(8) && !body.is_empty();
        if cut {
            body.pop();
        }
        let pushed = if cut { None } else { Some(place) };
        Input::Frame {
            made_as: made.kind,
            pushed,
            bytes: frame_of(made.kind, &body),
            asked,
        }
    }

    /// An unlisted type with the body of a listed one, or any other.
    fn unlisted(&self, dice: &mut Dice) -> Input {
        let mut made = bodies::make_unlisted(&self.rules, dice);
        if dice.one_in(2) {
            let layout = &LISTED[dice.below(10) as usize];
            made.body = bodies::make(&self.rules, dice, layout, Wish::any()).body;
        }
        let bytes = frame_of(made.kind, &made.body);
        Input::Frame {
            made_as: made.kind,
            pushed: None,
            bytes,
            asked: asked(dice, &made),
        }
    }

    /// A body without a frame: of one type read as any other, or above the
    /// limit, which is the frame reader's.
    fn body(&self, dice: &mut Dice, turn: u64) -> Input {
        let mut made = self.valid(dice, turn);
        if dice.one_in(2) {
            made.kind = LISTED[dice.below(10) as usize].kind;
        }
        if dice.one_in(16) {
            let tail = self.rules.body_limit + 1 + dice.below(100) as usize;
            made.body.resize(tail, 0xFF);
        }
        let asked = asked(dice, &made);
        Input::Body {
            kind: made.kind,
            body: made.body,
            asked,
        }
    }

    /// A cursor, good or made up, on a body that may be damaged.
    fn step(&self, dice: &mut Dice) -> Input {
        let kind = if dice.one_in(3) { INDEX } else { SNAPSHOT };
        let layout = layout(kind).expect("a listed type");
        let mut made = bodies::make(&self.rules, dice, layout, Wish::groups(1));
        let cursor = self.cursor(dice, &made);
        damage::body_hurt(&self.rules, dice, &mut made);
        let kind = match dice.below(12) {
            0 => LISTED[dice.below(10) as usize].kind,
            1 => bodies::unlisted_kind(dice),
            _ => kind,
        };
        Input::Step {
            kind,
            body: made.body,
            cursor,
        }
    }

    /// A cursor on an entry of the body, or any other.
    fn cursor(&self, dice: &mut Dice, made: &Made) -> Cursor {
        let length = made.body.len() as u64;
        let offset = match dice.below(8) {
            0 => dice.below(length + 2),
            1 => length.saturating_sub(dice.below(40)),
            2 => PLACE_LIMIT - dice.below(70),
            3 => dice.wide() % PLACE_LIMIT,
            _ => made.a_group(dice) as u64,
        };
        let left = match dice.below(4) {
            0 => 0,
            1 => u32::MAX - dice.below(2) as u32,
            _ => 1 + dice.below(9) as u32,
        };
        Cursor {
            offset: offset as usize,
            left,
        }
    }

    /// What the writer takes, with one field pushed over an end.
    fn pushed_draft(&self, dice: &mut Dice, turn: u64) -> Input {
        let place = (turn % self.pushes.len() as u64) as usize;
        let made = pushes::pushed(&self.rules, dice, &self.pushes[place]);
        drafts::whole(dice, &made, Some(place))
    }
}

/// The listed types in turn.
fn listed(turn: u64) -> u32 {
    LISTED[(turn % LISTED.len() as u64) as usize].kind
}

/// Positions in and beyond the counts.
fn asked(dice: &mut Dice, made: &Made) -> Asked {
    let (groups, shown) = made.counts(dice);
    let entry = if dice.one_in(2) {
        shown.0
    } else {
        position(dice, groups)
    };
    Asked {
        entry,
        quantity: position(dice, shown.1),
    }
}

/// A position in or beyond a count.
fn position(dice: &mut Dice, count: u32) -> u32 {
    match dice.below(8) {
        0 => count,
        1 => count.saturating_sub(1),
        2 => count.saturating_add(dice.below(3) as u32),
        3 => u32::MAX - dice.below(2) as u32,
        _ => dice.below(u64::from(count).max(1)) as u32,
    }
}

/// Bytes in hex.
struct Hex<'a>(&'a [u8]);

impl fmt::Display for Hex<'_> {
    fn fmt(&self, out: &mut fmt::Formatter<'_>) -> fmt::Result {
        write!(out, "({} bytes)", self.0.len())?;
        for byte in self.0 {
            write!(out, " {byte:02X}")?;
        }
        Ok(())
    }
}

impl fmt::Display for Input {
    fn fmt(&self, out: &mut fmt::Formatter<'_>) -> fmt::Result {
        match self {
            Input::Frame { bytes, asked, .. } => {
                write!(out, "frame {}\nasked {asked:?}", Hex(bytes))
            }
            Input::Body { kind, body, asked } => {
                write!(out, "type {kind}\nbody {}\nasked {asked:?}", Hex(body))
            }
            Input::Step { kind, body, cursor } => {
                write!(out, "type {kind}\nbody {}\ncursor {cursor:?}", Hex(body))
            }
            Input::Write {
                kind,
                numbers,
                texts,
                groups,
                output,
                ..
            } => {
                writeln!(
                    out,
                    "write type {kind}\nnumbers {numbers:?}\ntexts {}",
                    Hex(texts)
                )?;
                write!(out, "groups {}\noutput {}", Hex(groups), Hex(output))
            }
            Input::SetUp { lists, .. } => write!(out, "set up {lists}"),
            Input::Arrivals { lists, calls } => {
                write!(out, "set up {lists}\ncalls {calls:?}")
            }
            Input::Tracker { tracker, calls, .. } => {
                write!(out, "{tracker:?}\ncalls {calls:?}")
            }
            Input::Joins { pairs } => {
                write!(out, "join")?;
                pairs.iter().try_for_each(|pair| write!(out, "{pair}"))
            }
            Input::Lines { lists, steps } => {
                write!(out, "two lines, set up {lists}\nsteps {steps:?}")
            }
            Input::Stream {
                start,
                buffer,
                bytes,
                calls,
                ..
            } => {
                match start {
                    None => writeln!(out, "a fresh stream")?,
                    Some(start) => writeln!(out, "{start:?}")?,
                }
                writeln!(out, "buffer {}", Hex(buffer))?;
                write!(out, "bytes {}\ncalls {calls:?}", Hex(bytes))
            }
        }
    }
}

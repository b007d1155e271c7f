//! Plays joins: of made-up pairs, held to how these were made; and of two
//! lines, held to both lists of arrivals played into one tracker.

use super::{same, Play, Told};
use crate::inputs::{Call, Lists, MadePair, Pair, Step};
use crate::receiver::{JoinAnswer, Receiver, Tracker, Verdict, RUNS};
use crate::table::{self, channel_row, Column, Part, Which};

/// A line as it is played: its tracker, the arrivals that were accepted on it
/// or came with a join, and whether it was joined before.
#[derive(Clone)]
struct Line {
    tracker: Tracker,
    arrivals: Vec<Call>,
    joined: bool,
}

impl Play<'_> {
    /// Joins two trackers.
    fn join(&self, tracker: &Tracker, other: &Tracker) -> Result<JoinAnswer, Told> {
        let first = self.first.join(tracker, other);
        let second = self.second.join(tracker, other);
        same(|| called(tracker, other), first, second)
    }

    /// Two trackers were joined.
    fn met_join(&mut self, tracker: &Tracker, other: &Tracker, answer: &JoinAnswer) {
        let column = answer.refused.map_or(Column::Accepted, Column::Refused);
        self.table.meet(Part::Tracker, table::JOIN, column);
        if answer.refused.is_none() {
            (0..tracker.count).for_each(|channel| self.channel(tracker, other, channel));
        }
    }

    /// A channel of two trackers was joined: which one's highest number is the
    /// lower, what that one has there, and the marks.
    fn channel(&mut self, tracker: &Tracker, other: &Tracker, channel: usize) {
        let (one, two) = (tracker.highest[channel], other.highest[channel]);
        let row = channel_row(one, two);
        let lower = if one <= two { tracker } else { other };
        self.table
            .meet(Part::Channels, row, at_the_highest(lower, channel));
        let marks = match (tracker.ended[channel], other.ended[channel]) {
            (0, 0) => Column::NoMark,
            (_, 0) => Column::MarkOf(Which::First),
            (0, _) => Column::MarkOf(Which::Second),
            _ => Column::MarkOf(Which::Both),
        };
        self.table.meet(Part::Channels, row, marks);
    }

    /// Joins a pair in both orders, and holds the answers to how it was made.
    pub(super) fn pair(&mut self, pair: &Pair) -> Result<(), Told> {
        let orders = [
            (Which::First, &pair.tracker, &pair.other),
            (Which::Second, &pair.other, &pair.tracker),
        ];
        for (malformed, tracker, other) in orders {
            let answer = self.join(tracker, other)?;
            let made = JoinAnswer {
                refused: pair.joined.err(),
                next: pair.joined.unwrap_or(*tracker),
            };
            let call = || format!("as made, {}", called(tracker, other));
            same(call, answer, made)?;
            self.met_join(tracker, other, &answer);
            self.met_pair(pair, malformed, &answer);
        }
        Ok(())
    }

    /// A pair was joined in one order.
    fn met_pair(&mut self, pair: &Pair, malformed: Which, answer: &JoinAnswer) {
        let (part, row, column) = match pair.made {
            MadePair::Shaped { shape, place } => {
                let column = match (answer.refused, answer.next.counts[place]) {
                    (Some(number), _) => Column::Refused(number),
                    (None, 0) => Column::NoRun,
                    (None, RUNS) => Column::FullTable,
                    (None, _) => Column::SomeRuns,
                };
                (Part::Shapes, shape as usize, column)
            }
            MadePair::Differs { how, beside } => {
                (Part::Differs, how as usize, Column::Beside(beside))
            }
            MadePair::Malformed { way, both, beside } => {
                let which = if both { Which::Both } else { malformed };
                let column = Column::Malformed(which, beside);
                (Part::MalformedJoins, way as usize, column)
            }
        };
        self.table.meet(part, row, column);
    }

    /// Plays two lines of one set-up.
    pub(super) fn lines(&mut self, lists: &Lists, steps: &[Step]) -> Result<(), Told> {
        let fresh = Line {
            tracker: self.set_up(None, lists)?,
            arrivals: Vec::new(),
            joined: false,
        };
        let mut lines = [fresh.clone(), fresh.clone()];
        for step in steps {
            match step {
                Step::On(line, call) => self.on(&mut lines[*line], call)?,
                Step::Join(line) => {
                    let other = lines[1 - line].clone();
                    self.join_line(&fresh.tracker, &mut lines[*line], &other)?;
                }
            }
        }
        Ok(())
    }

    /// Plays a call on a line.
    fn on(&mut self, line: &mut Line, call: &Call) -> Result<(), Told> {
        match (self.call(&mut line.tracker, call)?, call) {
            (Column::Refused(_), _) | (_, Call::Request { .. }) => {}
            _ => line.arrivals.push(*call),
        }
        Ok(())
    }

    /// Joins a line with another one. Where all that came to both can be played
    /// into one tracker, that is the joined one.
    fn join_line(&mut self, fresh: &Tracker, line: &mut Line, other: &Line) -> Result<(), Told> {
        let answer = self.join(&line.tracker, &other.tracker)?;
        self.met_join(&line.tracker, &other.tracker, &answer);
        let row = usize::from(line.joined);
        if let Some(number) = answer.refused {
            self.table.meet(Part::Lines, row, Column::Refused(number));
            return Ok(());
        }
        let call = || format!("as played, {}", called(&line.tracker, &other.tracker));
        let arrivals = [&*line.arrivals, &*other.arrivals].concat();
        let column = match played(self.second, fresh, &arrivals) {
            None => Column::Joined,
            Some(tracker) => {
                same(call, answer.next, tracker)?;
                Column::AsPlayed
            }
        };
        self.table.meet(Part::Lines, row, column);
        *line = Line {
            tracker: answer.next,
            arrivals,
            joined: true,
        };
        Ok(())
    }
}

/// How a join is told.
fn called(tracker: &Tracker, other: &Tracker) -> String {
    format!("join {tracker:?} with {other:?}")
}

/// What a channel has at its highest number.
fn at_the_highest(tracker: &Tracker, channel: usize) -> Column {
    let highest = tracker.highest[channel];
    let runs = &tracker.last[channel * RUNS..][..tracker.counts[channel]];
    match runs.last() {
        _ if highest < tracker.from[channel] => Column::NothingCame,
        Some(last) if *last == highest => Column::MissingThere,
        _ => Column::ReceivedThere,
    }
}

/// The tracker that arrivals, all of which were accepted, lead to; none where
/// one is refused.
fn played(receiver: &dyn Receiver, fresh: &Tracker, arrivals: &[Call]) -> Option<Tracker> {
    let mut tracker = *fresh;
    for call in arrivals {
        let answer = match *call {
            Call::Tick { channel, number } => receiver.tick(&tracker, channel, number),
            Call::Heartbeat { channel, last, end } => {
                receiver.heartbeat(&tracker, channel, last, end)
            }
            Call::Request { .. } => continue,
        };
        if let Verdict::Refused(_) = answer.verdict {
            return None;
        }
        tracker = answer.next;
    }
    Some(tracker)
}

//! The parts of joins.

use super::{named, Column, Section, Which};
use crate::inputs::{Beside, Differs, Shape, Way};
use Column::Refused;

fn names(all: impl Iterator<Item = &'static str>) -> Vec<String> {
    all.map(str::to_string).collect()
}

/// Pairs of one set-up, by the runs of one channel, and how many runs it has
/// then.
pub fn shapes() -> Section {
    let columns = [
        Column::NoRun,
        Column::SomeRuns,
        Column::FullTable,
        Refused(9),
    ];
    Section::new(
        "joins of one set-up",
        names(Shape::ALL.iter().map(|shape| shape.name())),
        &columns,
        |row, column| match (Shape::ALL[row], column) {
            (Shape::Equal, Refused(9)) => Some("equal runs are those of the higher line"),
            (Shape::Touching | Shape::Disjoint, Refused(9)) => {
                Some("up to the lower highest number nothing is missing")
            }
            _ => None,
        },
    )
}

/// The row of a joined channel by the highest numbers of its lines.
pub fn channel_row(one: u64, two: u64) -> usize {
    match (one.abs_diff(two), one < two) {
        (0, _) => 4,
        (1, true) => 0,
        (_, true) => 1,
        (1, false) => 2,
        (_, false) => 3,
    }
}

/// Channels of joined trackers: which highest number is the lower one, what
/// that line has there, and which line has ended.
pub fn channels() -> Section {
    let columns = [
        Column::ReceivedThere,
        Column::MissingThere,
        Column::NothingCame,
        Column::NoMark,
        Column::MarkOf(Which::First),
        Column::MarkOf(Which::Second),
        Column::MarkOf(Which::Both),
    ];
    let rows = named(&[
        "first lower by 1",
        "first lower",
        "second lower by 1",
        "second lower",
        "equal",
    ]);
    Section::new(
        "channels joined, by their highest numbers",
        rows,
        &columns,
        |_, _| None,
    )
}

/// Joins of two lines that were played: held to both lists played into one,
/// joined where that is refused, or refused.
pub fn lines() -> Section {
    let columns = [Column::AsPlayed, Column::Joined, Refused(9)];
    let rows = named(&["for the first time", "again"]);
    Section::new("lines joined", rows, &columns, |_, _| None)
}

/// Joins refused by 11.
pub fn differing() -> Section {
    Section::new(
        "set-ups that differ, refused by 11",
        names(Differs::ALL.iter().map(|how| how.name())),
        &[Beside::Nothing, Beside::Nine].map(Column::Beside),
        |_, _| None,
    )
}

/// Joins refused by 10: which tracker is malformed, and what else would refuse
/// them.
pub fn malformed() -> Section {
    let besides = [Beside::Nothing, Beside::Eleven, Beside::Nine];
    let columns = besides.map(|beside| Which::ALL.map(|which| Column::Malformed(which, beside)));
    Section::new(
        "joins of malformed trackers, refused by 10",
        names(Way::ALL.iter().map(|way| way.name())),
        &columns.concat(),
        |_, _| None,
    )
}

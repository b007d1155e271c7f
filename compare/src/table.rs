//! The table of what was met in a comparison.

#![forbid(unsafe_code)]

mod joins;

pub use joins::channel_row;

use crate::inputs::{pushes, Beside, End, Push, Unfit, Unled, Way};
use crate::layout::{layout, LISTED};
use crate::receiver::{Stream, Tracker, RUNS};
use crate::second::rules::Rules;
use std::fmt;

/// A column: an answer, or what was pushed.
#[derive(Clone, Copy, PartialEq, Eq, Debug)]
pub enum Column {
    Accepted,
    Refused(u32),
    Found,
    NoSuchEntry,
    NoPrice,
    Level,
    LevelWithoutPrice,
    Price,
    Size,
    PriceAndSize,
    NoLimit,
    Unknown,
    New,
    Late,
    Duplicate,
    BeforeStart,
    Heard,
    LastBelow,
    EndBelow,
    LastAt,
    Written,
    NothingMissing,
    Tick,
    Heartbeat,
    Request,
    FrameInCut,
    FrameInBuffer,
    More,
    Ended,
    Cut,
    NoBytes,
    End,
    /// A field pushed over an end, read, or written.
    Pushed(End, bool),
    NoRun,
    SomeRuns,
    FullTable,
    /// Set-ups that differ, and what else would refuse the join.
    Beside(Beside),
    /// Which tracker is malformed, and what else would refuse the join.
    Malformed(Which, Beside),
    ReceivedThere,
    MissingThere,
    NothingCame,
    NoMark,
    MarkOf(Which),
    AsPlayed,
    Joined,
}

/// Which of two trackers.
#[derive(Clone, Copy, PartialEq, Eq, Debug)]
pub enum Which {
    First,
    Second,
    Both,
}

impl Which {
    const ALL: [Which; 3] = [Which::First, Which::Second, Which::Both];

    fn name(self) -> &'static str {
        match self {
            Which::First => "first",
            Which::Second => "second",
            Which::Both => "both",
        }
    }
}

use Column::Refused;

impl Column {
    fn name(self) -> String {
        let name = match self {
            Column::Refused(number) => return number.to_string(),
            Column::Pushed(end, written) => return pushed_name(end, written),
            Column::Malformed(which, beside) => {
                return which.name().to_string() + beside_name(beside)
            }
            Column::MarkOf(which) => return format!("{} ended", which.name()),
            Column::Beside(Beside::Nothing) => "alone",
            Column::Beside(beside) => beside_name(beside).trim_start(),
            Column::Accepted => "accepted",
            Column::Found => "found",
            Column::NoSuchEntry => "none",
            Column::NoPrice => "no price",
            Column::Level => "level",
            Column::LevelWithoutPrice => "no price",
            Column::Price => "price",
            Column::Size => "size",
            Column::PriceAndSize => "price+size",
            Column::NoLimit => "no limit",
            Column::Unknown => "unknown",
            Column::New => "new",
            Column::Late => "late",
            Column::Duplicate => "duplicate",
            Column::BeforeStart => "before start",
            Column::Heard => "heard",
            Column::LastBelow => "last below",
            Column::EndBelow => "end below",
            Column::LastAt => "last at it",
            Column::Written => "written",
            Column::NothingMissing => "nothing",
            Column::Tick => "tick",
            Column::Heartbeat => "heartbeat",
            Column::Request => "request",
            Column::FrameInCut => "in cut",
            Column::FrameInBuffer => "in buffer",
            Column::More => "more",
            Column::Ended | Column::End => "end",
            Column::Cut => "push",
            Column::NoBytes => "no bytes",
            Column::NoRun => "no run",
            Column::SomeRuns => "1 to 31",
            Column::FullTable => "32",
            Column::ReceivedThere => "received",
            Column::MissingThere => "missing",
            Column::NothingCame => "nothing came",
            Column::NoMark => "none ended",
            Column::AsPlayed => "as played",
            Column::Joined => "joined",
        };
        name.to_string()
    }
}

fn beside_name(beside: Beside) -> &'static str {
    match beside {
        Beside::Nothing => "",
        Beside::Eleven => " and 11",
        Beside::Nine => " and 9",
    }
}

fn pushed_name(end: End, written: bool) -> String {
    let end = match end {
        End::Below => "below",
        End::Above => "above",
        End::Other => "other",
    };
    format!("{}{end}", if written { "written " } else { "" })
}

/// One part of the table: counts by row and column, and the reason for each
/// cell that cannot be reached.
pub struct Section {
    title: &'static str,
    rows: Vec<String>,
    columns: Vec<Column>,
    counts: Vec<Vec<u64>>,
    reasons: Vec<Vec<Option<&'static str>>>,
}

impl Section {
    fn new(
        title: &'static str,
        rows: Vec<String>,
        columns: &[Column],
        reason: impl Fn(usize, Column) -> Option<&'static str>,
    ) -> Section {
        let reasons = (0..rows.len())
            .map(|row| columns.iter().map(|column| reason(row, *column)).collect())
            .collect();
        let counts = vec![vec![0; columns.len()]; rows.len()];
        Section {
            title,
            rows,
            columns: columns.to_vec(),
            counts,
            reasons,
        }
    }

    fn meet(&mut self, row: usize, column: Column) {
        let place = self.columns.iter().position(|each| *each == column);
        let place = place.unwrap_or_else(|| panic!("no column {column:?} in {}", self.title));
        self.counts[row][place] += 1;
    }

    /// Reachable cells with fewer than `least`, and others that were met.
    fn faults(&self, least: u64, faults: &mut Vec<String>) {
        for (row, name) in self.rows.iter().enumerate() {
            for (place, column) in self.columns.iter().enumerate() {
                let count = self.counts[row][place];
                let cell = format!("{}: {name}: {}", self.title, column.name());
                match self.reasons[row][place] {
                    None if count < least => faults.push(format!("{cell}: only {count}")),
                    Some(_) if count > 0 => {
                        faults.push(format!("{cell}: met {count} times, said unreachable"))
                    }
                    _ => {}
                }
            }
        }
    }

    /// The reasons for cells that cannot be reached; each is shown as a
    /// letter.
    fn legend(&self) -> Vec<&'static str> {
        let mut all = Vec::new();
        for reason in self.reasons.iter().flatten().flatten() {
            if !all.contains(reason) {
                all.push(*reason);
            }
        }
        all
    }

    /// A cell: its count, or the letter of the reason.
    fn cell(&self, row: usize, place: usize, legend: &[&'static str]) -> String {
        match self.reasons[row][place] {
            None => self.counts[row][place].to_string(),
            Some(reason) => {
                let letter = legend.iter().position(|each| *each == reason).unwrap_or(0);
                format!("-{}", char::from(b'a' + letter as u8))
            }
        }
    }
}

impl fmt::Display for Section {
    fn fmt(&self, out: &mut fmt::Formatter<'_>) -> fmt::Result {
        let label = self.rows.iter().map(String::len).max().unwrap_or(0);
        let legend = self.legend();
        write!(out, "{}\n{:label$}", self.title, "")?;
        for column in &self.columns {
            write!(out, "  {:>8}", column.name())?;
        }
        writeln!(out)?;
        for (row, name) in self.rows.iter().enumerate() {
            write!(out, "{name:label$}")?;
            for (place, column) in self.columns.iter().enumerate() {
                let width = column.name().len().max(8);
                write!(out, "  {:>width$}", self.cell(row, place, &legend))?;
            }
            writeln!(out)?;
        }
        for (place, reason) in legend.iter().enumerate() {
            writeln!(
                out,
                "-{} unreachable: {reason}",
                char::from(b'a' + place as u8)
            )?;
        }
        Ok(())
    }
}

/// The parts of the table.
#[derive(Clone, Copy)]
pub enum Part {
    Reader,
    Writer,
    Positions,
    Entries,
    Tracker,
    Unfit,
    Start,
    Malformed,
    Shapes,
    Channels,
    Lines,
    Differs,
    MalformedJoins,
    Stream,
    Unled,
    Pushed,
}

/// The table.
pub struct Table {
    sections: [Section; 16],
    pushes: Vec<(usize, End)>,
}

impl Table {
    pub fn new(rules: &Rules) -> Table {
        let all = pushes(rules);
        let rows = push_rows(&all);
        let row_of = |push: &Push| rows.iter().position(|row| *row == push_row(push));
        let places = all
            .iter()
            .map(|push| (row_of(push).expect("a row"), push.end))
            .collect();
        Table {
            sections: [
                reader(),
                writer(),
                positions(),
                entries(),
                tracker(),
                unfit(),
                start(),
                malformed(),
                joins::shapes(),
                joins::channels(),
                joins::lines(),
                joins::differing(),
                joins::malformed(),
                stream(),
                unled(),
                pushed(&all, rows),
            ],
            pushes: places,
        }
    }

    pub fn meet(&mut self, part: Part, row: usize, column: Column) {
        self.sections[part as usize].meet(row, column);
    }

    /// A field pushed over an end was refused by 5.
    pub fn meet_push(&mut self, place: usize, written: bool) {
        let (row, end) = self.pushes[place];
        self.meet(Part::Pushed, row, Column::Pushed(end, written));
    }

    /// How many calls of the stream were met.
    pub fn stream_calls(&self) -> u64 {
        self.sections[Part::Stream as usize]
            .counts
            .iter()
            .flatten()
            .sum()
    }

    /// Reachable cells with fewer than `least`, and unreachable ones met.
    pub fn faults(&self, least: u64) -> Vec<String> {
        let mut faults = Vec::new();
        for section in &self.sections {
            section.faults(least, &mut faults);
        }
        faults
    }
}

impl fmt::Display for Table {
    fn fmt(&self, out: &mut fmt::Formatter<'_>) -> fmt::Result {
        for section in &self.sections {
            writeln!(out, "{section}")?;
        }
        Ok(())
    }
}

/// The row of a type; all unlisted types share one.
pub fn type_row(kind: u32) -> usize {
    LISTED
        .iter()
        .position(|layout| layout.kind == kind)
        .unwrap_or(LISTED.len())
}

fn type_rows() -> Vec<String> {
    let mut rows: Vec<String> = LISTED
        .iter()
        .map(|layout| format!("{} {}", layout.kind, layout.name))
        .collect();
    rows.push("unlisted".to_string());
    rows
}

fn named(rows: &[&str]) -> Vec<String> {
    rows.iter().map(|row| row.to_string()).collect()
}

/// The columns of frames read and written.
const FRAMED: [Column; 7] = [
    Column::Accepted,
    Refused(1),
    Refused(2),
    Refused(3),
    Refused(4),
    Refused(5),
    Refused(6),
];

/// Frames and records read, by type.
fn reader() -> Section {
    Section::new("reader", type_rows(), &FRAMED, |row, column| {
        match (row, column) {
            (_, Refused(6)) => Some("the reader has no output"),
            (10, Refused(4 | 5)) => Some("an unlisted type is never refused"),
            (0, Refused(4)) => Some("a heartbeat needs no bytes"),
            (0, Refused(5)) => Some("a heartbeat has no fields"),
            _ => None,
        }
    })
}

/// Frames written, by type.
fn writer() -> Section {
    Section::new("writer", type_rows(), &FRAMED, |row, column| {
        match (row, column) {
            (_, Refused(1 | 3)) => Some("the writer reads no frame"),
            (10, Refused(5)) => None,
            (10, _) => Some("an unlisted type is refused by 5 before all else"),
            (0, Refused(5)) => Some("a heartbeat has no fields"),
            (_, Refused(2)) if LISTED[row].group.is_empty() => {
                Some("without groups L is fixed and small")
            }
            _ => None,
        }
    })
}

/// Calls by position, rows of `Part::Positions`.
pub const GROUP: usize = 0;
pub const ENTRY: usize = 1;
pub const ENTRY_PRICE: usize = 2;
pub const QUANTITY: usize = 3;
pub const START: usize = 4;
pub const STEP: usize = 5;
pub const STEP_PRICE: usize = 6;

fn positions() -> Section {
    let rows = named(&[
        "group",
        "entry",
        "entry price",
        "quantity",
        "start",
        "step",
        "step price",
    ]);
    let columns = [
        Column::Found,
        Column::NoSuchEntry,
        Column::NoPrice,
        Refused(4),
        Refused(5),
    ];
    Section::new("positions", rows, &columns, |row, column| {
        match (row, column) {
            (START, Column::Found) => None,
            (START, _) => Some("a start judges nothing"),
            (ENTRY_PRICE | STEP_PRICE, _) => None,
            (_, Column::NoPrice) => Some("not an answer to this call"),
            _ => None,
        }
    })
}

/// The seven things that an entry says, columns of `Part::Entries`.
const SAYS: [Column; 7] = [
    Column::Level,
    Column::LevelWithoutPrice,
    Column::Price,
    Column::Size,
    Column::PriceAndSize,
    Column::NoLimit,
    Column::Unknown,
];

/// The row of entries read or written in 300111 or 309011.
pub fn entry_row(snapshot: bool, written: bool) -> usize {
    match (snapshot, written) {
        (true, false) => 0,
        (true, true) => 1,
        (false, false) => 2,
        (false, true) => 3,
    }
}

fn entries() -> Section {
    let rows = named(&[
        "300111 read",
        "300111 written",
        "309011 read",
        "309011 written",
    ]);
    Section::new("entries", rows, &SAYS, |row, column| match (row, column) {
        (_, Column::Price | Column::Unknown) => None,
        (2 | 3, _) => Some("an entry of 309011 is a price or unknown"),
        _ => None,
    })
}

/// Calls of the tracker, rows of `Part::Tracker`.
pub const SET_UP: usize = 0;
pub const TICK: usize = 1;
pub const HEARTBEAT: usize = 2;
pub const REQUEST: usize = 3;
pub const JOIN: usize = 4;

fn tracker() -> Section {
    let rows = named(&["set-up", "tick", "heartbeat", "request", "join"]);
    let columns = [
        Column::Accepted,
        Column::New,
        Column::Late,
        Column::Duplicate,
        Column::BeforeStart,
        Column::Heard,
        Column::Written,
        Column::NothingMissing,
        Refused(6),
        Refused(7),
        Refused(8),
        Refused(9),
        Refused(10),
        Refused(11),
    ];
    Section::new("tracker", rows, &columns, |row, column| {
        match (row, column) {
            (_, Refused(10)) => None,
            (SET_UP, Column::Accepted) => None,
            (SET_UP, _) => Some("a set-up is accepted or refused by 10"),
            (TICK, Column::New | Column::Late) => None,
            (TICK, Column::Duplicate | Column::BeforeStart) => None,
            (HEARTBEAT, Column::Heard) => None,
            (TICK | HEARTBEAT, Refused(7..=9)) => None,
            (REQUEST, Column::Written | Column::NothingMissing) => None,
            (REQUEST, Refused(6 | 7)) => None,
            (JOIN, Column::Accepted | Refused(9 | 11)) => None,
            _ => Some("not an answer to this call"),
        }
    })
}

fn unfit() -> Section {
    Section::new(
        "lists of a set-up, refused by 10",
        Unfit::ALL
            .iter()
            .map(|way| way.name().to_string())
            .collect(),
        &[Refused(10)],
        |_, _| None,
    )
}

/// The row of a channel by its first number, and by its table.
pub fn start_row(tracker: &Tracker, channel: usize) -> usize {
    const LARGEST: u64 = i64::MAX as u64;
    match (tracker.from[channel], tracker.counts[channel]) {
        (1, _) => 0,
        (LARGEST, _) => 3,
        (_, RUNS) => 2,
        _ => 1,
    }
}

/// Ticks below a channel's first number and at it, last numbers below it
/// without and with an end, and last numbers at it.
fn start() -> Section {
    let rows = named(&[
        "first number 1",
        "a later one",
        "a later one, 32 runs",
        "the largest one",
    ]);
    let columns = [
        Column::BeforeStart,
        Column::New,
        Column::Late,
        Column::Duplicate,
        Column::LastBelow,
        Column::EndBelow,
        Column::LastAt,
    ];
    Section::new(
        "arrivals at a first number and below it",
        rows,
        &columns,
        |row, column| match (row, column) {
            (0, Column::BeforeStart) => Some("a tick below 1 is refused by 8"),
            (2, Column::New) => Some("with a run the highest is not below the first number"),
            _ => None,
        },
    )
}

fn malformed() -> Section {
    Section::new(
        "malformed trackers, refused by 10",
        Way::ALL.iter().map(|way| way.name().to_string()).collect(),
        &[Column::Tick, Column::Heartbeat, Column::Request],
        |_, _| None,
    )
}

/// The row of a call of the stream: whether it tells the end, and the state
/// that it is handed.
pub fn stream_row(end: bool, stream: Stream) -> usize {
    let state = match stream {
        Stream { held: 0, mark: 0 } => 0,
        Stream { mark: 0, .. } => 1,
        _ => 2,
    };
    state + if end { 3 } else { 0 }
}

fn stream() -> Section {
    let rows = named(&[
        "push, none held",
        "push, bytes held",
        "push, stopped",
        "end, none held",
        "end, bytes held",
        "end, stopped",
    ]);
    let columns = [
        Column::FrameInCut,
        Column::FrameInBuffer,
        Column::More,
        Column::Ended,
        Refused(1),
        Refused(2),
        Refused(3),
        Refused(10),
    ];
    Section::new("stream", rows, &columns, |row, column| {
        match (row, column) {
            (_, Refused(10)) => None,
            (0, Column::FrameInBuffer) => Some("a frame that is whole in the cut is not copied"),
            (1, Column::FrameInCut) => Some("a part of the frame was held"),
            (0 | 1, Column::Ended | Refused(1)) => Some("the stream goes on"),
            (2 | 5, Column::FrameInCut | Column::FrameInBuffer | Column::More) => {
                Some("a stream that has stopped takes nothing")
            }
            (3, Refused(1)) => Some("no bytes are left over"),
            (4, Column::Ended) => Some("bytes are left over"),
            (3, Column::Ended) | (4, Refused(1)) => None,
            (3 | 4, _) => Some("an end reads no bytes"),
            _ => None,
        }
    })
}

fn unled() -> Section {
    Section::new(
        "streams that no calls lead to, refused by 10",
        Unled::ALL
            .iter()
            .map(|way| way.name().to_string())
            .collect(),
        &[Column::Cut, Column::NoBytes, Column::End],
        |_, _| None,
    )
}

/// The row of a field, for a time of one of its parts.
fn push_row(push: &Push) -> String {
    let name = layout(push.kind).map_or("", |layout| layout.name);
    format!("{} {name}: {} {}", push.kind, push.field.name, push.part)
        .trim_end()
        .to_string()
}

fn push_rows(all: &[Push]) -> Vec<String> {
    let mut rows: Vec<String> = Vec::new();
    for push in all {
        let row = push_row(push);
        if !rows.contains(&row) {
            rows.push(row);
        }
    }
    rows
}

fn pushed(all: &[Push], rows: Vec<String>) -> Section {
    let ends = [End::Below, End::Above, End::Other];
    let columns = [false, true].map(|written| ends.map(|end| Column::Pushed(end, written)));
    let names = rows.clone();
    let reason = |row: usize, column: Column| {
        let ends = || all.iter().filter(|push| push_row(push) == names[row]);
        let Column::Pushed(end, _) = column else {
            return Some("no end of a range");
        };
        if ends().any(|push| push.end == end) {
            return None;
        }
        match end {
            End::Other => Some("a range has two ends"),
            _ if ends().any(|push| push.end == End::Other) => Some("characters have no order"),
            _ => Some("the width holds nothing beyond this end"),
        }
    };
    Section::new(
        "fields pushed over their range, refused by 5",
        rows,
        &columns.concat(),
        reason,
    )
}

//! Plays inputs against two receivers and compares their answers, refusal
//! numbers and every byte of lent output and state.

#![forbid(unsafe_code)]

mod joins;
mod streams;

use crate::inputs::{Asked, Call, Input, Inputs, Lists, Unfit, Way};
use crate::layout::{layout, SNAPSHOT};
use crate::receiver::{
    ArrivalAnswer, Cursor, Draft, Entry, Found, FrameAnswer, PriceAnswer, ReadAnswer, Receiver,
    RequestAnswer, Says, StepAnswer, Tracker, Verdict, WriteAnswer,
};
use crate::second::rules::Rules;
use crate::table::{self, entry_row, start_row, type_row, Column, Part, Table};
use std::cmp::Ordering;
use std::fmt;

/// The byte that a request's output holds before.
const MARKER: u8 = 0xA5;

/// Bytes behind each lent output, which nobody may write.
const BEHIND: [u8; 64] = [0xC3; 64];

/// The number that is lent for a price. No price is as low as this.
const UNSET: i64 = i64::MIN + 0x5A;

/// A call that two receivers answer differently.
#[derive(Debug)]
pub struct Told {
    call: String,
    first: String,
    second: String,
}

/// A difference, with the input that it was met on.
#[derive(Debug)]
pub struct Difference {
    seed: u64,
    index: u64,
    input: Input,
    told: Told,
}

impl fmt::Display for Difference {
    fn fmt(&self, out: &mut fmt::Formatter<'_>) -> fmt::Result {
        writeln!(
            out,
            "difference at input {} of seed {}",
            self.index, self.seed
        )?;
        writeln!(out, "{}", self.input)?;
        writeln!(out, "call:   {}", self.told.call)?;
        writeln!(out, "first:  {}", self.told.first)?;
        write!(out, "second: {}", self.told.second)
    }
}

/// Plays so many inputs of a seed against two receivers.
pub fn compare(
    first: &dyn Receiver,
    second: &dyn Receiver,
    rules: &Rules,
    inputs: u64,
    seed: u64,
) -> Result<Table, Box<Difference>> {
    compare_some(first, second, rules, inputs, seed, |_| true)
}

/// Plays those of so many inputs of a seed that are asked for.
pub fn compare_some(
    first: &dyn Receiver,
    second: &dyn Receiver,
    rules: &Rules,
    inputs: u64,
    seed: u64,
    asked: fn(&Input) -> bool,
) -> Result<Table, Box<Difference>> {
    let source = Inputs::new(rules, seed);
    let mut play = Play {
        first,
        second,
        table: Table::new(rules),
    };
    for index in 0..inputs {
        let input = source.input(index);
        if !asked(&input) {
            continue;
        }
        if let Err(told) = play.input(&input) {
            return Err(Box::new(Difference {
                seed,
                index,
                input,
                told,
            }));
        }
    }
    Ok(play.table)
}

/// Both answers where they are the same.
fn same<T: PartialEq + fmt::Debug>(
    call: impl FnOnce() -> String,
    first: T,
    second: T,
) -> Result<T, Told> {
    if first == second {
        return Ok(first);
    }
    Err(told(call(), &first, &second))
}

/// A call, and two things about it that do not go together.
fn told(call: String, first: &dyn fmt::Debug, second: &dyn fmt::Debug) -> Told {
    Told {
        call,
        first: format!("{first:?}"),
        second: format!("{second:?}"),
    }
}

/// Lent bytes, told in hex.
#[derive(PartialEq)]
struct Bytes(Vec<u8>);

impl fmt::Debug for Bytes {
    fn fmt(&self, out: &mut fmt::Formatter<'_>) -> fmt::Result {
        self.0
            .iter()
            .try_for_each(|byte| write!(out, "{byte:02X} "))
    }
}

/// The column of something asked for by position.
fn found<T>(answer: &Found<T>) -> Column {
    match answer {
        Found::Refused(number) => Column::Refused(*number),
        Found::NoSuchEntry => Column::NoSuchEntry,
        Found::Found(_) => Column::Found,
    }
}

/// The column of a price asked for.
fn priced(answer: PriceAnswer) -> Column {
    match answer {
        PriceAnswer::Refused(number) => Column::Refused(number),
        PriceAnswer::NoSuchEntry => Column::NoSuchEntry,
        PriceAnswer::NoPrice => Column::NoPrice,
        PriceAnswer::Price => Column::Found,
    }
}

/// A call with a lent output, and the bytes that it leaves there and behind.
fn lent<T>(before: &[u8], call: impl FnOnce(&mut [u8]) -> T) -> (T, Bytes) {
    let mut bytes = [before, &BEHIND].concat();
    let answer = call(&mut bytes[..before.len()]);
    (answer, Bytes(bytes))
}

/// A call with a lent number, and what it holds then.
fn lent_number<T>(call: impl FnOnce(&mut i64) -> T) -> (T, i64) {
    let mut number = UNSET;
    let answer = call(&mut number);
    (answer, number)
}

/// The column of what an entry says.
fn says(entry: &Entry) -> Column {
    match entry.says {
        Says::Level { .. } => Column::Level,
        Says::LevelWithoutPrice { .. } => Column::LevelWithoutPrice,
        Says::Price { .. } => Column::Price,
        Says::Size { .. } => Column::Size,
        Says::PriceAndSize { .. } => Column::PriceAndSize,
        Says::NoLimit => Column::NoLimit,
        Says::Unknown => Column::Unknown,
    }
}

/// Two receivers and what was met with them.
struct Play<'a> {
    first: &'a dyn Receiver,
    second: &'a dyn Receiver,
    table: Table,
}

impl Play<'_> {
    fn input(&mut self, input: &Input) -> Result<(), Told> {
        match input {
            Input::Frame {
                made_as,
                pushed,
                bytes,
                asked,
            } => self.frame(*made_as, *pushed, bytes, *asked),
            Input::Body { kind, body, asked } => self.body(*kind, body, None, *asked),
            Input::Step { kind, body, cursor } => self.step(*kind, body, *cursor).map(|_| ()),
            Input::Write {
                pushed,
                kind,
                numbers,
                texts,
                groups,
                output,
            } => {
                let draft = Draft {
                    kind: *kind,
                    numbers: *numbers,
                    texts,
                    groups,
                };
                self.write(&draft, *pushed, output)
            }
            Input::SetUp { way, lists } => self.set_up(*way, lists).map(|_| ()),
            Input::Arrivals { lists, calls } => {
                let tracker = self.set_up(None, lists)?;
                self.calls(None, tracker, calls)
            }
            Input::Joins { pairs } => pairs.iter().try_for_each(|pair| self.pair(pair)),
            Input::Lines { lists, steps } => self.lines(lists, steps),
            Input::Tracker {
                way,
                tracker,
                calls,
            } => self.calls(*way, **tracker, calls),
            Input::Stream {
                way,
                start,
                buffer,
                bytes,
                calls,
            } => self.stream(*way, *start, buffer, bytes, calls),
        }
    }

    /// Reads a frame, and its body where there is one.
    fn frame(
        &mut self,
        made_as: u32,
        pushed: Option<usize>,
        bytes: &[u8],
        asked: Asked,
    ) -> Result<(), Told> {
        let call = || "frame".to_string();
        let refused = match same(call, self.first.frame(bytes), self.second.frame(bytes))? {
            FrameAnswer::Short { .. } => 1,
            FrameAnswer::Refused(number) => number,
            FrameAnswer::Frame { kind, from, to, .. } => {
                return self.body(kind, &bytes[from..to], pushed, asked)
            }
        };
        let column = Column::Refused(refused);
        self.table.meet(Part::Reader, type_row(made_as), column);
        Ok(())
    }

    /// Reads a body, and asks for what is in it.
    fn body(
        &mut self,
        kind: u32,
        body: &[u8],
        pushed: Option<usize>,
        asked: Asked,
    ) -> Result<(), Told> {
        let call = || format!("read {kind}");
        let answer = same(
            call,
            self.first.read(kind, body),
            self.second.read(kind, body),
        )?;
        let column = match answer {
            ReadAnswer::Refused(number) => Column::Refused(number),
            ReadAnswer::Unknown { .. } | ReadAnswer::Record(_) => Column::Accepted,
        };
        self.table.meet(Part::Reader, type_row(kind), column);
        if let (Some(place), Column::Refused(5)) = (pushed, column) {
            self.table.meet_push(place, false);
        }
        self.positions(kind, body, asked)?;
        self.walk(kind, body, false)
    }

    /// Asks for a group, an entry and a quantity by position.
    fn positions(&mut self, kind: u32, body: &[u8], asked: Asked) -> Result<(), Told> {
        let (entry, quantity) = (asked.entry, asked.quantity);
        let (a, b) = (self.first, self.second);
        let call = || format!("group {entry} of {kind}");
        let answer = same(call, a.group(kind, body, entry), b.group(kind, body, entry))?;
        self.table
            .meet(Part::Positions, table::GROUP, found(&answer));
        let call = || format!("entry {entry} of {kind}");
        let answer = same(call, a.entry(kind, body, entry), b.entry(kind, body, entry))?;
        self.table
            .meet(Part::Positions, table::ENTRY, found(&answer));
        let call = || format!("price of entry {entry} of {kind}");
        let first = lent_number(|price| a.entry_price(kind, body, entry, price));
        let second = lent_number(|price| b.entry_price(kind, body, entry, price));
        let (answer, _) = same(call, first, second)?;
        self.table
            .meet(Part::Positions, table::ENTRY_PRICE, priced(answer));
        let call = || format!("quantity {quantity} of entry {entry} of {kind}");
        let first = a.quantity(kind, body, entry, quantity);
        let answer = same(call, first, b.quantity(kind, body, entry, quantity))?;
        self.table
            .meet(Part::Positions, table::QUANTITY, found(&answer));
        Ok(())
    }

    /// Steps over all entries of a body, and once more.
    fn walk(&mut self, kind: u32, body: &[u8], written: bool) -> Result<(), Told> {
        let call = || format!("start {kind}");
        let first = self.first.start(kind, body);
        let mut cursor = same(call, first, self.second.start(kind, body))?;
        self.table
            .meet(Part::Positions, table::START, Column::Found);
        loop {
            let step = self.step(kind, body, cursor)?;
            let Found::Found(entry) = step.entry else {
                return Ok(());
            };
            let row = entry_row(kind == SNAPSHOT, written);
            self.table.meet(Part::Entries, row, says(&entry));
            cursor = step.next;
        }
    }

    /// Asks for the price of the entry at a cursor, and steps over it: with
    /// its price in one call, and without.
    fn step(&mut self, kind: u32, body: &[u8], cursor: Cursor) -> Result<StepAnswer, Told> {
        let (a, b) = (self.first, self.second);
        let call = || format!("price at step {kind} {cursor:?}");
        let first = lent_number(|price| a.step_price(kind, body, cursor, price));
        let second = lent_number(|price| b.step_price(kind, body, cursor, price));
        let (answer, _) = same(call, first, second)?;
        self.table
            .meet(Part::Positions, table::STEP_PRICE, priced(answer));
        let call = || format!("next {kind} {cursor:?}");
        let first = lent_number(|price| a.next(kind, body, cursor, price));
        let second = lent_number(|price| b.next(kind, body, cursor, price));
        same(call, first, second)?;
        let call = || format!("step {kind} {cursor:?}");
        let answer = same(call, a.step(kind, body, cursor), b.step(kind, body, cursor))?;
        self.table
            .meet(Part::Positions, table::STEP, found(&answer.entry));
        Ok(answer)
    }

    /// Writes a frame, and steps over its entries.
    fn write(&mut self, draft: &Draft, pushed: Option<usize>, before: &[u8]) -> Result<(), Told> {
        let (first, one) = lent(before, |output| self.first.write(draft, output));
        let (second, two) = lent(before, |output| self.second.write(draft, output));
        let answer = same(|| "write".to_string(), first, second)?;
        let output = same(|| "output of write".to_string(), one, two)?;
        let column = match answer {
            WriteAnswer::Refused(number) => Column::Refused(number),
            WriteAnswer::Written(_) => Column::Accepted,
        };
        self.table.meet(Part::Writer, type_row(draft.kind), column);
        if let (Some(place), Column::Refused(5)) = (pushed, column) {
            self.table.meet_push(place, true);
        }
        match (answer, layout(draft.kind)) {
            (WriteAnswer::Written(size), Some(layout)) if layout.has_entries() => {
                self.walk(draft.kind, &output.0[8..size - 4], true)
            }
            _ => Ok(()),
        }
    }

    /// Sets up a tracker.
    fn set_up(&mut self, way: Option<Unfit>, lists: &Lists) -> Result<Tracker, Told> {
        let (channels, from) = (&lists.channels, &lists.from);
        let answer = same(
            || format!("set up {lists}"),
            self.first.set_up(channels, from),
            self.second.set_up(channels, from),
        )?;
        let column = answer.refused.map_or(Column::Accepted, Column::Refused);
        self.table.meet(Part::Tracker, table::SET_UP, column);
        if let (Some(way), Column::Refused(10)) = (way, column) {
            self.table.meet(Part::Unfit, way as usize, column);
        }
        Ok(answer.tracker)
    }

    /// Plays calls one after the other.
    fn calls(
        &mut self,
        way: Option<Way>,
        mut tracker: Tracker,
        calls: &[Call],
    ) -> Result<(), Told> {
        for call in calls {
            let column = self.call(&mut tracker, call)?;
            if let (Some(way), Column::Refused(10)) = (way, column) {
                self.table.meet(Part::Malformed, way as usize, called(call));
            }
        }
        Ok(())
    }

    /// Plays a call, after which the tracker is the next one.
    fn call(&mut self, tracker: &mut Tracker, call: &Call) -> Result<Column, Told> {
        let before = *tracker;
        let (row, column) = match *call {
            Call::Tick { channel, number } => {
                let first = self.first.tick(&before, channel, number);
                let second = self.second.tick(&before, channel, number);
                (table::TICK, arrival(call, tracker, first, second)?)
            }
            Call::Heartbeat { channel, last, end } => {
                let first = self.first.heartbeat(&before, channel, last, end);
                let second = self.second.heartbeat(&before, channel, last, end);
                (table::HEARTBEAT, arrival(call, tracker, first, second)?)
            }
            Call::Request { channel, output } => {
                (table::REQUEST, self.request(&before, channel, output)?)
            }
        };
        self.table.meet(Part::Tracker, row, column);
        if let Some((row, column)) = at_a_start(&before, call, column) {
            self.table.meet(Part::Start, row, column);
        }
        Ok(column)
    }

    /// Asks for lost messages.
    fn request(&self, tracker: &Tracker, channel: u16, output: usize) -> Result<Column, Told> {
        let before = vec![MARKER; output];
        let (first, one) = lent(&before, |out| self.first.request(tracker, channel, out));
        let (second, two) = lent(&before, |out| self.second.request(tracker, channel, out));
        let call = || format!("request {channel} on {tracker:?}");
        let answer = same(call, first, second)?;
        let call = || format!("output of request {channel} on {tracker:?}");
        same(call, one, two)?;
        Ok(match answer {
            RequestAnswer::Refused(number) => Column::Refused(number),
            RequestAnswer::NothingMissing => Column::NothingMissing,
            RequestAnswer::Written(_) => Column::Written,
        })
    }
}

/// The column of a call on a malformed tracker.
fn called(call: &Call) -> Column {
    match call {
        Call::Tick { .. } => Column::Tick,
        Call::Heartbeat { .. } => Column::Heartbeat,
        Call::Request { .. } => Column::Request,
    }
}

/// The row and column of an accepted arrival at its channel's first number or
/// below it.
fn at_a_start(tracker: &Tracker, call: &Call, verdict: Column) -> Option<(usize, Column)> {
    let (channel, number) = match *call {
        Call::Tick { channel, number } => (channel, number),
        Call::Heartbeat { channel, last, .. } => (channel, last),
        Call::Request { .. } => return None,
    };
    if let Column::Refused(_) = verdict {
        return None;
    }
    let used = tracker.numbers.get(..tracker.count)?;
    let place = used.iter().position(|each| *each == channel)?;
    let beside = number.cmp(&i64::try_from(tracker.from[place]).ok()?);
    let column = match (call, beside) {
        (_, Ordering::Greater) => return None,
        (Call::Heartbeat { .. }, Ordering::Equal) => Column::LastAt,
        (Call::Heartbeat { end: 0, .. }, _) => Column::LastBelow,
        (Call::Heartbeat { .. }, _) => Column::EndBelow,
        _ => verdict,
    };
    Some((start_row(tracker, place), column))
}

/// The verdict of an arrival; the tracker goes on to the next one.
fn arrival(
    call: &Call,
    tracker: &mut Tracker,
    first: ArrivalAnswer,
    second: ArrivalAnswer,
) -> Result<Column, Told> {
    let answer = same(|| format!("{call:?} on {tracker:?}"), first, second)?;
    *tracker = answer.next;
    Ok(match answer.verdict {
        Verdict::Refused(number) => Column::Refused(number),
        Verdict::New => Column::New,
        Verdict::Late => Column::Late,
        Verdict::Duplicate => Column::Duplicate,
        Verdict::BeforeStart => Column::BeforeStart,
        Verdict::Heard => Column::Heard,
    })
}

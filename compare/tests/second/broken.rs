//! The comparison can fail: broken variants of the second program are each
//! reported as different.

use super::misjoined::{Misjoin, OF_JOINED, OF_KEPT, OF_REFUSALS};
use super::second;
use super::starts::{Start, OF_GAPS, OF_HEARTBEATS, OF_SET_UPS, OF_TICKS, OF_TRACKERS};
use compare::compare::{compare, compare_some};
use compare::inputs::Input;
use compare::receiver::{
    ArrivalAnswer, Cursor, Draft, Entry, Found, FrameAnswer, Given, Group, JoinAnswer, PriceAnswer,
    ReadAnswer, Receiver, Record, RequestAnswer, Says, SetUpAnswer, Stands, StepAnswer, Stream,
    StreamAnswer, Tracker, Verdict, WriteAnswer,
};
use compare::second::rules::Rules;
use compare::second::Second;

const INPUTS: u64 = 200_000;
const SEED: u64 = 20_170_401;

/// How a broken receiver's difference is told.
fn difference(broken: &dyn Receiver) -> Option<String> {
    let second = second();
    let answer = compare(broken, &second, &second.rules, INPUTS, SEED);
    answer.err().map(|difference| difference.to_string())
}

/// The second program with changed rules is told from itself.
fn changed(name: &str, change: impl Fn(&mut Rules)) -> String {
    let mut rules = Rules::base();
    change(&mut rules);
    let told = difference(&Second { rules });
    let told = told.unwrap_or_else(|| panic!("{name}: no difference"));
    println!("{name}: {}", told.lines().next().unwrap_or(""));
    told
}

#[test]
fn limits_one_off() {
    changed("quantity limit", |rules| rules.quantity_limit -= 1);
    changed("runs", |rules| rules.runs = 31);
    changed("mark of no upper limit", |rules| rules.no_upper_limit -= 1);
    changed("mark of no upper limit above", |rules| {
        rules.no_upper_limit += 1
    });
    changed("mark of no lower limit", |rules| rules.no_lower_limit += 1);
    changed("mark of no lower limit below", |rules| {
        rules.no_lower_limit -= 1
    });
    changed("quantity limit above", |rules| rules.quantity_limit += 1);
    changed("body limit", |rules| rules.body_limit -= 1);
    changed("body limit above", |rules| rules.body_limit += 1);
    changed("price limit", |rules| rules.price_limit -= 1);
    changed("price limit above", |rules| rules.price_limit += 1);
    changed("entry price limit", |rules| rules.entry_price_limit -= 1);
    changed("entry price limit above", |rules| {
        rules.entry_price_limit += 1
    });
    changed("amount limit", |rules| rules.amount_limit -= 1);
    changed("amount limit above", |rules| rules.amount_limit += 1);
    changed("channels", |rules| rules.channels = 7);
    changed("batch", |rules| rules.batch = 199);
    changed("batch above", |rules| rules.batch = 201);
    changed("first numbers", |rules| rules.first_numbers.0 = 2);
    changed("largest first number", |rules| rules.first_numbers.1 -= 1);
    changed("largest first number above", |rules| {
        rules.first_numbers.1 += 1
    });
    changed("highest number", |rules| rules.number_limit -= 1);
    changed("highest number above", |rules| rules.number_limit += 1);
}

#[test]
fn ranges_one_off() {
    changed("references", |rules| rules.reference_from = 1);
    changed("references below", |rules| rules.reference_from = -1);
    changed("record numbers", |rules| rules.record_from = 2);
    changed("record numbers below", |rules| rules.record_from = 0);
    changed("yes/no", |rules| rules.yes_no = (0, 2));
    changed("yes", |rules| rules.yes_no = (1, 1));
    changed("resend types", |rules| rules.resend_types = (1, 3));
    changed("resend types below", |rules| rules.resend_types = (0, 2));
    changed("statuses", |rules| rules.statuses = (0, 3));
    changed("statuses above", |rules| rules.statuses = (0, 5));
    changed("sides", |rules| rules.sides = b"12G");
    changed("more sides", |rules| rules.sides = b"12GFf");
    changed("order types", |rules| rules.order_types = b"12");
    changed("executions", |rules| rules.executions = b"F");
    changed("years", |rules| rules.years = (0, 9998));
    changed("years above", |rules| rules.years = (0, 10_000));
    changed("months", |rules| rules.months = (0, 12));
    changed("months above", |rules| rules.months = (1, 13));
    changed("days", |rules| rules.days = (0, 31));
    changed("days above", |rules| rules.days = (1, 30));
    changed("hours", |rules| rules.hours = (0, 24));
    changed("minutes", |rules| rules.minutes = (0, 60));
    changed("seconds", |rules| rules.seconds = (0, 59));
    changed("seconds above", |rules| rules.seconds = (0, 61));
}

/// How two receivers answer the call on which they differ.
fn answers(told: &str) -> (&str, &str) {
    let (_, behind) = told.split_once("\nfirst:  ").expect("the answers");
    behind.split_once("\nsecond: ").expect("both answers")
}

/// An entry's price has two decimals more than an order's: a range of the
/// other's is told by who refuses.
#[test]
fn ranges_of_the_other_price() {
    let told = changed("entry range of four decimals", |rules| {
        rules.entry_price_limit = rules.price_limit
    });
    let (first, second) = answers(&told);
    assert!(first.contains("Refused(5)"), "{told}");
    assert!(!second.contains("Refused(5)"), "{told}");
    let told = changed("order's price in an entry's range", |rules| {
        rules.price_limit = rules.entry_price_limit
    });
    let (first, second) = answers(&told);
    assert!(!first.contains("Refused(5)"), "{told}");
    assert!(second.contains("Refused(5)"), "{told}");
}

/// The mark of four decimals, and the other's mark, are told by an entry that
/// has no limit for one and a price for the other.
#[test]
fn other_marks() {
    let base = Rules::base();
    let (up, down) = (base.no_upper_limit, base.no_lower_limit);
    for told in [
        changed("upper mark of four decimals", |rules| {
            rules.no_upper_limit = up / 100
        }),
        changed("lower mark of four decimals", |rules| {
            rules.no_lower_limit = down / 100
        }),
        changed("upper mark negative", |rules| rules.no_upper_limit = down),
        changed("lower mark positive", |rules| rules.no_lower_limit = up),
    ] {
        let (first, second) = answers(&told);
        let no_limit = |answer: &str| answer.contains("NoLimit") || answer.contains("NoPrice");
        assert_ne!(no_limit(first), no_limit(second), "{told}");
    }
}

/// Ways to break a receiver that no rule names.
#[derive(Clone, Copy, PartialEq, Eq, Debug)]
enum How {
    RefusesEveryFrame,
    AnswersHeartbeatAlways,
    MadeUpFrameLength,
    WritesNothing,
    WritesBehindTheFrame,
    RefusalChangesTheOutput,
    RequestChangesTheOutput,
    KeepsItsState,
    NewEverAfter,
    MadeUpRun,
    RefusalSetsTheMark,
    PositionBeforeRefusal,
    StepsTooFar,
    RefusedStepMoves,
    PriceWhereThereIsNone,
    NumberChangedOnNoPrice,
    MarkOfFourDecimalsToo,
    OtherMarkToo,
    BeyondTheMarkToo,
    MarkInEveryEntry,
    EndsOnOneOnly,
    EightBeforeSeven,
    EightBeforeTen,
    TakesTheWholeCut,
    ForgetsWhatIsHeld,
    SaysInTheCut,
    GoesOnAfterTwo,
    TwoTakesTheWholeCut,
    ThreeTakesTheHeader,
    OneWhileItGoesOn,
    NoBytesAreTheEnd,
    CopiesAFrameOfTheCut,
    CopiesTheWholeCut,
    ClearsBehindTheHeld,
    EndsWithBytesLeftOver,
    EndForgetsWhatIsHeld,
    EndClearsTheBuffer,
    StoppedTakesBytes,
    AcceptsAnyState,
    AcceptsAShortBuffer,
    AcceptsAFrameHeld,
    RepeatsBeforeTen,
    RefusalTenClearsTheState,
    MissesTheWholeHeader,
    MissesTheWholeFrame,
    MissesOneMore,
    MissesOneLess,
    MissesTheHeaderAlone,
    MissesNothing,
    MoreMissesNothing,
    MoreCountsTheCutAlone,
    MoreCountsTheHeldAlone,
    EndMissesNothing,
    RepeatedMissesNothing,
    /// A first number wrong.
    Start(Start),
    /// A join wrong.
    Join(Misjoin),
}

/// All but those that get a number of missing bytes, a first number or a join
/// wrong.
const ALL: [How; 43] = [
    How::RefusesEveryFrame,
    How::AnswersHeartbeatAlways,
    How::MadeUpFrameLength,
    How::WritesNothing,
    How::WritesBehindTheFrame,
    How::RefusalChangesTheOutput,
    How::RequestChangesTheOutput,
    How::KeepsItsState,
    How::NewEverAfter,
    How::MadeUpRun,
    How::RefusalSetsTheMark,
    How::PositionBeforeRefusal,
    How::StepsTooFar,
    How::RefusedStepMoves,
    How::PriceWhereThereIsNone,
    How::NumberChangedOnNoPrice,
    How::MarkOfFourDecimalsToo,
    How::OtherMarkToo,
    How::BeyondTheMarkToo,
    How::MarkInEveryEntry,
    How::EndsOnOneOnly,
    How::EightBeforeSeven,
    How::EightBeforeTen,
    How::TakesTheWholeCut,
    How::ForgetsWhatIsHeld,
    How::SaysInTheCut,
    How::GoesOnAfterTwo,
    How::TwoTakesTheWholeCut,
    How::ThreeTakesTheHeader,
    How::OneWhileItGoesOn,
    How::NoBytesAreTheEnd,
    How::CopiesAFrameOfTheCut,
    How::CopiesTheWholeCut,
    How::ClearsBehindTheHeld,
    How::EndsWithBytesLeftOver,
    How::EndForgetsWhatIsHeld,
    How::EndClearsTheBuffer,
    How::StoppedTakesBytes,
    How::AcceptsAnyState,
    How::AcceptsAShortBuffer,
    How::AcceptsAFrameHeld,
    How::RepeatsBeforeTen,
    How::RefusalTenClearsTheState,
];

/// Those that get a number of missing bytes wrong, and nothing else.
const MISSING: [How; 11] = [
    How::MissesTheWholeHeader,
    How::MissesTheWholeFrame,
    How::MissesOneMore,
    How::MissesOneLess,
    How::MissesTheHeaderAlone,
    How::MissesNothing,
    How::MoreMissesNothing,
    How::MoreCountsTheCutAlone,
    How::MoreCountsTheHeldAlone,
    How::EndMissesNothing,
    How::RepeatedMissesNothing,
];

/// Whether a number has come on any channel of a tracker.
fn has_come(tracker: &Tracker) -> bool {
    (0..tracker.count).any(|place| tracker.highest[place] >= tracker.from[place])
}

/// A stream that has stopped at 2.
const STOPPED: Stream = Stream { held: 0, mark: 2 };

/// The second program, broken in one way.
struct Broken {
    second: Second,
    how: How,
}

impl Broken {
    fn is(&self, how: How) -> bool {
        self.how == how
    }

    /// An entry, broken: a price is no limit.
    fn said(&self, found: Found<Entry>) -> Found<Entry> {
        let Found::Found(mut entry) = found else {
            return found;
        };
        let Says::Price { price } = entry.says else {
            return found;
        };
        let rules = &self.second.rules;
        let (up, down) = (rules.no_upper_limit, rules.no_lower_limit);
        let no_limit = match (self.how, &entry.kind) {
            (How::MarkOfFourDecimalsToo, b"xe") => price == up / 100,
            (How::MarkOfFourDecimalsToo, b"xf") => price == down / 100,
            (How::OtherMarkToo, b"xe") => price == down,
            (How::OtherMarkToo, b"xf") => price == up,
            (How::BeyondTheMarkToo, b"xe") => price > up,
            (How::BeyondTheMarkToo, b"xf") => price < down,
            (How::MarkInEveryEntry, b"xe" | b"xf") => false,
            (How::MarkInEveryEntry, _) => price == up || price == down,
            _ => false,
        };
        if no_limit {
            entry.says = Says::NoLimit;
        }
        Found::Found(entry)
    }

    /// A price asked for, broken.
    fn priced(&self, answer: PriceAnswer, price: &mut i64) -> PriceAnswer {
        match (self.how, answer) {
            (How::PriceWhereThereIsNone, PriceAnswer::NoPrice) => PriceAnswer::Price,
            (How::NumberChangedOnNoPrice, PriceAnswer::NoPrice) => {
                *price = 0;
                answer
            }
            _ => answer,
        }
    }

    /// How many bytes are missing to these, broken.
    fn missing(&self, bytes: &[u8], missing: usize) -> usize {
        let there = bytes.len();
        match self.how {
            How::MissesTheWholeHeader if there < 8 => missing + there,
            How::MissesTheWholeFrame if there >= 8 => missing + there,
            How::MissesOneMore => missing + 1,
            How::MissesOneLess => missing - 1,
            How::MissesTheHeaderAlone => 8usize.saturating_sub(there),
            How::MissesNothing => 0,
            _ => missing,
        }
    }

    /// A frame of a stream, broken.
    fn break_frame(
        &self,
        stream: Stream,
        buffer: &mut [u8],
        cut: &[u8],
        answer: &mut StreamAnswer,
    ) {
        let Given::Frame { stands, .. } = &mut answer.given else {
            return;
        };
        match self.how {
            How::TakesTheWholeCut => answer.took = cut.len(),
            How::SaysInTheCut => *stands = Stands::InCut,
            How::CopiesAFrameOfTheCut if *stands == Stands::InCut => {
                buffer[..answer.took].copy_from_slice(&cut[..answer.took])
            }
            How::CopiesTheWholeCut if *stands == Stands::InBuffer => {
                let behind = buffer[stream.held..].iter_mut().zip(cut);
                behind.for_each(|(place, byte)| *place = *byte);
            }
            _ => {}
        }
    }

    /// A call that lacks bytes, broken.
    fn break_more(&self, stream: Stream, buffer: &mut [u8], cut: &[u8], answer: &mut StreamAnswer) {
        let Given::More { missing } = &mut answer.given else {
            return;
        };
        match self.how {
            How::MoreMissesNothing => *missing = 0,
            How::MoreCountsTheCutAlone => *missing = self.lacks(cut).unwrap_or(*missing),
            How::MoreCountsTheHeldAlone => {
                *missing = self.lacks(&buffer[..stream.held]).unwrap_or(*missing)
            }
            How::OneWhileItGoesOn => answer.given = Given::Short { missing: *missing },
            How::NoBytesAreTheEnd if cut.is_empty() => answer.given = Given::End,
            How::ClearsBehindTheHeld => buffer[answer.next.held..].fill(0),
            _ => {}
        }
    }

    /// How many bytes are missing to these, where they lack some.
    fn lacks(&self, bytes: &[u8]) -> Option<usize> {
        match self.second.frame(bytes) {
            FrameAnswer::Short { missing } => Some(missing),
            _ => None,
        }
    }

    /// A refusal by 1 of a stream, broken.
    fn break_short(&self, stream: Stream, cut: &[u8], answer: &mut StreamAnswer) {
        let Given::Short { missing } = &mut answer.given else {
            return;
        };
        match self.how {
            How::EndMissesNothing if stream.mark == 0 => *missing = 0,
            How::RepeatedMissesNothing if stream.mark != 0 => *missing = 0,
            How::StoppedTakesBytes if stream.mark != 0 => answer.took = cut.len(),
            _ => {}
        }
    }

    /// A refusal of a stream, broken.
    fn break_refusal(
        &self,
        stream: Stream,
        buffer: &mut [u8],
        cut: &[u8],
        answer: &mut StreamAnswer,
    ) {
        let Given::Refused(number) = answer.given else {
            return;
        };
        match (self.how, number) {
            (How::TwoTakesTheWholeCut, 2) if stream.mark == 0 => answer.took = cut.len(),
            (How::ThreeTakesTheHeader, 3) if stream.mark == 0 => {
                answer.took = 8usize.saturating_sub(stream.held)
            }
            (How::StoppedTakesBytes, 2 | 3) if stream.mark != 0 => answer.took = cut.len(),
            (How::AcceptsAnyState, 10) => answer.given = Given::More { missing: 1 },
            (How::AcceptsAShortBuffer, 10) => {
                let mut longer = [&*buffer, &[0]].concat();
                *answer = self.second.push(stream, &mut longer, cut);
                buffer.copy_from_slice(&longer[..buffer.len()]);
            }
            (How::AcceptsAFrameHeld, 10) => {
                let held = buffer.get(..stream.held).unwrap_or(&[]);
                if let FrameAnswer::Frame { .. } = self.second.frame(held) {
                    answer.given = Given::More { missing: 1 };
                }
            }
            (How::RepeatsBeforeTen, 10) if matches!(stream.mark, 2 | 3) => {
                answer.given = Given::Refused(stream.mark)
            }
            (How::RefusalTenClearsTheState, 10) => answer.next = self.fresh(),
            _ => {}
        }
    }
}

impl Receiver for Broken {
    fn frame(&self, bytes: &[u8]) -> FrameAnswer {
        match (self.how, self.second.frame(bytes)) {
            (How::RefusesEveryFrame, _) => FrameAnswer::Short { missing: 1 },
            (_, FrameAnswer::Short { missing }) => FrameAnswer::Short {
                missing: self.missing(bytes, missing),
            },
            (How::MadeUpFrameLength, FrameAnswer::Frame { kind, from, to, .. }) => {
                FrameAnswer::Frame {
                    kind,
                    from,
                    to,
                    size: bytes.len(),
                }
            }
            (_, answer) => answer,
        }
    }

    fn fresh(&self) -> Stream {
        self.second.fresh()
    }

    fn push(&self, stream: Stream, buffer: &mut [u8], cut: &[u8]) -> StreamAnswer {
        let handed = match self.how {
            How::ForgetsWhatIsHeld if stream.mark == 0 => self.fresh(),
            How::GoesOnAfterTwo if stream == STOPPED => self.fresh(),
            _ => stream,
        };
        let mut answer = self.second.push(handed, buffer, cut);
        match answer.given {
            Given::Frame { .. } => self.break_frame(stream, buffer, cut, &mut answer),
            Given::More { .. } => self.break_more(stream, buffer, cut, &mut answer),
            Given::Short { .. } => self.break_short(stream, cut, &mut answer),
            Given::Refused(_) => self.break_refusal(stream, buffer, cut, &mut answer),
            Given::End if self.is(How::StoppedTakesBytes) => answer.took = cut.len(),
            Given::End => {}
        }
        answer
    }

    fn end(&self, stream: Stream, buffer: &mut [u8]) -> StreamAnswer {
        let mut answer = self.second.end(stream, buffer);
        let left_over = matches!(answer.given, Given::Short { .. });
        match self.how {
            How::EndsWithBytesLeftOver if left_over => answer.given = Given::End,
            How::EndForgetsWhatIsHeld if left_over => answer.next.held = 0,
            How::EndClearsTheBuffer if left_over => buffer[..stream.held].fill(0),
            _ if left_over => self.break_short(stream, &[], &mut answer),
            _ if answer.given == Given::Refused(10) => {
                self.break_refusal(stream, buffer, &[], &mut answer)
            }
            _ => {}
        }
        answer
    }

    fn read(&self, kind: u32, body: &[u8]) -> ReadAnswer {
        if self.is(How::AnswersHeartbeatAlways) {
            return ReadAnswer::Record(Record {
                kind: 3,
                numbers: [0; 8],
                texts: [0; 24],
            });
        }
        self.second.read(kind, body)
    }

    fn group(&self, kind: u32, body: &[u8], position: u32) -> Found<Group> {
        self.second.group(kind, body, position)
    }

    fn entry(&self, kind: u32, body: &[u8], position: u32) -> Found<Entry> {
        if self.is(How::PositionBeforeRefusal) && position == u32::MAX {
            return Found::NoSuchEntry;
        }
        self.said(self.second.entry(kind, body, position))
    }

    fn quantity(&self, kind: u32, body: &[u8], entry: u32, position: u32) -> Found<i64> {
        self.second.quantity(kind, body, entry, position)
    }

    fn entry_price(&self, kind: u32, body: &[u8], position: u32, price: &mut i64) -> PriceAnswer {
        let answer = self.second.entry_price(kind, body, position, price);
        self.priced(answer, price)
    }

    fn start(&self, kind: u32, body: &[u8]) -> Cursor {
        self.second.start(kind, body)
    }

    fn step(&self, kind: u32, body: &[u8], cursor: Cursor) -> StepAnswer {
        let mut answer = self.second.step(kind, body, cursor);
        answer.entry = self.said(answer.entry);
        match (self.how, answer.entry) {
            (How::StepsTooFar, Found::Found(_)) => answer.next.left = cursor.left,
            (How::RefusedStepMoves, Found::Refused(_)) => answer.next.left -= 1,
            _ => {}
        }
        answer
    }

    fn step_price(&self, kind: u32, body: &[u8], cursor: Cursor, price: &mut i64) -> PriceAnswer {
        let answer = self.second.step_price(kind, body, cursor, price);
        self.priced(answer, price)
    }

    fn write(&self, draft: &Draft, output: &mut [u8]) -> WriteAnswer {
        let before = output.to_vec();
        let answer = self.second.write(draft, output);
        match (self.how, answer) {
            (How::WritesNothing, _) => output.copy_from_slice(&before),
            (How::WritesBehindTheFrame, WriteAnswer::Written(size)) if size < output.len() => {
                output[size] = !output[size];
            }
            (How::RefusalChangesTheOutput, WriteAnswer::Refused(2)) if !output.is_empty() => {
                output[0] = !output[0];
            }
            _ => {}
        }
        answer
    }

    fn set_up(&self, channels: &[u16], from: &[i64]) -> SetUpAnswer {
        match self.how {
            How::Start(start) => start.set_up(&self.second, channels, from),
            _ => self.second.set_up(channels, from),
        }
    }

    fn tick(&self, tracker: &Tracker, channel: u16, number: i64) -> ArrivalAnswer {
        if let How::Start(start) = self.how {
            return start.tick(&self.second, tracker, channel, number);
        }
        let mut answer = self.second.tick(tracker, channel, number);
        let refused = matches!(answer.verdict, Verdict::Refused(_));
        match self.how {
            How::KeepsItsState => answer.next = *tracker,
            How::EightBeforeSeven if answer.verdict == Verdict::Refused(7) && number < 1 => {
                answer.verdict = Verdict::Refused(8)
            }
            How::EightBeforeTen if answer.verdict == Verdict::Refused(10) && number < 1 => {
                answer.verdict = Verdict::Refused(8)
            }
            How::NewEverAfter if !refused && has_come(tracker) => {
                answer = ArrivalAnswer {
                    verdict: Verdict::New,
                    next: *tracker,
                }
            }
            How::MadeUpRun if answer.verdict == Verdict::New => {
                answer.next.first[255] = number as u64
            }
            _ => {}
        }
        answer
    }

    fn heartbeat(&self, tracker: &Tracker, channel: u16, last: i64, end: u8) -> ArrivalAnswer {
        if let How::Start(start) = self.how {
            return start.heartbeat(&self.second, tracker, channel, last, end);
        }
        let end = match self.how {
            How::EndsOnOneOnly => u8::from(end == 1),
            _ => end,
        };
        let mut answer = self.second.heartbeat(tracker, channel, last, end);
        if self.is(How::RefusalSetsTheMark) && answer.verdict == Verdict::Refused(9) && end != 0 {
            answer.next.ended[0] = 1;
        }
        answer
    }

    fn join(&self, tracker: &Tracker, other: &Tracker) -> JoinAnswer {
        match self.how {
            How::Join(join) => join.join(&self.second, tracker, other),
            _ => self.second.join(tracker, other),
        }
    }

    fn request(&self, tracker: &Tracker, channel: u16, output: &mut [u8]) -> RequestAnswer {
        if let How::Start(start) = self.how {
            return start.request(&self.second, tracker, channel, output);
        }
        let answer = self.second.request(tracker, channel, output);
        let nothing = answer == RequestAnswer::NothingMissing;
        if self.is(How::RequestChangesTheOutput) && nothing && !output.is_empty() {
            output[0] = !output[0];
        }
        answer
    }
}

#[test]
fn broken_receivers_are_told() {
    for how in ALL {
        let told = difference(&Broken {
            second: second(),
            how,
        });
        let told = told.unwrap_or_else(|| panic!("{how:?}: no difference"));
        println!("{how:?}: {}", told.lines().next().unwrap_or(""));
    }
}

/// Broken in the same way, two receivers do not differ: the whole stream,
/// read at once, tells what they get wrong.
#[test]
fn the_whole_stream_tells_what_both_get_wrong() {
    for how in [
        How::TakesTheWholeCut,
        How::ForgetsWhatIsHeld,
        How::SaysInTheCut,
        How::GoesOnAfterTwo,
        How::OneWhileItGoesOn,
        How::NoBytesAreTheEnd,
        How::EndsWithBytesLeftOver,
        How::EndForgetsWhatIsHeld,
        How::EndMissesNothing,
        How::RepeatedMissesNothing,
    ] {
        let told = with_itself(how);
        let call = "\ncall:   the frames of the cuts, and of the whole stream\n";
        assert!(told.contains(call), "{how:?}: {told}");
    }
}

/// How the difference of a broken receiver, compared with itself, is told.
fn with_itself(how: How) -> String {
    let both = Broken {
        second: second(),
        how,
    };
    let answer = compare(&both, &both, &both.second.rules, 10_000, SEED);
    let told = answer.err().map(|difference| difference.to_string());
    told.unwrap_or_else(|| panic!("{how:?}: no difference"))
}

/// What two receivers get wrong in the same way of "more", the frame reader
/// tells of the bytes that are held then.
#[test]
fn the_held_bytes_tell_what_both_get_wrong() {
    for how in [
        How::MoreMissesNothing,
        How::MoreCountsTheCutAlone,
        How::MoreCountsTheHeldAlone,
    ] {
        let told = with_itself(how);
        let call = "\ncall:   what is missing behind push on ";
        assert!(told.contains(call), "{how:?}: {told}");
    }
}

/// An answer with its number of missing bytes left out.
fn but_missing(answer: &str) -> Option<String> {
    let (before, behind) = answer.split_once("missing: ")?;
    let behind = behind.trim_start_matches(|c: char| c.is_ascii_digit());
    Some(format!("{before}{behind}"))
}

#[test]
fn wrong_numbers_of_missing_bytes_are_told() {
    for how in MISSING {
        let told = difference(&Broken {
            second: second(),
            how,
        });
        let told = told.unwrap_or_else(|| panic!("{how:?}: no difference"));
        println!("{how:?}: {}", told.lines().next().unwrap_or(""));
        let (first, second) = answers(&told);
        assert!(but_missing(first).is_some(), "{told}");
        assert_eq!(but_missing(first), but_missing(second), "{told}");
    }
}

/// How a wrong first number is told: the call, and both answers.
fn start_told(start: Start) -> (String, String, String) {
    call_told(How::Start(start))
}

/// How a broken receiver is told: the call, and both answers.
fn call_told(how: How) -> (String, String, String) {
    let told = difference(&Broken {
        second: second(),
        how,
    });
    let told = told.unwrap_or_else(|| panic!("{how:?}: no difference"));
    println!("{how:?}: {}", told.lines().next().unwrap_or(""));
    let (_, call) = told.split_once("\ncall:   ").expect("the call");
    let (first, second) = answers(&told);
    (call.to_string(), first.to_string(), second.to_string())
}

#[test]
fn first_numbers_that_a_set_up_gets_wrong_are_told() {
    for start in OF_SET_UPS {
        let (call, _, _) = start_told(start);
        assert!(call.starts_with("set up "), "{start:?}: {call}");
    }
}

#[test]
fn ticks_that_a_first_number_decides_are_told() {
    for start in OF_TICKS {
        let (call, first, second) = start_told(start);
        assert!(call.starts_with("Tick "), "{start:?}: {call}");
        let below = |answer: &str| answer.contains("verdict: BeforeStart");
        let changed = matches!(start, Start::BelowLowersTheFirst | Start::BelowSetsTheMark);
        assert_eq!(below(&first) && below(&second), changed, "{start:?}");
        assert!(below(&first) || below(&second), "{start:?}");
    }
}

#[test]
fn last_numbers_below_a_first_number_are_told() {
    for start in OF_HEARTBEATS {
        let (call, _, second) = start_told(start);
        assert!(call.starts_with("Heartbeat "), "{start:?}: {call}");
        assert!(second.contains("verdict: Heard"), "{start:?}");
    }
}

#[test]
fn gaps_that_begin_elsewhere_are_told() {
    for start in OF_GAPS {
        let (call, _, _) = start_told(start);
        assert!(
            call.starts_with("Tick ") || call.starts_with("Heartbeat "),
            "{start:?}: {call}"
        );
    }
}

#[test]
fn trackers_accepted_with_a_wrong_first_number_are_told() {
    for start in OF_TRACKERS {
        let (_, first, second) = start_told(start);
        assert!(!first.contains("Refused(10)"), "{start:?}: {first}");
        assert!(second.contains("Refused(10)"), "{start:?}: {second}");
    }
}

/// How a wrong join is told: both answers.
fn join_told(join: Misjoin) -> (String, String) {
    let (call, first, second) = call_told(How::Join(join));
    assert!(call.starts_with("join Tracker "), "{join:?}: {call}");
    (first, second)
}

/// The refusal of a join's answer, as it is told.
fn refusal(answer: &str) -> &str {
    let (before, _) = answer.split_once(", next: ").expect("a tracker");
    before
}

const JOINED: &str = "JoinAnswer { refused: None";

#[test]
fn joins_that_leave_another_tracker_are_told() {
    for join in OF_JOINED {
        let (first, second) = join_told(join);
        let joined = refusal(&first) == JOINED || refusal(&second) == JOINED;
        assert!(joined, "{join:?}: {first}\n{second}");
    }
}

#[test]
fn joins_refused_otherwise_are_told() {
    for join in OF_REFUSALS {
        let (first, second) = join_told(join);
        assert_ne!(refusal(&first), refusal(&second), "{join:?}");
        assert_ne!(refusal(&second), JOINED, "{join:?}");
    }
}

#[test]
fn refused_joins_that_leave_another_tracker_are_told() {
    for join in OF_KEPT {
        let (first, second) = join_told(join);
        assert_eq!(refusal(&first), refusal(&second), "{join:?}");
        assert_ne!(refusal(&first), JOINED, "{join:?}");
    }
}

/// The joins of the broken receivers are another program's: with nothing broken
/// there is no difference.
#[test]
fn an_unbroken_join_is_not_told() {
    let told = difference(&Broken {
        second: second(),
        how: How::Join(Misjoin::Nothing),
    });
    assert_eq!(told, None);
}

/// What two receivers get wrong in the same way is told by how the pairs were
/// made.
#[test]
fn pairs_tell_what_both_get_wrong() {
    for join in [&OF_JOINED[..], &OF_REFUSALS, &OF_KEPT].concat() {
        let told = join_with_itself(join, |input| matches!(input, Input::Joins { .. }));
        assert!(
            told.contains("\ncall:   as made, join "),
            "{join:?}: {told}"
        );
    }
}

/// And by both lists of arrivals played into one tracker, where it leaves
/// another one: all but those that are refused wrongly.
#[test]
fn both_lists_tell_what_both_get_wrong() {
    let refused = [
        Misjoin::NineAt32,
        Misjoin::NineByBothCounts,
        Misjoin::NineBeforeTheyTouch,
        Misjoin::ChangesTheSecond,
        Misjoin::DropsThe33rd,
    ];
    for join in OF_JOINED.into_iter().filter(|join| !refused.contains(join)) {
        let told = join_with_itself(join, |input| matches!(input, Input::Lines { .. }));
        assert!(
            told.contains("\ncall:   as played, join "),
            "{join:?}: {told}"
        );
    }
}

/// How the difference of a wrong join, compared with itself on some inputs, is
/// told.
fn join_with_itself(join: Misjoin, asked: fn(&Input) -> bool) -> String {
    let both = Broken {
        second: second(),
        how: How::Join(join),
    };
    let answer = compare_some(&both, &both, &both.second.rules, INPUTS, SEED, asked);
    let told = answer.err().map(|difference| difference.to_string());
    told.unwrap_or_else(|| panic!("{join:?}: no difference"))
}

#[test]
fn a_difference_tells_input_and_answers() {
    let told = difference(&Broken {
        second: second(),
        how: How::RefusesEveryFrame,
    });
    let told = told.expect("a difference");
    assert!(
        told.starts_with("difference at input 0 of seed 20170401\nframe ("),
        "{told}"
    );
    assert!(
        told.contains("call:   frame\nfirst:  Short { missing: 1 }\nsecond: Frame {"),
        "{told}"
    );
}

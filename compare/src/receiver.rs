//! The calls of a receiver in the rules' terms, one method for each, with
//! plain answers. Refusals are the rules' numbers.

use std::fmt;

/// The most fixed fields that a listed type has (300191).
pub const NUMBERS: usize = 8;
/// The most bytes of texts that a listed type has (390094).
pub const TEXTS: usize = 24;
/// Places for channels in a tracker.
pub const CHANNELS: usize = 8;
/// Places for runs in a channel.
pub const RUNS: usize = 32;
/// Places for runs in a tracker: those of channel c begin at c times `RUNS`.
pub const PLACES: usize = CHANNELS * RUNS;

/// The frame reader's answer.
#[derive(Clone, Copy, PartialEq, Eq, Debug)]
pub enum FrameAnswer {
    /// Refused by 1: how many bytes more would let it judge further.
    Short { missing: usize },
    /// Refused by any other number.
    Refused(u32),
    /// The type; the body as the lent bytes from `from` to `to`; 12+L.
    Frame {
        kind: u32,
        from: usize,
        to: usize,
        size: usize,
    },
}

/// A record: the type, its fixed fields as numbers and its texts, each in
/// the order of the rules' table. A group count is a fixed field; so are
/// side, order type and execution type. Texts stand one behind the other.
/// Unused places are zero.
#[derive(Clone, Copy, PartialEq, Eq, Debug)]
pub struct Record {
    pub kind: u32,
    pub numbers: [i64; NUMBERS],
    pub texts: [u8; TEXTS],
}

/// The record reader's answer.
#[derive(Clone, Copy, PartialEq, Eq, Debug)]
pub enum ReadAnswer {
    Refused(u32),
    /// An unlisted type, with the length of its body.
    Unknown {
        kind: u32,
        length: usize,
    },
    Record(Record),
}

/// An answer to something asked for by position.
#[derive(Clone, Copy, PartialEq, Eq, Debug)]
pub enum Found<T> {
    Refused(u32),
    NoSuchEntry,
    Found(T),
}

/// What an entry says: exactly one of seven things.
#[derive(Clone, Copy, PartialEq, Eq, Debug)]
pub enum Says {
    Level {
        price: i64,
        size: i64,
        level: u16,
        order_count: i64,
    },
    LevelWithoutPrice {
        size: i64,
        level: u16,
        order_count: i64,
    },
    Price {
        price: i64,
    },
    Size {
        size: i64,
    },
    PriceAndSize {
        price: i64,
        size: i64,
    },
    NoLimit,
    Unknown,
}

impl Says {
    /// The price that it says, if any.
    pub fn price(&self) -> Option<i64> {
        match *self {
            Says::Level { price, .. } | Says::Price { price } => Some(price),
            Says::PriceAndSize { price, .. } => Some(price),
            Says::LevelWithoutPrice { .. } | Says::Size { .. } => None,
            Says::NoLimit | Says::Unknown => None,
        }
    }
}

/// The answer to a price asked for; the price goes to a lent number, which
/// every other answer leaves as it stood.
#[derive(Clone, Copy, PartialEq, Eq, Debug)]
pub enum PriceAnswer {
    Refused(u32),
    NoSuchEntry,
    NoPrice,
    Price,
}

/// An entry: its two type characters, a level's shown count, which is 0 for
/// all that is no level, and what it says.
#[derive(Clone, Copy, PartialEq, Eq, Debug)]
pub struct Entry {
    pub kind: [u8; 2],
    pub shown: u32,
    pub says: Says,
}

/// A group of 390090 or of 390013.
#[derive(Clone, Copy, PartialEq, Eq, Debug)]
pub enum Group {
    Statistics {
        stream: [u8; 3],
        stock_number: u32,
        phase: [u8; 8],
    },
    SecurityStatus {
        switch_type: u16,
        yes_no: u16,
    },
}

/// A stepping cursor: the offset of the next entry in the body, and the
/// number of entries left. Its layout is the C header's.
#[repr(C)]
#[derive(Clone, Copy, PartialEq, Eq, Debug)]
pub struct Cursor {
    pub offset: usize,
    pub left: u32,
}

/// A step's answer: the entry and the cursor behind it; without an entry the
/// cursor as it stood.
#[derive(Clone, Copy, PartialEq, Eq, Debug)]
pub struct StepAnswer {
    pub entry: Found<Entry>,
    pub next: Cursor,
}

/// What the writer takes: the type, fixed fields as numbers in the order of
/// `Record`, texts and groups as lent bytes in wire layout. Each number fits
/// its field's width; places behind the type's fields play no part.
#[derive(Clone, Copy, PartialEq, Eq, Debug)]
pub struct Draft<'a> {
    pub kind: u32,
    pub numbers: [i64; NUMBERS],
    pub texts: &'a [u8],
    pub groups: &'a [u8],
}

/// The writer's answer: 12+L, the bytes written.
#[derive(Clone, Copy, PartialEq, Eq, Debug)]
pub enum WriteAnswer {
    Refused(u32),
    Written(usize),
}

/// A tracker as plain arrays. Unused places are zero. Its layout is the C
/// header's.
#[repr(C)]
#[derive(Clone, Copy, PartialEq, Eq)]
pub struct Tracker {
    /// How many channels there are.
    pub count: usize,
    /// The channel numbers, strictly ascending.
    pub numbers: [u16; CHANNELS],
    /// Each channel's first number.
    pub from: [u64; CHANNELS],
    /// Each channel's highest number.
    pub highest: [u64; CHANNELS],
    /// Each channel's ended mark, 0 or 1.
    pub ended: [u8; CHANNELS],
    /// How many runs of missing numbers each channel has.
    pub counts: [usize; CHANNELS],
    /// The first number of each run.
    pub first: [u64; PLACES],
    /// The last number of each run.
    pub last: [u64; PLACES],
}

impl Tracker {
    /// The all-zero tracker, with no channel.
    pub const ZERO: Tracker = Tracker {
        count: 0,
        numbers: [0; CHANNELS],
        from: [0; CHANNELS],
        highest: [0; CHANNELS],
        ended: [0; CHANNELS],
        counts: [0; CHANNELS],
        first: [0; PLACES],
        last: [0; PLACES],
    };
}

impl fmt::Debug for Tracker {
    /// All but the run places that are zero.
    fn fmt(&self, out: &mut fmt::Formatter<'_>) -> fmt::Result {
        write!(
            out,
            "Tracker {{ count {}, numbers {:?}, from {:?}, highest {:?}, ended {:?}, counts {:?}, runs",
            self.count, self.numbers, self.from, self.highest, self.ended, self.counts
        )?;
        for place in 0..PLACES {
            let (first, last) = (self.first[place], self.last[place]);
            if first != 0 || last != 0 {
                write!(out, " [{place}] {first}-{last}")?;
            }
        }
        write!(out, " }}")
    }
}

/// The answer to a set-up: a refusal's number, if any, and the tracker.
#[derive(Clone, Copy, PartialEq, Eq, Debug)]
pub struct SetUpAnswer {
    pub refused: Option<u32>,
    pub tracker: Tracker,
}

/// How an arrival is answered.
#[derive(Clone, Copy, PartialEq, Eq, Debug)]
pub enum Verdict {
    Refused(u32),
    New,
    Late,
    Duplicate,
    /// A tick below its channel's first number.
    BeforeStart,
    Heard,
}

/// The answer to an arrival: the verdict and the next tracker.
#[derive(Clone, Copy, PartialEq, Eq, Debug)]
pub struct ArrivalAnswer {
    pub verdict: Verdict,
    pub next: Tracker,
}

/// The answer to a join: a refusal's number, if any, and the next tracker.
#[derive(Clone, Copy, PartialEq, Eq, Debug)]
pub struct JoinAnswer {
    pub refused: Option<u32>,
    pub next: Tracker,
}

/// The answer to a request: the bytes written.
#[derive(Clone, Copy, PartialEq, Eq, Debug)]
pub enum RequestAnswer {
    Refused(u32),
    NothingMissing,
    Written(usize),
}

/// A stream between its calls: how many bytes of an unfinished frame the lent
/// buffer begins with, and how it stands: 0 goes on, 1 was told to have ended,
/// 2 and 3 stopped at that refusal. Its layout is the C header's.
#[repr(C)]
#[derive(Clone, Copy, PartialEq, Eq, Debug)]
pub struct Stream {
    pub held: usize,
    pub mark: u32,
}

/// Where the bytes of a stream's frame stand: the cut or the buffer begins
/// with them.
#[derive(Clone, Copy, PartialEq, Eq, Debug)]
pub enum Stands {
    InCut,
    InBuffer,
}

/// What a call of the stream found.
#[derive(Clone, Copy, PartialEq, Eq, Debug)]
pub enum Given {
    /// Refused by 1: how many bytes the held ones lack.
    Short { missing: usize },
    /// Refused by any other number.
    Refused(u32),
    /// The whole cut is taken, and no frame is whole yet: how many bytes those
    /// held and the cut lack together.
    More { missing: usize },
    /// The stream has ended, with no bytes left over.
    End,
    /// A frame: where it stands, its type, L and 12+L.
    Frame {
        stands: Stands,
        kind: u32,
        length: usize,
        size: usize,
    },
}

/// The answer of a stream's call: what it found, how many bytes of the cut it
/// took, and the stream for the next call.
#[derive(Clone, Copy, PartialEq, Eq, Debug)]
pub struct StreamAnswer {
    pub given: Given,
    pub took: usize,
    pub next: Stream,
}

/// The calls of a receiver.
pub trait Receiver {
    /// Reads the frame at the beginning of the bytes: 1 to 3, of which 1 says
    /// how many bytes are missing.
    fn frame(&self, bytes: &[u8]) -> FrameAnswer;

    /// A stream of which nothing has come.
    fn fresh(&self) -> Stream;

    /// A cut of the stream comes: 10; where it has stopped, its answer again;
    /// then a frame, 2, 3 or more, which says how many bytes are missing. Held
    /// bytes are the buffer's first.
    fn push(&self, stream: Stream, buffer: &mut [u8], cut: &[u8]) -> StreamAnswer;

    /// The stream has ended: 10; where it has stopped, its answer again; then
    /// 1, which says how many bytes are missing, or end. Nobody writes the
    /// buffer.
    fn end(&self, stream: Stream, buffer: &mut [u8]) -> StreamAnswer;

    /// Reads a body: unknown, 4, 5 or the record.
    fn read(&self, kind: u32, body: &[u8]) -> ReadAnswer;

    /// A group by position: 4 and 5 for the whole body, then "no such entry".
    /// The groups of 300111 and 309011 are asked for as entries, and none here.
    fn group(&self, kind: u32, body: &[u8], position: u32) -> Found<Group>;

    /// An entry of 300111 or 309011 by position: 4 and 5 for the whole body,
    /// then "no such entry". All other types have no entries.
    fn entry(&self, kind: u32, body: &[u8], position: u32) -> Found<Entry>;

    /// The price of an entry by position: as `entry`, then "no price" where
    /// the entry says none.
    fn entry_price(&self, kind: u32, body: &[u8], position: u32, price: &mut i64) -> PriceAnswer;

    /// A shown quantity by the positions of entry and quantity: 4 and 5 for
    /// the whole body, then "no such entry" for either.
    fn quantity(&self, kind: u32, body: &[u8], entry: u32, position: u32) -> Found<i64>;

    /// The cursor on the first entry. It judges nothing: where the body ends
    /// in or before the count, the bytes that are there are the count. A type
    /// without entries has offset 0 and 0 left.
    fn start(&self, kind: u32, body: &[u8]) -> Cursor;

    /// Steps over one entry: "no such entry" where none is left or the type
    /// has none; then 4 and 5 for this entry and its shown quantities.
    fn step(&self, kind: u32, body: &[u8], cursor: Cursor) -> StepAnswer;

    /// The price of the entry at a cursor: as `step`, then "no price" where
    /// the entry says none.
    fn step_price(&self, kind: u32, body: &[u8], cursor: Cursor, price: &mut i64) -> PriceAnswer;

    /// Steps over one entry and gives its price: the answer of `step`, and
    /// the lent number as `step_price` leaves it.
    fn next(&self, kind: u32, body: &[u8], cursor: Cursor, price: &mut i64) -> StepAnswer {
        self.step_price(kind, body, cursor, price);
        self.step(kind, body, cursor)
    }

    /// Writes a frame: 5 for the type, then 4, 5, 2, 6.
    fn write(&self, draft: &Draft, output: &mut [u8]) -> WriteAnswer;

    /// Sets up a tracker with channels, and a first number for each: 10.
    fn set_up(&self, channels: &[u16], from: &[i64]) -> SetUpAnswer;

    /// A tick arrives: 10, 7, 8, "before start", 9.
    fn tick(&self, tracker: &Tracker, channel: u16, number: i64) -> ArrivalAnswer;

    /// A channel heartbeat arrives: 10, 7, 8, 9. End 0 is no, all else yes.
    fn heartbeat(&self, tracker: &Tracker, channel: u16, last: i64, end: u8) -> ArrivalAnswer;

    /// Joins a tracker with another line's of the same set-up: 10 of either, 11,
    /// 9. The other one is only read.
    fn join(&self, tracker: &Tracker, other: &Tracker) -> JoinAnswer;

    /// Writes the request for the first run: 10, 7, nothing missing, 6.
    fn request(&self, tracker: &Tracker, channel: u16, output: &mut [u8]) -> RequestAnswer;
}

//! The C header's declarations in Rust, and what each struct, field, call
//! and number is called there, for the test that holds one to the other.

use crate::layout;
use crate::receiver::{Cursor, Stream, Tracker, CHANNELS, RUNS, TEXTS};
use crate::second::rules::Rules;
use std::mem::{offset_of, size_of};

/// The texts of a record or a group, one behind the other.
#[repr(C)]
#[derive(Clone, Copy, PartialEq, Eq, Debug)]
pub struct Texts(pub [u8; TEXTS]);

#[repr(C)]
#[derive(Clone, Copy, Debug)]
pub struct FrameAnswer {
    pub answer: u32,
    pub kind: u32,
    pub len: usize,
    pub total: usize,
    pub missing: usize,
}

#[repr(C)]
#[derive(Clone, Copy, Debug)]
pub struct StreamAnswer {
    pub answer: u32,
    pub stands: u32,
    pub kind: u32,
    pub len: usize,
    pub total: usize,
    pub missing: usize,
    pub took: usize,
    pub next: Stream,
}

#[repr(C)]
#[derive(Clone, Copy, Default, Debug)]
pub struct Order {
    pub channel: u16,
    pub number: i64,
    pub order_price: i64,
    pub quantity: i64,
    pub side: u8,
    pub time: i64,
    pub order_type: u8,
}

#[repr(C)]
#[derive(Clone, Copy, Default, Debug)]
pub struct Trade {
    pub channel: u16,
    pub number: i64,
    pub bid_number: i64,
    pub offer_number: i64,
    pub trade_price: i64,
    pub quantity: i64,
    pub execution: u8,
    pub time: i64,
}

#[repr(C)]
#[derive(Clone, Copy, Default, Debug)]
pub struct ChannelHeartbeat {
    pub channel: u16,
    pub last_number: i64,
    pub end: u16,
}

#[repr(C)]
#[derive(Clone, Copy, Default, Debug)]
pub struct Resend {
    pub resend_type: u8,
    pub channel: u16,
    pub first_number: i64,
    pub last_number: i64,
    pub status: u8,
}

#[repr(C)]
#[derive(Clone, Copy, Default, Debug)]
pub struct Common {
    pub time: i64,
    pub channel: u16,
    pub previous_close: i64,
    pub trade_count: i64,
    pub volume: i64,
    pub amount: i64,
}

#[repr(C)]
#[derive(Clone, Copy, Default, Debug)]
pub struct Snapshot {
    pub common: Common,
    pub count: u32,
}

#[repr(C)]
#[derive(Clone, Copy, Default, Debug)]
pub struct Index {
    pub common: Common,
    pub count: u32,
}

#[repr(C)]
#[derive(Clone, Copy, Default, Debug)]
pub struct VolumeIndex {
    pub common: Common,
    pub stock_number: u32,
}

#[repr(C)]
#[derive(Clone, Copy, Default, Debug)]
pub struct Statistics {
    pub time: i64,
    pub channel: u16,
    pub count: u32,
}

#[repr(C)]
#[derive(Clone, Copy, Default, Debug)]
pub struct SecurityStatus {
    pub time: i64,
    pub channel: u16,
    pub count: u32,
}

/// The answer to a record's call: `struct NAME_answer` of `struct NAME`.
#[repr(C)]
#[derive(Clone, Copy, Debug)]
pub struct Answer<N> {
    pub answer: u32,
    pub numbers: N,
    pub texts: Texts,
}

#[repr(C)]
#[derive(Clone, Copy, Debug)]
pub struct GroupAnswer {
    pub answer: u32,
    pub stock_number: u32,
    pub switch_type: u16,
    pub yes_no: u16,
    pub texts: Texts,
}

#[repr(C)]
#[derive(Clone, Copy, PartialEq, Eq, Default, Debug)]
pub struct Entry {
    pub says: u32,
    pub characters: u16,
    pub level: u16,
    pub size: i64,
    pub order_count: i64,
    pub shown: u32,
}

#[repr(C)]
#[derive(Clone, Copy, Debug)]
pub struct EntryAnswer {
    pub answer: u32,
    pub entry: Entry,
}

#[repr(C)]
#[derive(Clone, Copy, Debug)]
pub struct StepAnswer {
    pub answer: u32,
    pub entry: Entry,
    pub next: Cursor,
}

#[repr(C)]
#[derive(Clone, Copy, Debug)]
pub struct QuantityAnswer {
    pub answer: u32,
    pub quantity: i64,
}

#[repr(C)]
#[derive(Clone, Copy)]
pub struct StartAnswer {
    pub answer: u32,
    pub tracker: Tracker,
}

#[repr(C)]
#[derive(Clone, Copy, Debug)]
pub struct WriteAnswer {
    pub answer: u32,
    pub written: usize,
}

/// A type that the header has.
pub trait InC {
    /// What C calls it; empty for the texts, whose struct has no name.
    fn name() -> String;

    /// What stands behind a field's name for the part that has the type.
    const PART: &'static str = "";
}

impl InC for Texts {
    fn name() -> String {
        String::new()
    }
}

impl<T: InC> InC for *const T {
    fn name() -> String {
        format!("const {} *", T::name())
    }
}

impl<T: InC> InC for *mut T {
    fn name() -> String {
        format!("{} *", T::name())
    }
}

impl<T: InC, const N: usize> InC for [T; N] {
    fn name() -> String {
        T::name()
    }

    const PART: &'static str = "[0]";
}

impl<N: InC> InC for Answer<N> {
    fn name() -> String {
        format!("{}_answer", N::name())
    }
}

/// Gives types their C names.
macro_rules! named {
    ($($type:ty = $name:literal,)*) => {
        $(impl InC for $type {
            fn name() -> String {
                $name.to_string()
            }
        })*
    };
}

named! {
    u8 = "uint8_t",
    u16 = "uint16_t",
    u32 = "uint32_t",
    u64 = "uint64_t",
    i64 = "int64_t",
    usize = "size_t",
    FrameAnswer = "struct orizhgum_frame_answer",
    Stream = "struct orizhgum_stream",
    StreamAnswer = "struct orizhgum_stream_answer",
    Order = "struct orizhgum_order",
    Trade = "struct orizhgum_trade",
    ChannelHeartbeat = "struct orizhgum_channel_heartbeat",
    Resend = "struct orizhgum_resend",
    Common = "struct orizhgum_common",
    Snapshot = "struct orizhgum_snapshot",
    Index = "struct orizhgum_index",
    VolumeIndex = "struct orizhgum_volume_index",
    Statistics = "struct orizhgum_statistics",
    SecurityStatus = "struct orizhgum_security_status",
    GroupAnswer = "struct orizhgum_group_answer",
    Entry = "struct orizhgum_entry",
    EntryAnswer = "struct orizhgum_entry_answer",
    Cursor = "struct orizhgum_cursor",
    StepAnswer = "struct orizhgum_step_answer",
    QuantityAnswer = "struct orizhgum_quantity_answer",
    Tracker = "struct orizhgum_tracker",
    StartAnswer = "struct orizhgum_start_answer",
    WriteAnswer = "struct orizhgum_write_answer",
}

/// C's assertion that two numbers are equal.
fn equal(one: &str, other: usize) -> String {
    format!("_Static_assert({one} == {other}, \"{one}\");\n")
}

/// C's assertions about a field: its offset, its size and its type.
fn field<S: InC, T: InC>(field: &str, offset: usize, _reach: fn(&S) -> &T) -> String {
    let (owner, name) = (S::name(), T::name());
    let held = format!("(({owner} *)0)->{field}");
    let mut lines = equal(&format!("offsetof({owner}, {field})"), offset);
    lines += &equal(&format!("sizeof({held})"), size_of::<T>());
    if !name.is_empty() {
        let part = format!("&{held}{}", T::PART);
        lines += &equal(&format!("_Generic({part}, {name} *: 1, default: 0)"), 1);
    }
    lines
}

/// C's assertions about structs with all their fields.
macro_rules! laid_out {
    ($($type:ty = $pattern:ident { $($field:ident),* })*) => {
        [$({
            // Every field is named.
            let _all = |laid: &$type| { let $pattern { $($field: _),* } = laid; };
            let size = equal(&format!("sizeof({})", <$type>::name()), size_of::<$type>());
            [size, $(field(stringify!($field), offset_of!($type, $field), |laid: &$type| &laid.$field)),*].concat()
        }),*].concat()
    };
}

/// C's assertions about every struct.
pub fn structs() -> String {
    laid_out! {
        FrameAnswer = FrameAnswer { answer, kind, len, total, missing }
        Stream = Stream { held, mark }
        StreamAnswer = StreamAnswer { answer, stands, kind, len, total, missing, took, next }
        Order = Order { channel, number, order_price, quantity, side, time, order_type }
        Trade = Trade { channel, number, bid_number, offer_number, trade_price, quantity, execution, time }
        ChannelHeartbeat = ChannelHeartbeat { channel, last_number, end }
        Resend = Resend { resend_type, channel, first_number, last_number, status }
        Common = Common { time, channel, previous_close, trade_count, volume, amount }
        Snapshot = Snapshot { common, count }
        Index = Index { common, count }
        VolumeIndex = VolumeIndex { common, stock_number }
        Statistics = Statistics { time, channel, count }
        SecurityStatus = SecurityStatus { time, channel, count }
        Answer<Order> = Answer { answer, numbers, texts }
        Answer<Trade> = Answer { answer, numbers, texts }
        Answer<ChannelHeartbeat> = Answer { answer, numbers, texts }
        Answer<Resend> = Answer { answer, numbers, texts }
        Answer<Snapshot> = Answer { answer, numbers, texts }
        Answer<Index> = Answer { answer, numbers, texts }
        Answer<VolumeIndex> = Answer { answer, numbers, texts }
        Answer<Statistics> = Answer { answer, numbers, texts }
        Answer<SecurityStatus> = Answer { answer, numbers, texts }
        GroupAnswer = GroupAnswer { answer, stock_number, switch_type, yes_no, texts }
        Entry = Entry { says, characters, level, size, order_count, shown }
        EntryAnswer = EntryAnswer { answer, entry }
        Cursor = Cursor { offset, left }
        StepAnswer = StepAnswer { answer, entry, next }
        QuantityAnswer = QuantityAnswer { answer, quantity }
        Tracker = Tracker { count, numbers, from, highest, ended, counts, first, last }
        StartAnswer = StartAnswer { answer, tracker }
        WriteAnswer = WriteAnswer { answer, written }
    }
}

/// A call as C declares it.
fn prototype(name: &str, answer: String, taken: &[String]) -> String {
    let taken = match taken {
        [] => "void".to_string(),
        _ => taken.join(", "),
    };
    format!("{answer} {name}({taken});\n")
}

/// Declares calls, and a function that writes them as C does.
macro_rules! calls {
    ($written:ident: $(fn $name:ident($($taken:ident: $type:ty),*) -> $answer:ty;)*) => {
        extern "C" {
            $(pub fn $name($($taken: $type),*) -> $answer;)*
        }

        fn $written() -> String {
            [$(prototype(stringify!($name), <$answer>::name(), &[$(<$type>::name()),*])),*].concat()
        }
    };
}

/// Declares the writer's calls, each with the numbers that it takes.
macro_rules! writers {
    ($written:ident: $($name:ident($($numbers:ty)?),)*) => {
        calls! {
            $written:
            $(fn $name(
                $(numbers: $numbers,)?
                texts: *const u8,
                texts_length: usize,
                groups: *const u8,
                groups_length: usize,
                out: *mut u8,
                out_length: usize
            ) -> WriteAnswer;)*
        }
    };
}

/// Declares the calls over the arrays of a tracker, each with what follows
/// these and what C calls it over the tracker.
macro_rules! trackers {
    ($written:ident: $(fn $name:ident = $whole:literal (*$lends:ident, $($taken:ident: $type:ty),*) -> $answer:ty;)*) => {
        calls! {
            arrays:
            $(fn $name(
                count: usize,
                numbers: *const u16,
                from: *const u64,
                highest: *$lends u64,
                ended: *$lends u8,
                counts: *$lends usize,
                first: *$lends u64,
                last: *$lends u64,
                $($taken: $type),*
            ) -> $answer;)*
        }

        fn $written() -> String {
            [arrays(), $(prototype($whole, <$answer>::name(), &[<*$lends Tracker>::name(), $(<$type>::name()),*])),*].concat()
        }
    };
}

/// Every call as C declares it.
pub fn prototypes() -> String {
    reading() + &tracking() + &joining() + &writing()
}

calls! {
    reading:
    fn orizhgum_frame(bytes: *const u8, length: usize) -> FrameAnswer;

    fn orizhgum_stream_new() -> Stream;
    fn orizhgum_stream_push(stream: Stream, buffer: *mut u8, buffer_length: usize, cut: *const u8, cut_length: usize) -> StreamAnswer;
    fn orizhgum_stream_end(stream: Stream, buffer: *const u8, buffer_length: usize) -> StreamAnswer;

    fn orizhgum_judge(kind: u32, body: *const u8, length: usize) -> u32;
    fn orizhgum_order(body: *const u8, length: usize) -> Answer<Order>;
    fn orizhgum_trade(body: *const u8, length: usize) -> Answer<Trade>;
    fn orizhgum_channel_heartbeat(body: *const u8, length: usize) -> Answer<ChannelHeartbeat>;
    fn orizhgum_resend(body: *const u8, length: usize) -> Answer<Resend>;
    fn orizhgum_snapshot(body: *const u8, length: usize) -> Answer<Snapshot>;
    fn orizhgum_index(body: *const u8, length: usize) -> Answer<Index>;
    fn orizhgum_volume_index(body: *const u8, length: usize) -> Answer<VolumeIndex>;
    fn orizhgum_statistics(body: *const u8, length: usize) -> Answer<Statistics>;
    fn orizhgum_security_status(body: *const u8, length: usize) -> Answer<SecurityStatus>;

    fn orizhgum_group(kind: u32, body: *const u8, length: usize, i: u32) -> GroupAnswer;
    fn orizhgum_cursor(kind: u32, body: *const u8, length: usize) -> Cursor;
    fn orizhgum_next(at: Cursor, kind: u32, body: *const u8, length: usize, price: *mut i64) -> StepAnswer;
    fn orizhgum_step_price(at: Cursor, kind: u32, body: *const u8, length: usize, price: *mut i64) -> u32;
    fn orizhgum_entry(kind: u32, body: *const u8, length: usize, i: u32) -> EntryAnswer;
    fn orizhgum_entry_price(kind: u32, body: *const u8, length: usize, i: u32, price: *mut i64) -> u32;
    fn orizhgum_quantity(kind: u32, body: *const u8, length: usize, i: u32, j: u32) -> QuantityAnswer;

    fn orizhgum_set_up(channels: *const u16, length: usize, from: *const i64, from_length: usize) -> StartAnswer;
}

trackers! {
    tracking:
    fn orizhgum_tick_in = "orizhgum_tick" (*mut, channel: u16, number: i64) -> u32;
    fn orizhgum_heard_in = "orizhgum_heard" (*mut, channel: u16, last_number: i64, end: u8) -> u32;
    fn orizhgum_request_in = "orizhgum_request" (*const, channel: u16, out: *mut u8, out_length: usize) -> WriteAnswer;
}

calls! {
    joining_arrays:
    fn orizhgum_join_in(
        count: usize,
        numbers: *const u16,
        from: *const u64,
        highest: *mut u64,
        ended: *mut u8,
        counts: *mut usize,
        first: *mut u64,
        last: *mut u64,
        other_count: usize,
        other_numbers: *const u16,
        other_from: *const u64,
        other_highest: *const u64,
        other_ended: *const u8,
        other_counts: *const usize,
        other_first: *const u64,
        other_last: *const u64
    ) -> u32;
}

/// The join as C declares it, over the arrays of two trackers and over the
/// trackers.
fn joining() -> String {
    let taken = [<*mut Tracker>::name(), <*const Tracker>::name()];
    joining_arrays() + &prototype("orizhgum_join", u32::name(), &taken)
}

writers! {
    writing:
    orizhgum_write_order(Order),
    orizhgum_write_trade(Trade),
    orizhgum_write_channel_heartbeat(ChannelHeartbeat),
    orizhgum_write_resend(Resend),
    orizhgum_write_snapshot(Snapshot),
    orizhgum_write_index(Index),
    orizhgum_write_volume_index(VolumeIndex),
    orizhgum_write_statistics(Statistics),
    orizhgum_write_security_status(SecurityStatus),
    orizhgum_write_heartbeat(),
}

/// The answers that the header names besides 0 and the refusals.
pub const UNKNOWN: u32 = 100;
pub const NO_SUCH_ENTRY: u32 = 101;
pub const NO_PRICE: u32 = 102;
pub const LATE: u32 = 103;
pub const DUPLICATE: u32 = 104;
pub const NOTHING_MISSING: u32 = 105;
pub const MORE: u32 = 106;
pub const END: u32 = 107;
pub const BEFORE_START: u32 = 108;

/// Where the bytes of a stream's frame stand, by number.
pub const IN_CUT: u32 = 1;
pub const IN_BUFFER: u32 = 2;

/// What an entry says, by number.
pub const SAYS_LEVEL: u32 = 1;
pub const SAYS_LEVEL_WITHOUT_PRICE: u32 = 2;
pub const SAYS_PRICE: u32 = 3;
pub const SAYS_SIZE: u32 = 4;
pub const SAYS_PRICE_AND_SIZE: u32 = 5;
pub const SAYS_NO_LIMIT: u32 = 6;
pub const SAYS_UNKNOWN: u32 = 7;

/// C's assertions about numbers, each by its name.
macro_rules! numbered {
    ($($path:path = $name:literal,)*) => {
        [$(equal(concat!("ORIZHGUM_", $name), $path as usize)),*].concat()
    };
}

/// C's assertions about every number that the header names: the rules'
/// refusals by their own, and all others as they are here.
pub fn numbers() -> String {
    let refusals = [
        "OK",
        "TOO_SHORT",
        "TOO_LONG",
        "WRONG_SUM",
        "NOT_ITS_LAYOUT",
        "OUT_OF_RANGE",
        "OUTPUT_SHORT",
        "NO_SUCH_CHANNEL",
        "NUMBER_TOO_LOW",
        "TABLE_FULL",
        "MALFORMED",
        "SET_UPS_DIFFER",
    ];
    let lines = refusals.iter().enumerate();
    let refused: String = lines
        .map(|(number, name)| equal(&format!("ORIZHGUM_{name}"), number))
        .collect();
    refused
        + &numbered! {
            UNKNOWN = "UNKNOWN",
            NO_SUCH_ENTRY = "NO_SUCH_ENTRY",
            NO_PRICE = "NO_PRICE",
            LATE = "LATE",
            DUPLICATE = "DUPLICATE",
            NOTHING_MISSING = "NOTHING_MISSING",
            MORE = "MORE",
            END = "END",
            BEFORE_START = "BEFORE_START",
            IN_CUT = "IN_CUT",
            IN_BUFFER = "IN_BUFFER",
            SAYS_LEVEL = "SAYS_LEVEL",
            SAYS_LEVEL_WITHOUT_PRICE = "SAYS_LEVEL_WITHOUT_PRICE",
            SAYS_PRICE = "SAYS_PRICE",
            SAYS_SIZE = "SAYS_SIZE",
            SAYS_PRICE_AND_SIZE = "SAYS_PRICE_AND_SIZE",
            SAYS_NO_LIMIT = "SAYS_NO_LIMIT",
            SAYS_UNKNOWN = "SAYS_UNKNOWN",
            layout::HEARTBEAT = "HEARTBEAT",
            layout::SNAPSHOT = "SNAPSHOT",
            layout::TRADE = "TRADE",
            layout::ORDER = "ORDER",
            layout::INDEX = "INDEX",
            layout::VOLUME_INDEX = "VOLUME_INDEX",
            layout::SECURITY_STATUS = "SECURITY_STATUS",
            layout::STATISTICS = "STATISTICS",
            layout::RESEND = "RESEND",
            layout::CHANNEL_HEARTBEAT = "CHANNEL_HEARTBEAT",
            CHANNELS = "CHANNELS",
            RUNS = "RUNS",
            TEXTS = "TEXTS",
        }
        + &sizes()
}

/// C's assertions about sizes, texts, decimals and the version.
fn sizes() -> String {
    let rules = Rules::base();
    let (header, checksum) = (8, 4);
    let request = layout::layout(layout::RESEND).map_or(0, layout::Layout::fixed);
    let named = [
        ("HEADER", header),
        ("CHECKSUM", checksum),
        ("BODY_LIMIT", rules.body_limit),
        ("FRAME_LIMIT", header + rules.body_limit + checksum),
        ("REQUEST", header + request + checksum),
        ("PRICE_DECIMALS", rules.price_decimals),
        ("ENTRY_PRICE_DECIMALS", rules.entry_price_decimals),
        ("QUANTITY_DECIMALS", rules.quantity_decimals),
        ("AMOUNT_DECIMALS", rules.amount_decimals),
        ("ORDER_PRICE_DECIMALS", rules.price_decimals),
        ("TRADE_PRICE_DECIMALS", rules.price_decimals),
        ("PREVIOUS_CLOSE_DECIMALS", rules.price_decimals),
        ("SIZE_DECIMALS", rules.quantity_decimals),
        ("VOLUME_DECIMALS", rules.quantity_decimals),
        ("VERSION_MAJOR", VERSION[0]),
        ("VERSION_MINOR", VERSION[1]),
        ("VERSION_PATCH", VERSION[2]),
    ];
    let mut lines = String::new();
    for (name, number) in named {
        lines += &equal(&format!("ORIZHGUM_{name}"), number);
    }
    for layout in layout::LISTED.iter().filter(|layout| layout.texts() > 0) {
        let name = layout.name.replace(' ', "_").to_uppercase();
        lines += &equal(&format!("ORIZHGUM_{name}_TEXTS"), layout.texts());
    }
    lines + &equal("sizeof ORIZHGUM_VERSION", version().len() + 1)
}

/// The version's three numbers.
const VERSION: [usize; 3] = [0, 7, 0];

/// The version as one text.
pub fn version() -> String {
    VERSION.map(|number| number.to_string()).join(".")
}

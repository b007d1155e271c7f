//! The listed types and their fields, of which inputs are made and values are
//! named. The second program has a table of its own (`second/layout.rs`), so
//! that a wrong layout there cannot change which inputs are made.

/// What a field means; its width and its range hang on this.
#[derive(Clone, Copy, PartialEq, Eq, Debug)]
pub enum Meaning {
    /// A price of an order or trade, or the previous close.
    Price,
    EntryPrice,
    Quantity,
    Amount,
    /// A count of trades or orders, or a number that may be 0.
    Reference,
    RecordNumber,
    Time,
    YesNo,
    ResendType,
    Status,
    Side,
    OrderType,
    Execution,
    /// Channel, level, switch type.
    Free2,
    /// Stock number.
    Free4,
    /// A group count or shown count.
    Count,
    /// This many characters.
    Text(usize),
}

impl Meaning {
    /// The field's bytes.
    pub fn width(self) -> usize {
        match self {
            Meaning::Price | Meaning::EntryPrice | Meaning::Quantity | Meaning::Amount => 8,
            Meaning::Reference | Meaning::RecordNumber | Meaning::Time => 8,
            Meaning::YesNo | Meaning::Free2 => 2,
            Meaning::Free4 | Meaning::Count => 4,
            Meaning::ResendType | Meaning::Status => 1,
            Meaning::Side | Meaning::OrderType | Meaning::Execution => 1,
            Meaning::Text(width) => width,
        }
    }

    /// Whether the field is a text: more than one character.
    pub fn is_text(self) -> bool {
        matches!(self, Meaning::Text(_))
    }
}

/// A field of a layout.
#[derive(Clone, Copy, PartialEq, Eq, Debug)]
pub struct Field {
    pub name: &'static str,
    pub meaning: Meaning,
}

/// A listed type: its fields, and the fields of each group. In a layout with
/// `shown`, a group's last field counts the shown quantities behind it.
#[derive(Clone, Copy, PartialEq, Eq, Debug)]
pub struct Layout {
    pub kind: u32,
    pub name: &'static str,
    pub fields: &'static [Field],
    pub group: &'static [Field],
    pub shown: bool,
}

impl Layout {
    /// The bytes of the fixed part.
    pub fn fixed(&self) -> usize {
        width(self.fields)
    }

    /// The bytes of the texts.
    pub fn texts(&self) -> usize {
        let texts = self.fields.iter().filter(|field| field.meaning.is_text());
        texts.map(|field| field.meaning.width()).sum()
    }

    /// Whether the groups are entries.
    pub fn has_entries(&self) -> bool {
        self.kind == SNAPSHOT || self.kind == INDEX
    }
}

/// The bytes of fields one behind the other.
pub fn width(fields: &[Field]) -> usize {
    fields.iter().map(|field| field.meaning.width()).sum()
}

const fn field(name: &'static str, meaning: Meaning) -> Field {
    Field { name, meaning }
}

pub const HEARTBEAT: u32 = 3;
pub const CHANNEL_HEARTBEAT: u32 = 390095;
pub const RESEND: u32 = 390094;
pub const STATISTICS: u32 = 390090;
pub const SECURITY_STATUS: u32 = 390013;
pub const SNAPSHOT: u32 = 300111;
pub const INDEX: u32 = 309011;
pub const VOLUME_INDEX: u32 = 309111;
pub const ORDER: u32 = 300192;
pub const TRADE: u32 = 300191;

/// A shown quantity.
pub const QUANTITY: Field = field("quantity", Meaning::Quantity);

const CHANNEL: Field = field("channel", Meaning::Free2);
const TIME: Field = field("time", Meaning::Time);
const COUNT: Field = field("count", Meaning::Count);
const STREAM: Field = field("stream", Meaning::Text(3));
const SECURITY: Field = field("security", Meaning::Text(8));
const SOURCE: Field = field("source", Meaning::Text(4));
const PHASE: Field = field("phase", Meaning::Text(8));
const STOCK_NUMBER: Field = field("stock number", Meaning::Free4);

/// The common part, then the layout's last field.
const fn common(last: Field) -> [Field; 11] {
    [
        TIME,
        CHANNEL,
        STREAM,
        SECURITY,
        SOURCE,
        PHASE,
        field("previous close", Meaning::Price),
        field("trade count", Meaning::Reference),
        field("volume", Meaning::Quantity),
        field("amount", Meaning::Amount),
        last,
    ]
}

const COMMON_COUNT: &[Field] = &common(COUNT);
const COMMON_STOCK_NUMBER: &[Field] = &common(STOCK_NUMBER);

const CHANNEL_HEARTBEAT_FIELDS: &[Field] = &[
    CHANNEL,
    field("last number", Meaning::Reference),
    field("end", Meaning::YesNo),
];

const RESEND_FIELDS: &[Field] = &[
    field("resend type", Meaning::ResendType),
    CHANNEL,
    field("first", Meaning::Reference),
    field("last", Meaning::Reference),
    field("news id", Meaning::Text(8)),
    field("status", Meaning::Status),
    field("text", Meaning::Text(16)),
];

const SECURITY_STATUS_FIELDS: &[Field] = &[
    TIME,
    CHANNEL,
    SECURITY,
    SOURCE,
    field("financial status", Meaning::Text(8)),
    COUNT,
];

const SECURITY_STATUS_GROUP: &[Field] = &[
    field("switch type", Meaning::Free2),
    field("yes/no", Meaning::YesNo),
];

const SNAPSHOT_GROUP: &[Field] = &[
    field("entry type", Meaning::Text(2)),
    field("entry price", Meaning::EntryPrice),
    field("entry size", Meaning::Quantity),
    field("level", Meaning::Free2),
    field("order count", Meaning::Reference),
    field("shown count", Meaning::Count),
];

const INDEX_GROUP: &[Field] = &[
    field("entry type", Meaning::Text(2)),
    field("entry price", Meaning::EntryPrice),
];

const ORDER_FIELDS: &[Field] = &[
    CHANNEL,
    field("number", Meaning::RecordNumber),
    STREAM,
    SECURITY,
    SOURCE,
    field("price", Meaning::Price),
    QUANTITY,
    field("side", Meaning::Side),
    TIME,
    field("order type", Meaning::OrderType),
];

const TRADE_FIELDS: &[Field] = &[
    CHANNEL,
    field("number", Meaning::RecordNumber),
    STREAM,
    field("bid number", Meaning::Reference),
    field("offer number", Meaning::Reference),
    SECURITY,
    SOURCE,
    field("price", Meaning::Price),
    QUANTITY,
    field("execution type", Meaning::Execution),
    TIME,
];

const fn plain(kind: u32, name: &'static str, fields: &'static [Field]) -> Layout {
    grouped(kind, name, fields, &[])
}

const fn grouped(
    kind: u32,
    name: &'static str,
    fields: &'static [Field],
    group: &'static [Field],
) -> Layout {
    Layout {
        kind,
        name,
        fields,
        group,
        shown: kind == SNAPSHOT,
    }
}

/// The listed types, in the order of the rules' table.
pub static LISTED: [Layout; 10] = [
    plain(HEARTBEAT, "heartbeat", &[]),
    plain(
        CHANNEL_HEARTBEAT,
        "channel heartbeat",
        CHANNEL_HEARTBEAT_FIELDS,
    ),
    plain(RESEND, "resend", RESEND_FIELDS),
    grouped(
        STATISTICS,
        "statistics",
        &[TIME, CHANNEL, COUNT],
        &[STREAM, STOCK_NUMBER, PHASE],
    ),
    grouped(
        SECURITY_STATUS,
        "security status",
        SECURITY_STATUS_FIELDS,
        SECURITY_STATUS_GROUP,
    ),
    grouped(SNAPSHOT, "snapshot", COMMON_COUNT, SNAPSHOT_GROUP),
    grouped(INDEX, "index", COMMON_COUNT, INDEX_GROUP),
    plain(VOLUME_INDEX, "volume index", COMMON_STOCK_NUMBER),
    plain(ORDER, "order", ORDER_FIELDS),
    plain(TRADE, "trade", TRADE_FIELDS),
];

/// The layout that a type number chooses; none for an unlisted type.
pub fn layout(kind: u32) -> Option<&'static Layout> {
    LISTED.iter().find(|layout| layout.kind == kind)
}

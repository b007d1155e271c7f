//! All limits, ranges and marks of the rules, in one struct: a change
//! request is a line here.

use crate::layout::Meaning;

/// Limits, ranges (both ends included) and marks.
#[derive(Clone, Copy, PartialEq, Eq, Debug)]
pub struct Rules {
    /// L is at most this.
    pub body_limit: usize,
    /// Order, trade and previous close prices lie within plus and minus this.
    pub price_limit: i64,
    pub price_decimals: usize,
    /// Entry prices lie within plus and minus this.
    pub entry_price_limit: i64,
    pub entry_price_decimals: usize,
    /// `xe` holding this: no limit.
    pub no_upper_limit: i64,
    /// `xf` holding this: no limit.
    pub no_lower_limit: i64,
    /// A quantity, size or volume is 0 to this.
    pub quantity_limit: i64,
    pub quantity_decimals: usize,
    /// An amount is 0 to this.
    pub amount_limit: i64,
    pub amount_decimals: usize,
    /// Trade and order counts, last number, first and last of a resend, bid
    /// and offer number are at least this.
    pub reference_from: i64,
    /// A record number, and a tick's number, is at least this.
    pub record_from: i64,
    pub yes_no: (i64, i64),
    pub resend_types: (i64, i64),
    pub statuses: (i64, i64),
    pub sides: &'static [u8],
    pub order_types: &'static [u8],
    pub executions: &'static [u8],
    pub years: (i64, i64),
    pub months: (i64, i64),
    pub days: (i64, i64),
    pub hours: (i64, i64),
    pub minutes: (i64, i64),
    pub seconds: (i64, i64),
    /// A tracker has 1 to this many channels.
    pub channels: usize,
    /// A channel has up to this many runs.
    pub runs: usize,
    /// A request asks for up to this many numbers.
    pub batch: u64,
    /// What a channel's first number, from which gaps run, may be: a limit of
    /// its own, so that a broken receiver can have another.
    pub first_numbers: (u64, u64),
    /// The highest number that there can be.
    pub number_limit: u64,
}

/// What a field may hold.
#[derive(Clone, Copy, PartialEq, Eq, Debug)]
pub enum Allowed {
    /// All that its width holds.
    Free,
    /// The numbers from the first to the second.
    Between(i64, i64),
    /// These characters.
    OneOf(&'static [u8]),
    /// YYYYMMDDHHMMSSsss as one number.
    Time,
}

impl Rules {
    /// The rules as they stand.
    pub const fn base() -> Rules {
        Rules {
            body_limit: 16_384,
            price_limit: 9_999_999_999_999,
            price_decimals: 4,
            entry_price_limit: 999_999_999_999_999_999,
            entry_price_decimals: 6,
            no_upper_limit: 999_999_999_999_900,
            no_lower_limit: -999_999_999_999_900,
            quantity_limit: 999_999_999_999_999,
            quantity_decimals: 2,
            amount_limit: 999_999_999_999_999_999,
            amount_decimals: 4,
            reference_from: 0,
            record_from: 1,
            yes_no: (0, 1),
            resend_types: (1, 2),
            statuses: (0, 4),
            sides: b"12GF",
            order_types: b"12U",
            executions: b"4F",
            years: (0, 9999),
            months: (1, 12),
            days: (1, 31),
            hours: (0, 23),
            minutes: (0, 59),
            seconds: (0, 60),
            channels: 8,
            runs: 32,
            batch: 200,
            first_numbers: (1, 9_223_372_036_854_775_807),
            number_limit: 9_223_372_036_854_775_807,
        }
    }

    /// What a field with this meaning may hold.
    pub fn allowed(&self, meaning: Meaning) -> Allowed {
        match meaning {
            Meaning::Price => Allowed::Between(-self.price_limit, self.price_limit),
            Meaning::EntryPrice => {
                Allowed::Between(-self.entry_price_limit, self.entry_price_limit)
            }
            Meaning::Quantity => Allowed::Between(0, self.quantity_limit),
            Meaning::Amount => Allowed::Between(0, self.amount_limit),
            Meaning::Reference => Allowed::Between(self.reference_from, i64::MAX),
            Meaning::RecordNumber => Allowed::Between(self.record_from, i64::MAX),
            Meaning::YesNo => Allowed::Between(self.yes_no.0, self.yes_no.1),
            Meaning::ResendType => Allowed::Between(self.resend_types.0, self.resend_types.1),
            Meaning::Status => Allowed::Between(self.statuses.0, self.statuses.1),
            Meaning::Side => Allowed::OneOf(self.sides),
            Meaning::OrderType => Allowed::OneOf(self.order_types),
            Meaning::Execution => Allowed::OneOf(self.executions),
            Meaning::Time => Allowed::Time,
            Meaning::Free2 | Meaning::Free4 | Meaning::Count | Meaning::Text(_) => Allowed::Free,
        }
    }

    /// Whether a field with this meaning may hold this number.
    pub fn allows(&self, meaning: Meaning, number: i64) -> bool {
        match self.allowed(meaning) {
            Allowed::Free => true,
            Allowed::Between(low, high) => within((low, high), number),
            Allowed::OneOf(characters) => characters.iter().any(|c| i64::from(*c) == number),
            Allowed::Time => self.allows_time(number),
        }
    }

    /// YYYYMMDDHHMMSSsss as one number, not negative.
    fn allows_time(&self, time: i64) -> bool {
        time >= 0
            && within(self.years, time / 10_000_000_000_000)
            && within(self.months, time / 100_000_000_000 % 100)
            && within(self.days, time / 1_000_000_000 % 100)
            && within(self.hours, time / 10_000_000 % 100)
            && within(self.minutes, time / 100_000 % 100)
            && within(self.seconds, time / 1_000 % 100)
    }
}

/// Whether a number is in a range, both ends included.
fn within(range: (i64, i64), number: i64) -> bool {
    range.0 <= number && number <= range.1
}

//! Widths, and the rules' table of types, as the second program has them.

use crate::layout::Meaning;

pub const INDEX: u32 = 309011;
pub const RESEND: u32 = 390094;
pub const SECURITY_STATUS: u32 = 390013;
pub const SNAPSHOT: u32 = 300111;
pub const STATISTICS: u32 = 390090;

/// A listed type: its fields, and the fields of each group. In a layout with
/// `shown`, a group's last field counts the shown quantities behind it.
#[derive(Clone, Copy, PartialEq, Eq, Debug)]
pub struct Layout {
    pub kind: u32,
    pub fields: &'static [Meaning],
    pub group: &'static [Meaning],
    pub shown: bool,
}

impl Layout {
    /// The bytes of the fixed part.
    pub fn fixed(&self) -> usize {
        width(self.fields)
    }

    /// The bytes of the texts.
    pub fn texts(&self) -> usize {
        let texts = self.fields.iter().filter(|field| field.is_text());
        texts.map(|field| wide(*field)).sum()
    }

    /// Whether the groups are entries.
    pub fn has_entries(&self) -> bool {
        self.kind == SNAPSHOT || self.kind == INDEX
    }
}

/// The bytes of a field.
pub fn wide(meaning: Meaning) -> usize {
    match meaning {
        Meaning::ResendType | Meaning::Status => 1,
        Meaning::Side | Meaning::OrderType | Meaning::Execution => 1,
        Meaning::YesNo | Meaning::Free2 => 2,
        Meaning::Free4 | Meaning::Count => 4,
        Meaning::Text(characters) => characters,
        Meaning::Price | Meaning::EntryPrice | Meaning::Quantity | Meaning::Amount => 8,
        Meaning::Reference | Meaning::RecordNumber | Meaning::Time => 8,
    }
}

/// The bytes of fields one behind the other.
pub fn width(fields: &[Meaning]) -> usize {
    fields.iter().map(|meaning| wide(*meaning)).sum()
}

/// The layout that a type number chooses; none for an unlisted type.
pub fn layout(kind: u32) -> Option<&'static Layout> {
    LISTED.iter().find(|layout| layout.kind == kind)
}

const CHANNEL: Meaning = Meaning::Free2;
const STREAM: Meaning = Meaning::Text(3);
const SECURITY: Meaning = Meaning::Text(8);
const SOURCE: Meaning = Meaning::Text(4);
const PHASE: Meaning = Meaning::Text(8);
const STOCK_NUMBER: Meaning = Meaning::Free4;

/// The common part of snapshots and indices, and the field behind it.
const fn common(last: Meaning) -> [Meaning; 11] {
    [
        Meaning::Time,
        CHANNEL,
        STREAM,
        SECURITY,
        SOURCE,
        PHASE,
        Meaning::Price,
        Meaning::Reference,
        Meaning::Quantity,
        Meaning::Amount,
        last,
    ]
}

const COUNTED: &[Meaning] = &common(Meaning::Count);
const NUMBERED: &[Meaning] = &common(STOCK_NUMBER);

const fn of(kind: u32, fields: &'static [Meaning], group: &'static [Meaning]) -> Layout {
    Layout {
        kind,
        fields,
        group,
        shown: kind == SNAPSHOT,
    }
}

/// The rules' table.
static LISTED: [Layout; 10] = [
    of(3, &[], &[]),
    of(390095, &[CHANNEL, Meaning::Reference, Meaning::YesNo], &[]),
    of(
        RESEND,
        &[
            Meaning::ResendType,
            CHANNEL,
            Meaning::Reference,
            Meaning::Reference,
            Meaning::Text(8),
            Meaning::Status,
            Meaning::Text(16),
        ],
        &[],
    ),
    of(
        STATISTICS,
        &[Meaning::Time, CHANNEL, Meaning::Count],
        &[STREAM, STOCK_NUMBER, PHASE],
    ),
    of(
        SECURITY_STATUS,
        &[
            Meaning::Time,
            CHANNEL,
            SECURITY,
            SOURCE,
            Meaning::Text(8),
            Meaning::Count,
        ],
        &[Meaning::Free2, Meaning::YesNo],
    ),
    of(
        SNAPSHOT,
        COUNTED,
        &[
            Meaning::Text(2),
            Meaning::EntryPrice,
            Meaning::Quantity,
            Meaning::Free2,
            Meaning::Reference,
            Meaning::Count,
        ],
    ),
    of(INDEX, COUNTED, &[Meaning::Text(2), Meaning::EntryPrice]),
    of(309111, NUMBERED, &[]),
    of(
        300192,
        &[
            CHANNEL,
            Meaning::RecordNumber,
            STREAM,
            SECURITY,
            SOURCE,
            Meaning::Price,
            Meaning::Quantity,
            Meaning::Side,
            Meaning::Time,
            Meaning::OrderType,
        ],
        &[],
    ),
    of(
        300191,
        &[
            CHANNEL,
            Meaning::RecordNumber,
            STREAM,
            Meaning::Reference,
            Meaning::Reference,
            SECURITY,
            SOURCE,
            Meaning::Price,
            Meaning::Quantity,
            Meaning::Execution,
            Meaning::Time,
        ],
        &[],
    ),
];

#[cfg(test)]
mod tests {
    use super::*;
    use crate::layout;

    /// The meanings of named fields.
    fn meanings(fields: &[layout::Field]) -> Vec<Meaning> {
        fields.iter().map(|field| field.meaning).collect()
    }

    #[test]
    fn inputs_are_made_of_the_same_types() {
        assert_eq!(LISTED.len(), layout::LISTED.len());
        for (own, made) in LISTED.iter().zip(&layout::LISTED) {
            assert_eq!((own.kind, own.shown), (made.kind, made.shown));
            assert_eq!(own.fields, meanings(made.fields));
            assert_eq!(own.group, meanings(made.group));
            assert_eq!(own.fixed(), made.fixed());
            assert_eq!(width(own.group), layout::width(made.group));
        }
    }
}

//! Records: the listed types with their ranges, and groups by position.

use super::frame::four;
use super::layout::{layout, wide, width, Layout, SECURITY_STATUS, STATISTICS};
use super::rules::Rules;
use crate::layout::Meaning;
use crate::receiver::{Found, Group, ReadAnswer, Record, NUMBERS, TEXTS};

/// Reads a body by its type: unknown, 4, 5 or the record.
pub fn read(rules: &Rules, kind: u32, body: &[u8]) -> ReadAnswer {
    let Some(layout) = layout(kind) else {
        return ReadAnswer::Unknown {
            kind,
            length: body.len(),
        };
    };
    match judge(rules, layout, body) {
        Err(refusal) => ReadAnswer::Refused(refusal),
        Ok(()) => ReadAnswer::Record(record(layout, body)),
    }
}

/// 4 for the whole body, then 5.
pub fn judge(rules: &Rules, layout: &Layout, body: &[u8]) -> Result<(), u32> {
    let fixed = layout.fixed();
    if body.len() < fixed {
        return Err(4);
    }
    let count = count(layout, body);
    groups_end(layout, body, fixed, count)?;
    fields_in_range(rules, layout.fields, &body[..fixed])?;
    groups_in_range(rules, layout, body, fixed, count)
}

/// The group count, the last field of the fixed part; 0 without groups.
pub fn count(layout: &Layout, body: &[u8]) -> u32 {
    if layout.group.is_empty() {
        return 0;
    }
    four(body, layout.fixed() - 4)
}

/// The offset behind so many groups; 4 where there are too few bytes.
pub fn groups_end(layout: &Layout, bytes: &[u8], from: usize, count: u32) -> Result<usize, u32> {
    let mut offset = from;
    for _ in 0..count {
        offset = group_end(layout, bytes, offset)?;
    }
    Ok(offset)
}

/// The offset behind the group at an offset, its shown quantities included; 4
/// where there are too few bytes.
pub fn group_end(layout: &Layout, bytes: &[u8], offset: usize) -> Result<usize, u32> {
    let length = bytes.len() as u128;
    let fields_end = offset as u128 + width(layout.group) as u128;
    if fields_end > length {
        return Err(4);
    }
    let shown = shown_count(layout, bytes, offset);
    let end = fields_end + 8 * u128::from(shown);
    if end > length {
        return Err(4);
    }
    Ok(end as usize)
}

/// The shown count of the group at an offset; 0 in a layout without.
pub fn shown_count(layout: &Layout, bytes: &[u8], offset: usize) -> u32 {
    if !layout.shown {
        return 0;
    }
    four(bytes, offset + width(layout.group) - 4)
}

/// 5 if a group has a field out of range.
pub fn groups_in_range(
    rules: &Rules,
    layout: &Layout,
    bytes: &[u8],
    from: usize,
    count: u32,
) -> Result<(), u32> {
    let mut offset = from;
    for _ in 0..count {
        let end = group_end(layout, bytes, offset)?;
        group_in_range(rules, layout, &bytes[offset..end])?;
        offset = end;
    }
    Ok(())
}

/// 5 if the group has a field or a shown quantity out of range.
pub fn group_in_range(rules: &Rules, layout: &Layout, group: &[u8]) -> Result<(), u32> {
    let (fields, shown) = group.split_at(width(layout.group));
    fields_in_range(rules, layout.group, fields)?;
    for quantity in shown.chunks(8) {
        field_in_range(rules, Meaning::Quantity, quantity)?;
    }
    Ok(())
}

/// 5 if one of the fields is out of range.
fn fields_in_range(rules: &Rules, fields: &[Meaning], bytes: &[u8]) -> Result<(), u32> {
    let mut offset = 0;
    for field in fields {
        let end = offset + wide(*field);
        field_in_range(rules, *field, &bytes[offset..end])?;
        offset = end;
    }
    Ok(())
}

/// 5 if the field is out of range. A text is free.
fn field_in_range(rules: &Rules, field: Meaning, bytes: &[u8]) -> Result<(), u32> {
    if field.is_text() || rules.allows(field, number(bytes)) {
        return Ok(());
    }
    Err(5)
}

/// A field as a number: eight bytes are signed, fewer are unsigned.
pub fn number(bytes: &[u8]) -> i64 {
    let unsigned = bytes
        .iter()
        .fold(0u64, |number, byte| (number << 8) | u64::from(*byte));
    unsigned as i64
}

/// The record in a body that is long enough.
fn record(layout: &Layout, body: &[u8]) -> Record {
    let mut record = Record {
        kind: layout.kind,
        numbers: [0; NUMBERS],
        texts: [0; TEXTS],
    };
    let (mut offset, mut numbers, mut texts) = (0, 0, 0);
    for field in layout.fields {
        let width = wide(*field);
        let bytes = &body[offset..offset + width];
        if field.is_text() {
            record.texts[texts..texts + width].copy_from_slice(bytes);
            texts += width;
        } else {
            record.numbers[numbers] = number(bytes);
            numbers += 1;
        }
        offset += width;
    }
    record
}

/// The offset of a group by position: 4 and 5 for the whole body, then "no
/// such entry".
pub fn offset_of(rules: &Rules, layout: &Layout, body: &[u8], position: u32) -> Found<usize> {
    if let Err(refusal) = judge(rules, layout, body) {
        return Found::Refused(refusal);
    }
    if position >= count(layout, body) {
        return Found::NoSuchEntry;
    }
    match groups_end(layout, body, layout.fixed(), position) {
        Err(refusal) => Found::Refused(refusal),
        Ok(offset) => Found::Found(offset),
    }
}

/// A group of 390090 or 390013 by position. All other types have none.
pub fn group(rules: &Rules, kind: u32, body: &[u8], position: u32) -> Found<Group> {
    let Some(layout) = layout(kind) else {
        return Found::NoSuchEntry;
    };
    match offset_of(rules, layout, body, position) {
        Found::Refused(refusal) => Found::Refused(refusal),
        Found::NoSuchEntry => Found::NoSuchEntry,
        Found::Found(offset) => group_at(layout, &body[offset..]),
    }
}

/// The group at the beginning of the bytes.
fn group_at(layout: &Layout, bytes: &[u8]) -> Found<Group> {
    match layout.kind {
        STATISTICS => Found::Found(Group::Statistics {
            stream: characters(&bytes[..3]),
            stock_number: four(bytes, 3),
            phase: characters(&bytes[7..15]),
        }),
        SECURITY_STATUS => Found::Found(Group::SecurityStatus {
            switch_type: two(bytes, 0),
            yes_no: two(bytes, 2),
        }),
        _ => Found::NoSuchEntry,
    }
}

/// The two bytes at an offset as a big-endian number.
pub fn two(bytes: &[u8], offset: usize) -> u16 {
    u16::from(bytes[offset]) * 256 + u16::from(bytes[offset + 1])
}

/// Characters as an array.
pub fn characters<const N: usize>(bytes: &[u8]) -> [u8; N] {
    let mut array = [0; N];
    array.copy_from_slice(bytes);
    array
}

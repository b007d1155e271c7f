//! The writer: fixed fields as numbers, texts and groups as lent bytes.

use super::frame::{checksum, AROUND, HEADER};
use super::layout::{layout, wide, Layout};
use super::record::{groups_end, groups_in_range};
use super::rules::Rules;
use crate::layout::Meaning;
use crate::receiver::{Draft, WriteAnswer};

/// Writes a frame: 5 for the type, then 4, 5, 2, 6. A refusal leaves the
/// output as it stood.
pub fn write(rules: &Rules, draft: &Draft, output: &mut [u8]) -> WriteAnswer {
    let Some(layout) = layout(draft.kind) else {
        return WriteAnswer::Refused(5);
    };
    let body = layout.fixed() + draft.groups.len();
    if let Err(refusal) = judge(rules, layout, draft, body, output.len()) {
        return WriteAnswer::Refused(refusal);
    }
    let end = HEADER + body;
    output[..4].copy_from_slice(&draft.kind.to_be_bytes());
    output[4..HEADER].copy_from_slice(&(body as u32).to_be_bytes());
    write_body(layout, draft, &mut output[HEADER..end]);
    let sum = checksum(&output[..end]);
    output[end..end + 4].copy_from_slice(&sum.to_be_bytes());
    WriteAnswer::Written(AROUND + body)
}

/// In this order 4, 5, 2, 6.
fn judge(
    rules: &Rules,
    layout: &Layout,
    draft: &Draft,
    body: usize,
    room: usize,
) -> Result<(), u32> {
    exactly_the_fields(layout, draft)?;
    numbers_in_range(rules, layout, draft)?;
    groups_in_range(rules, layout, draft.groups, 0, stated_count(layout, draft))?;
    if body > rules.body_limit {
        return Err(2);
    }
    if room < AROUND + body {
        return Err(6);
    }
    Ok(())
}

/// 4 if the lent texts or groups are not exactly the stated fields.
fn exactly_the_fields(layout: &Layout, draft: &Draft) -> Result<(), u32> {
    if draft.texts.len() != layout.texts() {
        return Err(4);
    }
    let count = stated_count(layout, draft);
    if groups_end(layout, draft.groups, 0, count)? != draft.groups.len() {
        return Err(4);
    }
    Ok(())
}

/// The fields that come as numbers.
fn number_fields(layout: &Layout) -> impl Iterator<Item = &'static Meaning> {
    layout.fields.iter().filter(|field| !field.is_text())
}

/// The stated group count, the last fixed field; 0 without groups.
fn stated_count(layout: &Layout, draft: &Draft) -> u32 {
    if layout.group.is_empty() {
        return 0;
    }
    draft.numbers[number_fields(layout).count() - 1] as u32
}

/// 5 if a fixed field is out of range.
fn numbers_in_range(rules: &Rules, layout: &Layout, draft: &Draft) -> Result<(), u32> {
    for (field, number) in number_fields(layout).zip(draft.numbers) {
        if !rules.allows(*field, number) {
            return Err(5);
        }
    }
    Ok(())
}

/// Writes the fields in the layout's order, then the groups.
fn write_body(layout: &Layout, draft: &Draft, body: &mut [u8]) {
    let mut numbers = draft.numbers.iter();
    let mut texts = draft.texts;
    let mut offset = 0;
    for field in layout.fields {
        let width = wide(*field);
        let target = &mut body[offset..offset + width];
        if field.is_text() {
            let (text, rest) = texts.split_at(width);
            target.copy_from_slice(text);
            texts = rest;
        } else {
            let number = numbers.next().expect("a number for each field");
            target.copy_from_slice(&number.to_be_bytes()[8 - width..]);
        }
        offset += width;
    }
    body[offset..].copy_from_slice(draft.groups);
}

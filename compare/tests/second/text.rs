//! Listing and decoding as text, by the samples' README, over any receiver.

use compare::layout::{layout, Field, Layout, Meaning};
use compare::receiver::{Entry, Found, FrameAnswer, Group, ReadAnswer, Receiver, Record, Says};
use compare::second::rules::Rules;

/// The listing: offset, type, body length of each frame, and the last line.
pub fn listing(receiver: &dyn Receiver, bytes: &[u8]) -> String {
    walk(receiver, bytes, |offset, kind, body| {
        format!("{offset} {kind} {}\n", body.len())
    })
}

/// The decoded text.
pub fn showing(receiver: &dyn Receiver, rules: &Rules, bytes: &[u8]) -> String {
    walk(receiver, bytes, |offset, kind, body| {
        format!("{offset} {}", record_lines(receiver, rules, kind, body))
    })
}

/// A text for each frame, then the last line.
fn walk(
    receiver: &dyn Receiver,
    bytes: &[u8],
    line: impl Fn(usize, u32, &[u8]) -> String,
) -> String {
    let (mut text, mut offset, mut frames) = (String::new(), 0, 0);
    while offset < bytes.len() {
        match receiver.frame(&bytes[offset..]) {
            FrameAnswer::Short { missing } => {
                return text + &format!("{offset} refused 1 {missing}\n")
            }
            FrameAnswer::Refused(number) => return text + &format!("{offset} refused {number}\n"),
            FrameAnswer::Frame {
                kind,
                from,
                to,
                size,
            } => {
                text += &line(offset, kind, &bytes[offset + from..offset + to]);
                offset += size;
                frames += 1;
            }
        }
    }
    text + &format!("{offset} end {frames}\n")
}

/// A record's lines without its offset.
fn record_lines(receiver: &dyn Receiver, rules: &Rules, kind: u32, body: &[u8]) -> String {
    let name = layout(kind).map_or("", |layout| layout.name);
    match (receiver.read(kind, body), layout(kind)) {
        (ReadAnswer::Refused(number), _) => format!("{name}: refused {number}\n"),
        (ReadAnswer::Record(record), Some(layout)) => {
            let mut text = name.to_string();
            if !layout.fields.is_empty() {
                text += &format!(": {}", listed(rules, layout.fields, &wire(layout, &record)));
            }
            text + "\n" + &group_lines(receiver, rules, layout, body)
        }
        _ => format!("unknown: type {kind}, body length {}\n", body.len()),
    }
}

/// A record's fields in wire layout.
fn wire(layout: &Layout, record: &Record) -> Vec<u8> {
    let (mut bytes, mut numbers, mut texts) = (Vec::new(), record.numbers.iter(), 0);
    for field in layout.fields {
        let width = field.meaning.width();
        if field.meaning.is_text() {
            bytes.extend_from_slice(&record.texts[texts..texts + width]);
            texts += width;
        } else {
            let number = numbers.next().expect("a number for each field");
            bytes.extend_from_slice(&number.to_be_bytes()[8 - width..]);
        }
    }
    bytes
}

/// Fields as `name value, name value`.
fn listed(rules: &Rules, fields: &[Field], bytes: &[u8]) -> String {
    let mut at = 0;
    let mut parts = Vec::new();
    for field in fields {
        let end = at + field.meaning.width();
        parts.push(format!(
            "{} {}",
            field.name,
            value(rules, field.meaning, &bytes[at..end])
        ));
        at = end;
    }
    parts.join(", ")
}

/// One field's value.
fn value(rules: &Rules, meaning: Meaning, bytes: &[u8]) -> String {
    let unsigned = bytes
        .iter()
        .fold(0u64, |number, byte| (number << 8) | u64::from(*byte));
    let number = unsigned as i64;
    match meaning {
        Meaning::Text(_) => quoted(bytes),
        Meaning::Price => decimals(number, rules.price_decimals),
        Meaning::EntryPrice => decimals(number, rules.entry_price_decimals),
        Meaning::Quantity => decimals(number, rules.quantity_decimals),
        Meaning::Amount => decimals(number, rules.amount_decimals),
        Meaning::Side | Meaning::OrderType | Meaning::Execution => char::from(bytes[0]).to_string(),
        Meaning::Time => clock(number),
        _ => number.to_string(),
    }
}

/// A text in quotes, spaces on the right left out.
fn quoted(bytes: &[u8]) -> String {
    let kept = bytes
        .iter()
        .rposition(|byte| *byte != b' ')
        .map_or(0, |place| place + 1);
    let shown = bytes[..kept].iter().map(|byte| match byte {
        b'"' | b'\\' => format!("\\x{byte:02X}"),
        32..=126 => char::from(*byte).to_string(),
        _ => format!("\\x{byte:02X}"),
    });
    format!("\"{}\"", shown.collect::<String>())
}

/// A number with so many decimals.
fn decimals(number: i64, places: usize) -> String {
    let sign = if number < 0 { "-" } else { "" };
    let digits = format!("{:0width$}", number.unsigned_abs(), width = places + 1);
    let (whole, part) = digits.split_at(digits.len() - places);
    format!("{sign}{whole}.{part}")
}

/// A time as `2026-11-13 09:15:00.000`.
fn clock(time: i64) -> String {
    let t = format!("{time:017}");
    let (date, day) = (&t[..4], &t[4..]);
    let parts = (
        &day[..2],
        &day[2..4],
        &day[4..6],
        &day[6..8],
        &day[8..10],
        &day[10..],
    );
    format!(
        "{date}-{}-{} {}:{}:{}.{}",
        parts.0, parts.1, parts.2, parts.3, parts.4, parts.5
    )
}

/// The lines of groups or entries.
fn group_lines(receiver: &dyn Receiver, rules: &Rules, layout: &Layout, body: &[u8]) -> String {
    if layout.has_entries() {
        return entry_lines(receiver, rules, layout.kind, body);
    }
    let mut text = String::new();
    for position in 0.. {
        let Found::Found(group) = receiver.group(layout.kind, body, position) else {
            break;
        };
        text += &format!("  group {position}: {}\n", group_text(&group));
    }
    text
}

/// A group's fields.
fn group_text(group: &Group) -> String {
    match group {
        Group::Statistics {
            stream,
            stock_number,
            phase,
        } => {
            let (stream, phase) = (quoted(stream), quoted(phase));
            format!("stream {stream}, stock number {stock_number}, phase {phase}")
        }
        Group::SecurityStatus {
            switch_type,
            yes_no,
        } => {
            format!("switch type {switch_type}, yes/no {yes_no}")
        }
    }
}

/// The lines of entries, by the cursor; by position each is the same.
fn entry_lines(receiver: &dyn Receiver, rules: &Rules, kind: u32, body: &[u8]) -> String {
    let mut cursor = receiver.start(kind, body);
    let (mut text, mut position) = (String::new(), 0);
    loop {
        let step = receiver.step(kind, body, cursor);
        let Found::Found(entry) = step.entry else {
            break;
        };
        assert_eq!(receiver.entry(kind, body, position), Found::Found(entry));
        let said = said(rules, &entry);
        text += &format!("  entry {position}: type {}, {said}", quoted(&entry.kind));
        text += &quantities(receiver, rules, kind, body, position);
        text += "\n";
        cursor = step.next;
        position += 1;
    }
    assert_eq!(receiver.entry(kind, body, position), Found::NoSuchEntry);
    text
}

/// What an entry says.
fn said(rules: &Rules, entry: &Entry) -> String {
    let price_text = |price| format!("price {}", decimals(price, rules.entry_price_decimals));
    let size_text = |size| format!("size {}", decimals(size, rules.quantity_decimals));
    match entry.says {
        Says::Level {
            price,
            size,
            level,
            order_count,
        } => {
            let front = format!("{}, {}", price_text(price), size_text(size));
            format!("{front}, level {level}, order count {order_count}")
        }
        Says::LevelWithoutPrice {
            size,
            level,
            order_count,
        } => {
            format!(
                "price -, {}, level {level}, order count {order_count}",
                size_text(size)
            )
        }
        Says::Price { price } => price_text(price),
        Says::Size { size } => size_text(size),
        Says::PriceAndSize { price, size } => format!("{}, {}", price_text(price), size_text(size)),
        Says::NoLimit => "no limit".to_string(),
        Says::Unknown => "unknown".to_string(),
    }
}

/// The shown quantities at a line's end.
fn quantities(
    receiver: &dyn Receiver,
    rules: &Rules,
    kind: u32,
    body: &[u8],
    entry: u32,
) -> String {
    let mut text = String::new();
    for position in 0.. {
        let Found::Found(number) = receiver.quantity(kind, body, entry, position) else {
            break;
        };
        let before = if position == 0 { ", quantities " } else { " " };
        text += &format!("{before}{}", decimals(number, rules.quantity_decimals));
    }
    text
}

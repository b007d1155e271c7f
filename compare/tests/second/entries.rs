//! The rules' cases of entries, and the stepping cursor.

use super::{hex, second};
use compare::receiver::{Cursor, Entry, Found, PriceAnswer, ReadAnswer, Receiver, Says};

const SNAPSHOT: u32 = 300111;
const INDEX: u32 = 309011;
const LIMIT: i64 = 999_999_999_999_999_999;
const MARK: i64 = 999_999_999_999_900;

/// A previous close, of four decimals, lies within plus and minus this.
const CLOSE_LIMIT: i64 = 9_999_999_999_999;

/// It stands behind time, channel, stream, security, source and phase.
const CLOSE_AT: usize = 8 + 2 + 3 + 8 + 4 + 8;

/// A common part of 65 bytes and a count.
fn head(count: u32) -> Vec<u8> {
    let mut body = 20_261_113_091_500_000i64.to_be_bytes().to_vec();
    body.extend_from_slice(&hex("03F3"));
    body.extend_from_slice(b"010000001  102 O0      ");
    body.extend_from_slice(&hex("000000000001DCF4 0000000000000000"));
    body.extend_from_slice(&hex("0000000000000000 0000000000000000"));
    assert_eq!(body.len(), 65);
    body.extend_from_slice(&count.to_be_bytes());
    body
}

/// An entry of 300111.
fn entry(kind: &[u8; 2], price: i64, size: i64, level: u16, shown: &[i64]) -> Vec<u8> {
    let mut bytes = kind.to_vec();
    bytes.extend_from_slice(&price.to_be_bytes());
    bytes.extend_from_slice(&size.to_be_bytes());
    bytes.extend_from_slice(&level.to_be_bytes());
    bytes.extend_from_slice(&3i64.to_be_bytes());
    bytes.extend_from_slice(&(shown.len() as u32).to_be_bytes());
    shown
        .iter()
        .for_each(|each| bytes.extend_from_slice(&each.to_be_bytes()));
    bytes
}

/// A snapshot of these entries.
fn snapshot(entries: &[Vec<u8>]) -> Vec<u8> {
    let mut body = head(entries.len() as u32);
    entries.iter().for_each(|each| body.extend_from_slice(each));
    body
}

/// What a lone entry says.
fn says(kind: &[u8; 2], price: i64, size: i64) -> Says {
    let body = snapshot(&[entry(kind, price, size, 1, &[])]);
    match second().entry(SNAPSHOT, &body, 0) {
        Found::Found(entry) => entry.says,
        other => panic!("{other:?}"),
    }
}

#[test]
fn auction_levels() {
    let body = snapshot(&[
        entry(b"0 ", 12_340_000, 50_000, 1, &[]),
        entry(b"0 ", 0, 70_000, 2, &[]),
    ]);
    let level = Says::Level {
        price: 12_340_000,
        size: 50_000,
        level: 1,
        order_count: 3,
    };
    let first = Entry {
        kind: *b"0 ",
        shown: 0,
        says: level,
    };
    assert_eq!(second().entry(SNAPSHOT, &body, 0), Found::Found(first));
    let bare = Says::LevelWithoutPrice {
        size: 70_000,
        level: 2,
        order_count: 3,
    };
    let other = Entry {
        kind: *b"0 ",
        shown: 0,
        says: bare,
    };
    assert_eq!(second().entry(SNAPSHOT, &body, 1), Found::Found(other));
    assert_eq!(second().entry(SNAPSHOT, &body, 2), Found::NoSuchEntry);
    assert_eq!(second().group(SNAPSHOT, &body, 1), Found::NoSuchEntry);
}

#[test]
fn entries_that_are_prices() {
    let kinds: [&[u8; 2]; 16] = [
        b"2 ", b"4 ", b"7 ", b"8 ", b"9 ", b"x1", b"x2", b"x5", b"x6", b"x7", b"x8", b"x9", b"xj",
        b"xk", b"xe", b"xf",
    ];
    for kind in kinds {
        assert_eq!(says(kind, -12, 34), Says::Price { price: -12 });
        assert_eq!(says(kind, 0, 34), Says::Price { price: 0 });
    }
}

#[test]
fn no_limit_has_its_own_mark() {
    assert_eq!(says(b"xe", MARK, 0), Says::NoLimit);
    assert_eq!(says(b"xf", -MARK, 0), Says::NoLimit);
    assert_eq!(says(b"xe", -MARK, 0), Says::Price { price: -MARK });
    assert_eq!(says(b"xf", MARK, 0), Says::Price { price: MARK });
    assert_eq!(says(b"2 ", MARK, 0), Says::Price { price: MARK });
    for price in [MARK - 1, MARK + 1, MARK / 100, LIMIT] {
        assert_eq!(says(b"xe", price, 0), Says::Price { price });
        assert_eq!(says(b"xf", -price, 0), Says::Price { price: -price });
    }
}

#[test]
fn prices_of_entries_have_a_range_of_their_own() {
    let index = |price: i64| [&head(1)[..], b"3 ", &price.to_be_bytes()].concat();
    for price in [LIMIT, -LIMIT, CLOSE_LIMIT, CLOSE_LIMIT + 1] {
        let read = second().read(INDEX, &index(price));
        assert!(matches!(read, ReadAnswer::Record(_)));
        assert_eq!(says(b"2 ", price, 0), Says::Price { price });
    }
    for price in [LIMIT + 1, -LIMIT - 1, i64::MAX, i64::MIN] {
        let snapshot = snapshot(&[entry(b"2 ", price, 0, 0, &[])]);
        assert_eq!(second().read(SNAPSHOT, &snapshot), ReadAnswer::Refused(5));
        assert_eq!(second().read(INDEX, &index(price)), ReadAnswer::Refused(5));
    }
    for (close, refused) in [(CLOSE_LIMIT, false), (CLOSE_LIMIT + 1, true)] {
        let mut body = index(LIMIT);
        body[CLOSE_AT..CLOSE_AT + 8].copy_from_slice(&close.to_be_bytes());
        let read = second().read(INDEX, &body);
        assert_eq!(read == ReadAnswer::Refused(5), refused);
    }
}

#[test]
fn sizes_and_unknown_entries() {
    assert_eq!(says(b"xg", 12, 34), Says::Size { size: 34 });
    assert_eq!(
        says(b"x3", 12, 34),
        Says::PriceAndSize {
            price: 12,
            size: 34
        }
    );
    assert_eq!(
        says(b"x4", 0, 34),
        Says::PriceAndSize { price: 0, size: 34 }
    );
    for kind in [b"3 ", b"5 ", b"0\0", b" 0", b"xa", b"xh", b"XE", b"00"] {
        assert_eq!(says(kind, 12, 34), Says::Unknown);
    }
}

#[test]
fn index_entries() {
    let mut body = head(6);
    for kind in [b"3 ", b"xa", b"xb", b"xc", b"xd", b"0 "] {
        body.extend_from_slice(kind);
        body.extend_from_slice(&105i64.to_be_bytes());
    }
    for position in 0..5 {
        let Found::Found(entry) = second().entry(INDEX, &body, position) else {
            panic!("no entry {position}");
        };
        assert_eq!((entry.shown, entry.says), (0, Says::Price { price: 105 }));
    }
    let last = Entry {
        kind: *b"0 ",
        shown: 0,
        says: Says::Unknown,
    };
    assert_eq!(second().entry(INDEX, &body, 5), Found::Found(last));
    assert_eq!(second().quantity(INDEX, &body, 5, 0), Found::NoSuchEntry);
}

#[test]
fn quantities_come_by_position() {
    let body = snapshot(&[
        entry(b"zz", 1, 2, 3, &[100, 400]),
        entry(b"0 ", 1, 2, 3, &[7]),
    ]);
    assert_eq!(second().quantity(SNAPSHOT, &body, 0, 1), Found::Found(400));
    assert_eq!(second().quantity(SNAPSHOT, &body, 1, 0), Found::Found(7));
    assert_eq!(second().quantity(SNAPSHOT, &body, 0, 2), Found::NoSuchEntry);
    assert_eq!(second().quantity(SNAPSHOT, &body, 2, 0), Found::NoSuchEntry);
    let short = &body[..body.len() - 1];
    assert_eq!(second().quantity(SNAPSHOT, short, 2, 0), Found::Refused(4));
}

#[test]
fn fields_without_meaning_obey_their_ranges() {
    let broken = [
        entry(b"zz", LIMIT + 1, 0, 0, &[]),
        entry(b"2 ", 0, -1, 0, &[]),
        entry(b"2 ", 0, 0, 0, &[1_000_000_000_000_000]),
    ];
    for each in broken {
        let good = entry(b"0 ", 1, 1, 1, &[]);
        let body = snapshot(&[good, each]);
        assert_eq!(second().read(SNAPSHOT, &body), ReadAnswer::Refused(5));
        assert_eq!(second().entry(SNAPSHOT, &body, 0), Found::Refused(5));
        let start = second().start(SNAPSHOT, &body);
        let step = second().step(SNAPSHOT, &body, start);
        let next = second().step(SNAPSHOT, &body, step.next);
        assert!(matches!(step.entry, Found::Found(_)));
        assert_eq!((next.entry, next.next), (Found::Refused(5), step.next));
        assert_eq!(
            second().read(SNAPSHOT, &body[..body.len() - 1]),
            ReadAnswer::Refused(4)
        );
    }
}

#[test]
fn counts_that_wrap_around_are_4() {
    for count in [1, u32::MAX, 1 << 27, 1 << 31, 134_217_729] {
        assert_eq!(
            second().read(SNAPSHOT, &head(count)),
            ReadAnswer::Refused(4)
        );
        assert_eq!(second().read(INDEX, &head(count)), ReadAnswer::Refused(4));
    }
}

#[test]
fn cursor_steps_over_all_entries() {
    let body = snapshot(&[
        entry(b"0 ", 5, 6, 1, &[1, 2, 3]),
        entry(b"zz", 5, 6, 1, &[]),
    ]);
    let cursor = |offset, left| Cursor { offset, left };
    let step = |at| second().step(SNAPSHOT, &body, at);
    assert_eq!(second().start(SNAPSHOT, &body), cursor(69, 2));
    let (one, two, end) = (
        step(cursor(69, 2)),
        step(cursor(125, 1)),
        step(cursor(157, 0)),
    );
    assert_eq!(one.next, cursor(125, 1));
    assert!(matches!(one.entry, Found::Found(Entry { shown: 3, .. })));
    assert_eq!(two.next, cursor(157, 0));
    let unknown = Entry {
        kind: *b"zz",
        shown: 0,
        says: Says::Unknown,
    };
    assert_eq!(two.entry, Found::Found(unknown));
    assert_eq!((end.entry, end.next), (Found::NoSuchEntry, cursor(157, 0)));
}

#[test]
fn made_up_cursors_are_answered() {
    let body = snapshot(&[entry(b"0 ", -1, 6, 1, &[]), entry(b"0 ", 5, -6, 1, &[])]);
    let step = |offset, left| {
        let at = Cursor { offset, left };
        let answer = second().step(SNAPSHOT, &body, at);
        assert!(matches!(answer.entry, Found::Found(_)) || answer.next == at);
        answer.entry
    };
    assert!(matches!(step(69, 9), Found::Found(_)));
    assert_eq!(step(101, 1), Found::Refused(5));
    assert_eq!(step(102, 1), Found::Refused(4));
    assert_eq!(step(usize::MAX, 1), Found::Refused(4));
    assert_eq!(step(usize::MAX, 0), Found::NoSuchEntry);
}

#[test]
fn a_start_judges_nothing() {
    let body = head(0x01020304);
    let start = |kind, length: usize| second().start(kind, &body[..length]);
    let at = |offset, left| Cursor { offset, left };
    assert_eq!(start(SNAPSHOT, 69), at(69, 0x01020304));
    assert_eq!(start(INDEX, 68), at(69, 0x010203));
    assert_eq!(start(INDEX, 66), at(69, 0x01));
    assert_eq!(start(SNAPSHOT, 65), at(69, 0));
    assert_eq!(start(SNAPSHOT, 0), at(69, 0));
    assert_eq!((start(3, 0), start(7, 1)), (at(0, 0), at(0, 0)));
    let step = second().step(3, &[], at(0, 1));
    assert_eq!((step.entry, step.next), (Found::NoSuchEntry, at(0, 1)));
}

#[test]
fn where_there_is_no_price_the_lent_number_stays() {
    let body = snapshot(&[
        entry(b"0 ", 5, 6, 1, &[]),
        entry(b"0 ", 0, 6, 2, &[]),
        entry(b"xg", 5, 6, 0, &[]),
        entry(b"xe", MARK, 0, 0, &[]),
        entry(b"zz", 5, 6, 0, &[]),
    ]);
    for (position, answer, left) in [
        (0, PriceAnswer::Price, 5),
        (1, PriceAnswer::NoPrice, -7),
        (2, PriceAnswer::NoPrice, -7),
        (3, PriceAnswer::NoPrice, -7),
        (4, PriceAnswer::NoPrice, -7),
        (5, PriceAnswer::NoSuchEntry, -7),
    ] {
        let mut price = -7;
        let told = second().entry_price(SNAPSHOT, &body, position, &mut price);
        assert_eq!((told, price), (answer, left));
        let at = Cursor {
            offset: 69 + 32 * position as usize,
            left: 5 - position,
        };
        let mut price = -7;
        let told = second().step_price(SNAPSHOT, &body, at, &mut price);
        assert_eq!((told, price), (answer, left));
    }
    let mut price = -7;
    let short = &body[..body.len() - 1];
    let told = second().entry_price(SNAPSHOT, short, 0, &mut price);
    assert_eq!((told, price), (PriceAnswer::Refused(4), -7));
}

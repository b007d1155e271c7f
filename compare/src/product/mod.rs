//! The product behind the trait: its C calls, with the answers in the
//! rules' terms. The header has no call that writes an unlisted type: that is
//! refused here.

pub mod header;
mod join;
mod numbers;

use crate::layout::*;
use crate::receiver::{
    ArrivalAnswer, Cursor, Draft, Entry, Found, FrameAnswer, Given, Group, JoinAnswer, PriceAnswer,
    ReadAnswer, Receiver, Record, RequestAnswer, Says, SetUpAnswer, Stands, StepAnswer, Stream,
    StreamAnswer, Tracker, Verdict, WriteAnswer, NUMBERS, TEXTS,
};
use header::*;
use numbers::Numbers;
use std::ptr;

/// The product.
pub struct Product;

/// Stands for a refusal's number where an answer has something that the
/// header does not let it have: a number or a text beside a refusal, one that
/// the entry does not say, an answer, a price or a number of missing bytes
/// that does not go with the rest; or a call has changed what it was lent to
/// read. No receiver refuses by it, so it is always a difference.
pub const STRAY: u32 = u32::MAX;

/// A refusal's number, or `STRAY`.
fn refusal(answer: u32, as_promised: bool) -> u32 {
    if as_promised {
        answer
    } else {
        STRAY
    }
}

/// The lent elements. Of none, NULL.
fn lent<T>(elements: &[T]) -> *const T {
    match elements {
        [] => ptr::null(),
        _ => elements.as_ptr(),
    }
}

/// The lent output. Of no bytes, NULL.
fn lent_out(output: &mut [u8]) -> *mut u8 {
    match output {
        [] => ptr::null_mut(),
        _ => output.as_mut_ptr(),
    }
}

/// A record's call.
type Reads<N> = unsafe extern "C" fn(*const u8, usize) -> Answer<N>;

/// A writer's call.
type Writes<N> = unsafe extern "C" fn(
    N,
    *const u8,
    usize,
    *const u8,
    usize,
    *mut u8,
    usize,
) -> header::WriteAnswer;

/// Reads a body by its type's call.
fn read<N: Numbers>(call: Reads<N>, kind: u32, body: &[u8]) -> ReadAnswer {
    let told = unsafe { call(lent(body), body.len()) };
    let (numbers, texts) = (told.numbers.all(), told.texts.0);
    match told.answer {
        0 => ReadAnswer::Record(Record {
            kind,
            numbers,
            texts,
        }),
        answer => {
            let bare = numbers == [0; NUMBERS] && texts == [0; TEXTS];
            ReadAnswer::Refused(refusal(answer, bare))
        }
    }
}

/// How a body reads, by the call that tells no fields.
fn judged(kind: u32, body: &[u8]) -> u32 {
    unsafe { orizhgum_judge(kind, lent(body), body.len()) }
}

/// Reads a body of a type without a call of its own: a heartbeat, which has
/// no fields, or an unlisted type.
fn read_bare(kind: u32, body: &[u8]) -> ReadAnswer {
    match judged(kind, body) {
        0 => ReadAnswer::Record(Record {
            kind,
            numbers: [0; NUMBERS],
            texts: [0; TEXTS],
        }),
        UNKNOWN => ReadAnswer::Unknown {
            kind,
            length: body.len(),
        },
        answer => ReadAnswer::Refused(answer),
    }
}

/// Writes a frame by its type's call.
fn write<N: Numbers>(call: Writes<N>, draft: &Draft, output: &mut [u8]) -> WriteAnswer {
    let (texts, groups) = (draft.texts, draft.groups);
    let numbers = N::of(&draft.numbers);
    let (out, length) = (lent_out(output), output.len());
    written(unsafe {
        call(
            numbers,
            lent(texts),
            texts.len(),
            lent(groups),
            groups.len(),
            out,
            length,
        )
    })
}

/// Writes a heartbeat, which has no numbers.
fn write_heartbeat(draft: &Draft, output: &mut [u8]) -> WriteAnswer {
    let (texts, groups) = (draft.texts, draft.groups);
    let (out, length) = (lent_out(output), output.len());
    written(unsafe {
        orizhgum_write_heartbeat(
            lent(texts),
            texts.len(),
            lent(groups),
            groups.len(),
            out,
            length,
        )
    })
}

/// A writer's answer.
fn written(told: header::WriteAnswer) -> WriteAnswer {
    match told.answer {
        0 => WriteAnswer::Written(told.written),
        answer => WriteAnswer::Refused(refusal(answer, told.written == 0)),
    }
}

/// What an entry says, with the price that its own call gave. None where the
/// two don't go together, or a number is there that is not said.
fn entry(told: &header::Entry, priced: PriceAnswer, price: i64) -> Option<Entry> {
    let (size, level, order_count) = (told.size, told.level, told.order_count);
    let says = match told.says {
        SAYS_LEVEL => Says::Level {
            price,
            size,
            level,
            order_count,
        },
        SAYS_LEVEL_WITHOUT_PRICE => Says::LevelWithoutPrice {
            size,
            level,
            order_count,
        },
        SAYS_PRICE => Says::Price { price },
        SAYS_SIZE => Says::Size { size },
        SAYS_PRICE_AND_SIZE => Says::PriceAndSize { price, size },
        SAYS_NO_LIMIT => Says::NoLimit,
        SAYS_UNKNOWN => Says::Unknown,
        _ => return None,
    };
    let fits = match says.price() {
        Some(_) => priced == PriceAnswer::Price,
        None => priced == PriceAnswer::NoPrice,
    };
    let has_level = matches!(told.says, SAYS_LEVEL | SAYS_LEVEL_WITHOUT_PRICE);
    let has_size = has_level || matches!(told.says, SAYS_SIZE | SAYS_PRICE_AND_SIZE);
    let unsaid =
        (!has_level && (level, order_count, told.shown) != (0, 0, 0)) || (!has_size && size != 0);
    (fits && !unsaid).then_some(Entry {
        kind: told.characters.to_be_bytes(),
        shown: told.shown,
        says,
    })
}

/// The answer to an entry asked for.
fn found(answer: u32, told: &header::Entry, priced: PriceAnswer, price: i64) -> Found<Entry> {
    let bare = *told == header::Entry::default();
    match answer {
        0 => match entry(told, priced, price) {
            Some(entry) => Found::Found(entry),
            None => Found::Refused(STRAY),
        },
        NO_SUCH_ENTRY if bare => Found::NoSuchEntry,
        _ => Found::Refused(refusal(answer, bare)),
    }
}

/// The answer to a price asked for.
fn priced(answer: u32) -> PriceAnswer {
    match answer {
        0 => PriceAnswer::Price,
        NO_SUCH_ENTRY => PriceAnswer::NoSuchEntry,
        NO_PRICE => PriceAnswer::NoPrice,
        _ => PriceAnswer::Refused(answer),
    }
}

/// The group of a type, with nothing beside its fields.
fn group(kind: u32, told: &GroupAnswer) -> Option<Group> {
    let (switch_type, yes_no) = (told.switch_type, told.yes_no);
    let texts = told.texts.0;
    match kind {
        STATISTICS if (switch_type, yes_no) == (0, 0) && texts[11..] == [0; 13] => {
            Some(Group::Statistics {
                stream: texts[..3].try_into().ok()?,
                stock_number: told.stock_number,
                phase: texts[3..11].try_into().ok()?,
            })
        }
        SECURITY_STATUS if told.stock_number == 0 && texts == [0; TEXTS] => {
            Some(Group::SecurityStatus {
                switch_type,
                yes_no,
            })
        }
        _ => None,
    }
}

/// The answer of the frame reader. Without a frame there is nothing of one,
/// and bytes are missing with 1 alone.
fn framed(told: header::FrameAnswer) -> FrameAnswer {
    let missing = told.missing;
    let fits = (told.answer == 1) == (missing > 0);
    let bare = fits && (told.kind, told.len, told.total) == (0, 0, 0);
    match told.answer {
        0 if fits => FrameAnswer::Frame {
            kind: told.kind,
            from: 8,
            to: told.len.wrapping_add(8),
            size: told.total,
        },
        1 if bare => FrameAnswer::Short { missing },
        answer => FrameAnswer::Refused(refusal(answer, bare)),
    }
}

/// The answer of a stream's call. Without a frame there is nothing of one, and
/// bytes are missing with 1 and with "more" alone.
fn streamed(told: header::StreamAnswer) -> StreamAnswer {
    let frame = |stands| Given::Frame {
        stands,
        kind: told.kind,
        length: told.len,
        size: told.total,
    };
    let missing = told.missing;
    let fits = matches!(told.answer, 1 | MORE) == (missing > 0);
    let bare = fits && (told.stands, told.kind, told.len, told.total) == (0, 0, 0, 0);
    let given = match (told.answer, told.stands) {
        (0, IN_CUT) if fits => frame(Stands::InCut),
        (0, IN_BUFFER) if fits => frame(Stands::InBuffer),
        (0, _) => Given::Refused(STRAY),
        (1, _) if bare => Given::Short { missing },
        (MORE, _) if bare => Given::More { missing },
        (END, _) if bare => Given::End,
        (answer, _) => Given::Refused(refusal(answer, bare)),
    };
    StreamAnswer {
        given,
        took: told.took,
        next: told.next,
    }
}

/// A call over the arrays of a tracker, lent as pointers of one kind.
macro_rules! lend {
    ($call:ident, $tracker:ident, $lends:ident, $($taken:expr),*) => {
        unsafe {
            $call(
                $tracker.count,
                $tracker.numbers.as_ptr(),
                $tracker.from.as_ptr(),
                $tracker.highest.$lends(),
                $tracker.ended.$lends(),
                $tracker.counts.$lends(),
                $tracker.first.$lends(),
                $tracker.last.$lends(),
                $($taken),*
            )
        }
    };
}

impl Receiver for Product {
    fn frame(&self, bytes: &[u8]) -> FrameAnswer {
        framed(unsafe { orizhgum_frame(lent(bytes), bytes.len()) })
    }

    fn fresh(&self) -> Stream {
        unsafe { orizhgum_stream_new() }
    }

    fn push(&self, stream: Stream, buffer: &mut [u8], cut: &[u8]) -> StreamAnswer {
        let (lent_buffer, length) = (lent_out(buffer), buffer.len());
        streamed(unsafe { orizhgum_stream_push(stream, lent_buffer, length, lent(cut), cut.len()) })
    }

    fn end(&self, stream: Stream, buffer: &mut [u8]) -> StreamAnswer {
        let (lent_buffer, length) = (lent_out(buffer), buffer.len());
        streamed(unsafe { orizhgum_stream_end(stream, lent_buffer, length) })
    }

    fn read(&self, kind: u32, body: &[u8]) -> ReadAnswer {
        let answer = match kind {
            CHANNEL_HEARTBEAT => read(orizhgum_channel_heartbeat, kind, body),
            RESEND => read(orizhgum_resend, kind, body),
            STATISTICS => read(orizhgum_statistics, kind, body),
            SECURITY_STATUS => read(orizhgum_security_status, kind, body),
            SNAPSHOT => read(orizhgum_snapshot, kind, body),
            INDEX => read(orizhgum_index, kind, body),
            VOLUME_INDEX => read(orizhgum_volume_index, kind, body),
            ORDER => read(orizhgum_order, kind, body),
            TRADE => read(orizhgum_trade, kind, body),
            _ => read_bare(kind, body),
        };
        let number = match answer {
            ReadAnswer::Record(_) => 0,
            ReadAnswer::Unknown { .. } => UNKNOWN,
            ReadAnswer::Refused(number) => number,
        };
        match judged(kind, body) == number {
            true => answer,
            false => ReadAnswer::Refused(STRAY),
        }
    }

    fn group(&self, kind: u32, body: &[u8], position: u32) -> Found<Group> {
        let told = unsafe { orizhgum_group(kind, lent(body), body.len(), position) };
        let numbers = (told.stock_number, told.switch_type, told.yes_no);
        let bare = numbers == (0, 0, 0) && told.texts.0 == [0; TEXTS];
        match told.answer {
            0 => match group(kind, &told) {
                Some(group) => Found::Found(group),
                None => Found::Refused(STRAY),
            },
            NO_SUCH_ENTRY if bare => Found::NoSuchEntry,
            answer => Found::Refused(refusal(answer, bare)),
        }
    }

    fn entry(&self, kind: u32, body: &[u8], position: u32) -> Found<Entry> {
        let told = unsafe { orizhgum_entry(kind, lent(body), body.len(), position) };
        let mut price = 0;
        let priced = self.entry_price(kind, body, position, &mut price);
        found(told.answer, &told.entry, priced, price)
    }

    fn entry_price(&self, kind: u32, body: &[u8], position: u32, price: &mut i64) -> PriceAnswer {
        priced(unsafe { orizhgum_entry_price(kind, lent(body), body.len(), position, price) })
    }

    fn quantity(&self, kind: u32, body: &[u8], entry: u32, position: u32) -> Found<i64> {
        let told = unsafe { orizhgum_quantity(kind, lent(body), body.len(), entry, position) };
        let bare = told.quantity == 0;
        match told.answer {
            0 => Found::Found(told.quantity),
            NO_SUCH_ENTRY if bare => Found::NoSuchEntry,
            answer => Found::Refused(refusal(answer, bare)),
        }
    }

    fn start(&self, kind: u32, body: &[u8]) -> Cursor {
        unsafe { orizhgum_cursor(kind, lent(body), body.len()) }
    }

    fn step(&self, kind: u32, body: &[u8], cursor: Cursor) -> StepAnswer {
        self.next(kind, body, cursor, &mut 0)
    }

    fn next(&self, kind: u32, body: &[u8], cursor: Cursor, price: &mut i64) -> StepAnswer {
        let told = unsafe { orizhgum_next(cursor, kind, lent(body), body.len(), price) };
        let priced = match (told.answer, told.entry.says) {
            (0, SAYS_LEVEL | SAYS_PRICE | SAYS_PRICE_AND_SIZE) => PriceAnswer::Price,
            (0, _) => PriceAnswer::NoPrice,
            (answer, _) => priced(answer),
        };
        StepAnswer {
            entry: found(told.answer, &told.entry, priced, *price),
            next: told.next,
        }
    }

    fn step_price(&self, kind: u32, body: &[u8], cursor: Cursor, price: &mut i64) -> PriceAnswer {
        priced(unsafe { orizhgum_step_price(cursor, kind, lent(body), body.len(), price) })
    }

    fn write(&self, draft: &Draft, output: &mut [u8]) -> WriteAnswer {
        match draft.kind {
            HEARTBEAT => write_heartbeat(draft, output),
            CHANNEL_HEARTBEAT => write(orizhgum_write_channel_heartbeat, draft, output),
            RESEND => write(orizhgum_write_resend, draft, output),
            STATISTICS => write(orizhgum_write_statistics, draft, output),
            SECURITY_STATUS => write(orizhgum_write_security_status, draft, output),
            SNAPSHOT => write(orizhgum_write_snapshot, draft, output),
            INDEX => write(orizhgum_write_index, draft, output),
            VOLUME_INDEX => write(orizhgum_write_volume_index, draft, output),
            ORDER => write(orizhgum_write_order, draft, output),
            TRADE => write(orizhgum_write_trade, draft, output),
            _ => WriteAnswer::Refused(5),
        }
    }

    fn set_up(&self, channels: &[u16], from: &[i64]) -> SetUpAnswer {
        let (count, firsts) = (channels.len(), from.len());
        let told = unsafe { orizhgum_set_up(lent(channels), count, lent(from), firsts) };
        SetUpAnswer {
            refused: (told.answer != 0).then_some(told.answer),
            tracker: told.tracker,
        }
    }

    fn tick(&self, tracker: &Tracker, channel: u16, number: i64) -> ArrivalAnswer {
        let mut next = *tracker;
        let verdict = match lend!(orizhgum_tick_in, next, as_mut_ptr, channel, number) {
            0 => Verdict::New,
            LATE => Verdict::Late,
            DUPLICATE => Verdict::Duplicate,
            BEFORE_START => Verdict::BeforeStart,
            answer => Verdict::Refused(answer),
        };
        ArrivalAnswer { verdict, next }
    }

    fn heartbeat(&self, tracker: &Tracker, channel: u16, last: i64, end: u8) -> ArrivalAnswer {
        let mut next = *tracker;
        let verdict = match lend!(orizhgum_heard_in, next, as_mut_ptr, channel, last, end) {
            0 => Verdict::Heard,
            answer => Verdict::Refused(answer),
        };
        ArrivalAnswer { verdict, next }
    }

    fn join(&self, tracker: &Tracker, other: &Tracker) -> JoinAnswer {
        join::joined(orizhgum_join_in, tracker, other)
    }

    fn request(&self, tracker: &Tracker, channel: u16, output: &mut [u8]) -> RequestAnswer {
        let (out, length) = (lent_out(output), output.len());
        let told = lend!(orizhgum_request_in, tracker, as_ptr, channel, out, length);
        match told.answer {
            NOTHING_MISSING if told.written == 0 => RequestAnswer::NothingMissing,
            _ => match written(told) {
                WriteAnswer::Written(size) => RequestAnswer::Written(size),
                WriteAnswer::Refused(number) => RequestAnswer::Refused(number),
            },
        }
    }
}

#[cfg(test)]
mod tests {
    use super::*;

    const PRICE: header::Entry = header::Entry {
        says: SAYS_PRICE,
        characters: 0x3220,
        level: 0,
        size: 0,
        order_count: 0,
        shown: 0,
    };

    #[test]
    fn an_entry_goes_with_its_price() {
        let entry = Entry {
            kind: *b"2 ",
            shown: 0,
            says: Says::Price { price: 5 },
        };
        let told = found(0, &PRICE, PriceAnswer::Price, 5);
        assert_eq!(told, Found::Found(entry));
        let stray = Found::Refused(STRAY);
        assert_eq!(found(0, &PRICE, PriceAnswer::NoPrice, 5), stray);
        let size = header::Entry {
            says: SAYS_SIZE,
            ..PRICE
        };
        assert_eq!(found(0, &size, PriceAnswer::Price, 5), stray);
    }

    #[test]
    fn a_number_that_is_not_said_is_stray() {
        let strays = [
            header::Entry { says: 0, ..PRICE },
            header::Entry { says: 8, ..PRICE },
            header::Entry { level: 1, ..PRICE },
            header::Entry { size: 1, ..PRICE },
            header::Entry {
                order_count: 1,
                ..PRICE
            },
            header::Entry { shown: 1, ..PRICE },
        ];
        for stray in strays {
            let told = found(0, &stray, PriceAnswer::Price, 5);
            assert_eq!(told, Found::Refused(STRAY), "{stray:?}");
        }
    }

    #[test]
    fn a_number_beside_a_refusal_is_stray() {
        let none = header::Entry::default();
        let answer = PriceAnswer::Refused(4);
        assert_eq!(found(4, &none, answer, 0), Found::Refused(4));
        assert_eq!(found(4, &PRICE, answer, 0), Found::Refused(STRAY));
        assert_eq!(found(NO_SUCH_ENTRY, &none, answer, 0), Found::NoSuchEntry);
        assert_eq!(
            found(NO_SUCH_ENTRY, &PRICE, answer, 0),
            Found::Refused(STRAY)
        );
    }

    /// A frame's answer, with nothing but the bytes that are missing.
    fn bare(answer: u32, missing: usize) -> header::FrameAnswer {
        header::FrameAnswer {
            answer,
            kind: 0,
            len: 0,
            total: 0,
            missing,
        }
    }

    #[test]
    fn bytes_are_missing_with_1_alone() {
        assert_eq!(framed(bare(1, 7)), FrameAnswer::Short { missing: 7 });
        assert_eq!(framed(bare(2, 0)), FrameAnswer::Refused(2));
        let frame = header::FrameAnswer {
            kind: 3,
            total: 12,
            ..bare(0, 0)
        };
        assert!(matches!(framed(frame), FrameAnswer::Frame { .. }));
        let strays = [
            bare(1, 0),
            bare(2, 1),
            bare(3, 1),
            bare(MORE, 1),
            header::FrameAnswer {
                missing: 1,
                ..frame
            },
            header::FrameAnswer {
                answer: 1,
                missing: 1,
                ..frame
            },
        ];
        for stray in strays {
            assert_eq!(framed(stray), FrameAnswer::Refused(STRAY), "{stray:?}");
        }
    }

    /// A stream's answer without a frame, with what goes with it.
    fn alone(answer: u32) -> header::StreamAnswer {
        header::StreamAnswer {
            answer,
            stands: 0,
            kind: 0,
            len: 0,
            total: 0,
            missing: match answer {
                1 | MORE => 3,
                _ => 0,
            },
            took: 5,
            next: Stream { held: 5, mark: 0 },
        }
    }

    #[test]
    fn a_frame_beside_another_answer_is_stray() {
        for answer in [MORE, END, 1, 2, 3, 10] {
            let alone = alone(answer);
            assert_ne!(streamed(alone).given, Given::Refused(STRAY), "{alone:?}");
            let strays = [
                header::StreamAnswer {
                    stands: IN_CUT,
                    ..alone
                },
                header::StreamAnswer { kind: 3, ..alone },
                header::StreamAnswer { len: 1, ..alone },
                header::StreamAnswer { total: 12, ..alone },
            ];
            for stray in strays {
                let told = streamed(stray);
                assert_eq!(told.given, Given::Refused(STRAY), "{stray:?}");
            }
        }
    }

    #[test]
    fn a_frame_that_stands_nowhere_is_stray() {
        for stands in [0, 3, u32::MAX] {
            let told = streamed(header::StreamAnswer { stands, ..alone(0) });
            assert_eq!(told.given, Given::Refused(STRAY), "{stands}");
        }
    }

    #[test]
    fn bytes_of_a_stream_are_missing_with_1_and_more_alone() {
        assert_eq!(streamed(alone(1)).given, Given::Short { missing: 3 });
        assert_eq!(streamed(alone(MORE)).given, Given::More { missing: 3 });
        for (answer, stands) in [
            (0, IN_CUT),
            (0, IN_BUFFER),
            (1, 0),
            (2, 0),
            (3, 0),
            (10, 0),
            (MORE, 0),
            (END, 0),
        ] {
            let whole = header::StreamAnswer {
                stands,
                ..alone(answer)
            };
            assert_ne!(streamed(whole).given, Given::Refused(STRAY), "{whole:?}");
            let stray = header::StreamAnswer {
                missing: usize::from(whole.missing == 0),
                ..whole
            };
            assert_eq!(streamed(stray).given, Given::Refused(STRAY), "{stray:?}");
        }
    }
}

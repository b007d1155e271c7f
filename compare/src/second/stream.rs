//! The stream: bytes as the network cuts them, frames one at a time. Held
//! bytes and cut are put together and read by the frame reader.

use super::frame::{four, frame, AROUND, HEADER};
use super::rules::Rules;
use crate::receiver::{FrameAnswer, Given, Stands, Stream, StreamAnswer};

/// A stream of which nothing has come.
pub const FRESH: Stream = Stream { held: 0, mark: 0 };

/// The marks: the stream goes on, was told to have ended, or has stopped at
/// the refusal of this number.
const GOES_ON: u32 = 0;
const ENDED: u32 = 1;
const TOO_LONG: u32 = 2;
const WRONG_SUM: u32 = 3;

/// Whether calls lead to this stream with this buffer.
fn led_to(rules: &Rules, stream: Stream, buffer: &[u8]) -> bool {
    if buffer.len() < rules.body_limit + AROUND {
        return false;
    }
    let Some(held) = buffer.get(..stream.held) else {
        return false;
    };
    match stream.mark {
        GOES_ON | ENDED => matches!(frame(rules, held), FrameAnswer::Short { .. }),
        TOO_LONG | WRONG_SUM => held.is_empty(),
        _ => false,
    }
}

/// What every call answers before it looks at bytes, if so: 10, or the answer
/// at which the stream has stopped.
fn settled(rules: &Rules, stream: Stream, buffer: &[u8]) -> Option<StreamAnswer> {
    let given = match (stream.mark, stream.held) {
        _ if !led_to(rules, stream, buffer) => Given::Refused(10),
        (GOES_ON, _) => return None,
        (ENDED, held) => over(rules, &buffer[..held]),
        (refusal, _) => Given::Refused(refusal),
    };
    Some(StreamAnswer {
        given,
        took: 0,
        next: stream,
    })
}

/// What a stream that has ended answers: 1 with what the held bytes lack, or
/// end where there are none.
fn over(rules: &Rules, held: &[u8]) -> Given {
    match frame(rules, held) {
        FrameAnswer::Short { missing } if !held.is_empty() => Given::Short { missing },
        _ => Given::End,
    }
}

/// A cut of the stream comes.
pub fn push(rules: &Rules, stream: Stream, buffer: &mut [u8], cut: &[u8]) -> StreamAnswer {
    if let Some(answer) = settled(rules, stream, buffer) {
        return answer;
    }
    let held = stream.held;
    let together = [&buffer[..held], cut].concat();
    let given = read(rules, held, &together);
    // How many of these bytes the call goes through, and the next state.
    let (seen, next) = match given {
        Given::Frame { size, .. } => (size, FRESH),
        Given::Refused(TOO_LONG) => (HEADER, stopped(TOO_LONG)),
        Given::Refused(mark) => (AROUND + four(&together, 4) as usize, stopped(mark)),
        Given::More { .. } | Given::Short { .. } | Given::End => {
            (together.len(), keeping(together.len()))
        }
    };
    let cut_alone = held == 0 && !matches!(given, Given::More { .. });
    if !cut_alone {
        buffer[..seen].copy_from_slice(&together[..seen]);
    }
    StreamAnswer {
        given,
        took: seen - held,
        next,
    }
}

/// What held bytes and cut together read as. What would be 1 is more, as long
/// as the stream goes on.
fn read(rules: &Rules, held: usize, together: &[u8]) -> Given {
    match frame(rules, together) {
        FrameAnswer::Short { missing } => Given::More { missing },
        FrameAnswer::Refused(number) => Given::Refused(number),
        FrameAnswer::Frame {
            kind,
            from,
            to,
            size,
        } => Given::Frame {
            stands: match held {
                0 => Stands::InCut,
                _ => Stands::InBuffer,
            },
            kind,
            length: to - from,
            size,
        },
    }
}

/// A stream that has stopped at a refusal.
fn stopped(mark: u32) -> Stream {
    Stream { held: 0, mark }
}

/// A stream that goes on with so many bytes held.
fn keeping(held: usize) -> Stream {
    Stream {
        held,
        mark: GOES_ON,
    }
}

/// The stream has ended.
pub fn end(rules: &Rules, stream: Stream, buffer: &[u8]) -> StreamAnswer {
    if let Some(answer) = settled(rules, stream, buffer) {
        return answer;
    }
    StreamAnswer {
        given: over(rules, &buffer[..stream.held]),
        took: 0,
        next: Stream {
            mark: ENDED,
            ..stream
        },
    }
}

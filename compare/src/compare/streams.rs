//! Plays the calls of a stream, and reads the whole stream at once.

use super::{same, told, Bytes, Play, Told, BEHIND};
use crate::inputs::{Hand, Unled};
use crate::receiver::{FrameAnswer, Given, Receiver, Stands, Stream, StreamAnswer};
use crate::table::{stream_row, Column, Part};

/// A stream as it is played: its state, the lent buffer of each receiver with
/// the bytes behind it, what came and how much of that was taken, and what was
/// read.
struct Flow<'a> {
    way: Option<Unled>,
    state: Stream,
    one: Vec<u8>,
    two: Vec<u8>,
    length: usize,
    bytes: &'a [u8],
    taken: usize,
    ended: bool,
    read: Read,
}

/// What was read of a stream.
#[derive(PartialEq, Debug, Default)]
struct Read {
    /// The type, L and the bytes of each frame.
    frames: Vec<(u32, usize, Bytes)>,
    /// What it stopped at, if it did: one answer, which repeats.
    stopped: Vec<Given>,
}

impl Play<'_> {
    /// Plays calls of a stream one after the other; then, where the stream
    /// began well, reads it at once.
    pub(super) fn stream(
        &mut self,
        way: Option<Unled>,
        start: Option<Stream>,
        buffer: &[u8],
        bytes: &[u8],
        calls: &[Hand],
    ) -> Result<(), Told> {
        let fresh = same(
            || "fresh stream".to_string(),
            self.first.fresh(),
            self.second.fresh(),
        )?;
        let state = start.unwrap_or(fresh);
        let lent = [buffer, &BEHIND].concat();
        let mut flow = Flow {
            way,
            state,
            one: lent.clone(),
            two: lent,
            length: buffer.len(),
            bytes,
            taken: 0,
            ended: false,
            read: Read::default(),
        };
        for call in calls {
            self.hand(&mut flow, *call)?;
        }
        if way.is_some() || state.mark != 0 {
            return Ok(());
        }
        let whole = [&buffer[..state.held], flow.stream_read()].concat();
        let told = read_at_once(self.second, &whole, flow.ended);
        same(
            || "the frames of the cuts, and of the whole stream".to_string(),
            flow.read,
            told,
        )?;
        Ok(())
    }

    /// A call, or calls until all that came is taken.
    fn hand(&mut self, flow: &mut Flow, call: Hand) -> Result<(), Told> {
        let (to, alone) = match call {
            Hand::End => return self.end(flow),
            Hand::Nothing => return self.push(flow, flow.taken).map(|_| ()),
            Hand::Cut { to, alone } => (to, alone),
        };
        let to = to.clamp(flow.taken, flow.bytes.len());
        loop {
            let again = self.push(flow, to)?;
            if !again || !alone || flow.taken == to {
                return Ok(());
            }
        }
    }

    /// Hands in the bytes up to an offset that were not taken yet; tells
    /// whether a frame was found and bytes were taken.
    fn push(&mut self, flow: &mut Flow, to: usize) -> Result<bool, Told> {
        let (state, length) = (flow.state, flow.length);
        let cut = &flow.bytes[flow.taken..to];
        let call = || format!("push on {state:?} of {} bytes", cut.len());
        let first = self.first.push(state, &mut flow.one[..length], cut);
        let second = self.second.push(state, &mut flow.two[..length], cut);
        let answer = same(call, first, second)?;
        if answer.took > cut.len() {
            let there = format!("{} bytes", cut.len());
            return Err(told(call(), &answer, &there));
        }
        flow.same_buffer(call)?;
        self.missing(flow, &answer, call)?;
        flow.note(cut, &answer);
        flow.taken += answer.took;
        let way = if cut.is_empty() {
            Column::NoBytes
        } else {
            Column::Cut
        };
        self.met(flow.way, stream_row(false, state), way, answer.given);
        flow.state = answer.next;
        Ok(matches!(answer.given, Given::Frame { .. }) && answer.took > 0)
    }

    /// Whether "more" says what the bytes lack that are held now: what the
    /// frame reader says of them, at once.
    fn missing(
        &self,
        flow: &Flow,
        answer: &StreamAnswer,
        call: impl Fn() -> String,
    ) -> Result<(), Told> {
        let Given::More { missing } = answer.given else {
            return Ok(());
        };
        let held = flow.one.get(..answer.next.held).unwrap_or_default();
        let call = || format!("what is missing behind {}", call());
        let told = FrameAnswer::Short { missing };
        same(call, told, self.second.frame(held)).map(|_| ())
    }

    /// Tells the stream's end.
    fn end(&mut self, flow: &mut Flow) -> Result<(), Told> {
        let (state, length) = (flow.state, flow.length);
        let call = || format!("end on {state:?}");
        let first = self.first.end(state, &mut flow.one[..length]);
        let second = self.second.end(state, &mut flow.two[..length]);
        let answer = same(call, first, second)?;
        flow.same_buffer(call)?;
        flow.ended = true;
        flow.note(&[], &answer);
        self.met(flow.way, stream_row(true, state), Column::End, answer.given);
        flow.state = answer.next;
        Ok(())
    }

    /// A call of the stream was answered.
    fn met(&mut self, way: Option<Unled>, row: usize, called: Column, given: Given) {
        let column = match given {
            Given::Short { .. } => Column::Refused(1),
            Given::Refused(number) => Column::Refused(number),
            Given::More { .. } => Column::More,
            Given::End => Column::Ended,
            Given::Frame { stands, .. } => match stands {
                Stands::InCut => Column::FrameInCut,
                Stands::InBuffer => Column::FrameInBuffer,
            },
        };
        self.table.meet(Part::Stream, row, column);
        if let (Some(way), Column::Refused(10)) = (way, column) {
            self.table.meet(Part::Unled, way as usize, called);
        }
    }
}

impl Flow<'_> {
    /// Whether both buffers, and what is behind them, hold the same. A
    /// difference is told from its offset on.
    fn same_buffer(&self, call: impl Fn() -> String) -> Result<(), Told> {
        if self.one == self.two {
            return Ok(());
        }
        let pairs = self.one.iter().zip(&self.two);
        let offset = pairs.take_while(|(one, two)| one == two).count();
        let some = |buffer: &[u8]| Bytes(buffer[offset..].iter().take(16).copied().collect());
        let call = || format!("buffer of {}, from offset {offset}", call());
        same(call, some(&self.one), some(&self.two)).map(|_| ())
    }

    /// Notes what a call told of the stream: a frame with its bytes, or what
    /// the stream has stopped at.
    fn note(&mut self, cut: &[u8], answer: &StreamAnswer) {
        match answer.given {
            Given::More { .. } => {}
            Given::Short { .. } | Given::Refused(_) | Given::End => {
                if self.read.stopped.last() != Some(&answer.given) {
                    self.read.stopped.push(answer.given);
                }
            }
            Given::Frame {
                stands,
                kind,
                length,
                size,
            } => {
                let lent = match stands {
                    Stands::InCut => cut,
                    Stands::InBuffer => &self.one[..self.length],
                };
                let bytes = lent.get(..size).unwrap_or(lent).to_vec();
                self.read.frames.push((kind, length, Bytes(bytes)));
            }
        }
    }

    /// The bytes that the stream is: where it stopped at 2 or 3, all that
    /// there are; else those that were taken.
    fn stream_read(&self) -> &[u8] {
        match self.read.stopped.first() {
            Some(Given::Refused(2 | 3)) => self.bytes,
            _ => &self.bytes[..self.taken],
        }
    }
}

/// A whole stream read at once, frame after frame. What is left over refuses
/// it by 1 only where it was told to have ended.
fn read_at_once(receiver: &dyn Receiver, whole: &[u8], ended: bool) -> Read {
    let (mut frames, mut offset) = (Vec::new(), 0);
    let stopped = loop {
        if offset == whole.len() {
            break if ended { vec![Given::End] } else { Vec::new() };
        }
        match receiver.frame(&whole[offset..]) {
            FrameAnswer::Short { .. } if !ended => break Vec::new(),
            FrameAnswer::Short { missing } => break vec![Given::Short { missing }],
            FrameAnswer::Refused(number) => break vec![Given::Refused(number)],
            FrameAnswer::Frame {
                kind,
                from,
                to,
                size,
            } => {
                let bytes = whole[offset..offset + size].to_vec();
                frames.push((kind, to - from, Bytes(bytes)));
                offset += size;
            }
        }
    };
    Read { frames, stopped }
}

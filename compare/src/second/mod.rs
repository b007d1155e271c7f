//! The second program: the rules in plain Rust. It was written from
//! the rules alone, without sight of the product's sources. Where the
//! rules' paper is silent it does as docs/DECISIONS.md and the C header say.

#![forbid(unsafe_code)]

pub mod entry;
pub mod frame;
pub mod join;
pub mod layout;
pub mod record;
pub mod rules;
pub mod stream;
pub mod tracker;
pub mod writer;

use crate::receiver::{
    ArrivalAnswer, Cursor, Draft, Entry, Found, FrameAnswer, Group, JoinAnswer, PriceAnswer,
    ReadAnswer, Receiver, RequestAnswer, SetUpAnswer, StepAnswer, Stream, StreamAnswer, Tracker,
    WriteAnswer,
};
use rules::Rules;

/// The second program under given rules.
pub struct Second {
    pub rules: Rules,
}

impl Receiver for Second {
    fn frame(&self, bytes: &[u8]) -> FrameAnswer {
        frame::frame(&self.rules, bytes)
    }

    fn fresh(&self) -> Stream {
        stream::FRESH
    }

    fn push(&self, stream: Stream, buffer: &mut [u8], cut: &[u8]) -> StreamAnswer {
        stream::push(&self.rules, stream, buffer, cut)
    }

    fn end(&self, stream: Stream, buffer: &mut [u8]) -> StreamAnswer {
        stream::end(&self.rules, stream, buffer)
    }

    fn read(&self, kind: u32, body: &[u8]) -> ReadAnswer {
        record::read(&self.rules, kind, body)
    }

    fn group(&self, kind: u32, body: &[u8], position: u32) -> Found<Group> {
        record::group(&self.rules, kind, body, position)
    }

    fn entry(&self, kind: u32, body: &[u8], position: u32) -> Found<Entry> {
        entry::entry(&self.rules, kind, body, position)
    }

    fn entry_price(&self, kind: u32, body: &[u8], position: u32, price: &mut i64) -> PriceAnswer {
        entry::give_price(self.entry(kind, body, position), price)
    }

    fn quantity(&self, kind: u32, body: &[u8], entry: u32, position: u32) -> Found<i64> {
        entry::quantity(&self.rules, kind, body, entry, position)
    }

    fn start(&self, kind: u32, body: &[u8]) -> Cursor {
        entry::start(kind, body)
    }

    fn step(&self, kind: u32, body: &[u8], cursor: Cursor) -> StepAnswer {
        entry::step(&self.rules, kind, body, cursor)
    }

    fn step_price(&self, kind: u32, body: &[u8], cursor: Cursor, price: &mut i64) -> PriceAnswer {
        entry::give_price(self.step(kind, body, cursor).entry, price)
    }

    fn write(&self, draft: &Draft, output: &mut [u8]) -> WriteAnswer {
        writer::write(&self.rules, draft, output)
    }

    fn set_up(&self, channels: &[u16], from: &[i64]) -> SetUpAnswer {
        tracker::set_up(&self.rules, channels, from)
    }

    fn tick(&self, tracker: &Tracker, channel: u16, number: i64) -> ArrivalAnswer {
        tracker::tick(&self.rules, tracker, channel, number)
    }

    fn heartbeat(&self, tracker: &Tracker, channel: u16, last: i64, end: u8) -> ArrivalAnswer {
        tracker::heartbeat(&self.rules, tracker, channel, last, end)
    }

    fn join(&self, tracker: &Tracker, other: &Tracker) -> JoinAnswer {
        join::join(&self.rules, tracker, other)
    }

    fn request(&self, tracker: &Tracker, channel: u16, output: &mut [u8]) -> RequestAnswer {
        tracker::request(&self.rules, tracker, channel, output)
    }
}

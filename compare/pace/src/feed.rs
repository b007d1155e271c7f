//! A whole feed, as a host has it: every frame read, every record, every entry with its price, every order and trade a
//! tick, and every channel heartbeat heard.
use crate::calls::{self, Answer, ChannelHeartbeat, Cursor, FrameAnswer, Index, Order, Snapshot};
use crate::calls::{StepAnswer, Trade, CHANNEL_HEARTBEAT, INDEX, ORDER, SNAPSHOT, TRADE};
use crate::race::{Bench, Row};
use crate::ticks::{Tracks, CHANNELS, MORNING};
use crate::{entries, frames, records, tracker};
use std::fmt::Debug;
use std::hint::black_box;

/// The calls of a side.
trait Side {
    fn frame(bytes: &[u8]) -> FrameAnswer;
    fn order(body: &[u8]) -> Answer<Order>;
    fn trade(body: &[u8]) -> Answer<Trade>;
    fn snapshot(body: &[u8]) -> Answer<Snapshot>;
    fn index(body: &[u8]) -> Answer<Index>;
    fn channel_heartbeat(body: &[u8]) -> Answer<ChannelHeartbeat>;
    fn judge(kind: u32, body: &[u8]) -> u32;
    fn cursor(kind: u32, body: &[u8]) -> Cursor;
    fn next(at: Cursor, kind: u32, body: &[u8], price: &mut i64) -> StepAnswer;
}

macro_rules! side {
    ($side:ident: $frames:ident, $records:ident, $entries:ident) => {
        struct $side;

        impl Side for $side {
            fn frame(bytes: &[u8]) -> FrameAnswer {
                $frames::frame(bytes)
            }
            fn order(body: &[u8]) -> Answer<Order> {
                $records::order(body)
            }
            fn trade(body: &[u8]) -> Answer<Trade> {
                $records::trade(body)
            }
            fn snapshot(body: &[u8]) -> Answer<Snapshot> {
                $records::snapshot(body)
            }
            fn index(body: &[u8]) -> Answer<Index> {
                $records::index(body)
            }
            fn channel_heartbeat(body: &[u8]) -> Answer<ChannelHeartbeat> {
                $records::channel_heartbeat(body)
            }
            fn judge(kind: u32, body: &[u8]) -> u32 {
                $records::judge(kind, body)
            }
            fn cursor(kind: u32, body: &[u8]) -> Cursor {
                $entries::cursor(kind, body)
            }
            fn next(at: Cursor, kind: u32, body: &[u8], price: &mut i64) -> StepAnswer {
                $entries::next(at, kind, body, price)
            }
        }
    };
}

side!(Receiver: calls, calls, calls);
side!(Rust: frames, records, entries);

/// What sees every answer.
trait Sees {
    fn see(&mut self, told: &impl Debug);
}

/// Keeps nothing, but the answer must be there.
struct Unread;

impl Sees for Unread {
    fn see(&mut self, told: &impl Debug) {
        black_box(told);
    }
}

impl Sees for Vec<String> {
    fn see(&mut self, told: &impl Debug) {
        self.push(format!("{told:?}"));
    }
}

/// A host: its tracker, and what sees the answers.
struct Host<T, E> {
    tracker: T,
    eye: E,
}

impl<T: Tracks, E: Sees> Host<T, E> {
    fn tick<N: Debug>(&mut self, told: &Answer<N>, channel: u16, number: i64) {
        self.eye.see(told);
        if told.answer == 0 {
            let answer = self.tracker.tick(channel, number);
            self.eye.see(&answer);
        }
    }

    fn heartbeat(&mut self, told: &Answer<ChannelHeartbeat>) {
        self.eye.see(told);
        if told.answer == 0 {
            let r = &told.numbers;
            let answer = self
                .tracker
                .heartbeat(r.channel, r.last_number, u8::from(r.end != 0));
            self.eye.see(&answer);
        }
    }

    fn entries<S: Side, N: Debug>(&mut self, told: &Answer<N>, kind: u32, body: &[u8]) {
        self.eye.see(told);
        if told.answer != 0 {
            return;
        }
        let mut at = S::cursor(kind, body);
        while at.left > 0 {
            let mut price = entries::NONE;
            let told = S::next(at, kind, body, &mut price);
            self.eye.see(&told);
            self.eye.see(&price);
            at = told.next;
        }
    }

    fn record<S: Side>(&mut self, kind: u32, body: &[u8]) {
        match kind {
            ORDER => {
                let told = S::order(body);
                self.tick(&told, told.numbers.channel, told.numbers.number);
            }
            TRADE => {
                let told = S::trade(body);
                self.tick(&told, told.numbers.channel, told.numbers.number);
            }
            CHANNEL_HEARTBEAT => self.heartbeat(&S::channel_heartbeat(body)),
            SNAPSHOT => self.entries::<S, _>(&S::snapshot(body), kind, body),
            INDEX => self.entries::<S, _>(&S::index(body), kind, body),
            _ => self.eye.see(&S::judge(kind, body)),
        }
    }

    /// All frames, and how many there are.
    fn receive<S: Side>(&mut self, capture: &[u8]) -> usize {
        let (mut at, mut frames) = (0, 0);
        while at < capture.len() {
            let told = S::frame(&capture[at..]);
            self.eye.see(&told);
            if told.answer != 0 {
                break;
            }
            self.record::<S>(told.kind, &capture[at + 8..at + 8 + told.len]);
            at += told.total;
            frames += 1;
        }
        frames
    }
}

/// Both sides' answers and their trackers behind the last frame are the same; how many frames there are.
fn agree(start: &calls::Tracker, capture: &[u8]) -> usize {
    let mut ours = Host {
        tracker: *start,
        eye: Vec::new(),
    };
    let mut rust = Host {
        tracker: tracker::Tracker::from(start),
        eye: Vec::new(),
    };
    let frames = ours.receive::<Receiver>(capture);
    assert_eq!(frames, rust.receive::<Rust>(capture));
    assert_eq!(ours.eye, rust.eye);
    assert_eq!(tracker::Tracker::from(&ours.tracker), rust.tracker);
    frames
}

pub fn run(bench: &Bench, capture: &[u8]) {
    let start = calls::set_up(&CHANNELS, &MORNING);
    let rust = tracker::Tracker::from(&start);
    let parts = agree(&start, capture);
    bench.race(
        Row {
            what: "a whole feed, a frame",
            turns: 5,
            parts,
        },
        || {
            Host {
                tracker: *black_box(&start),
                eye: Unread,
            }
            .receive::<Receiver>(black_box(capture))
        },
        || {
            Host {
                tracker: *black_box(&rust),
                eye: Unread,
            }
            .receive::<Rust>(black_box(capture))
        },
    );
}

//! The product's calls that are run, with slices for pointer and length.
pub use compare::layout::{CHANNEL_HEARTBEAT, HEARTBEAT, INDEX, ORDER, RESEND, SNAPSHOT, TRADE};
pub use compare::product::header::*;
pub use compare::receiver::{Cursor, Stream, Tracker};

pub fn frame(bytes: &[u8]) -> FrameAnswer {
    unsafe { orizhgum_frame(bytes.as_ptr(), bytes.len()) }
}

pub fn judge(kind: u32, body: &[u8]) -> u32 {
    unsafe { orizhgum_judge(kind, body.as_ptr(), body.len()) }
}

pub fn stream_new() -> Stream {
    unsafe { orizhgum_stream_new() }
}

pub fn stream_push(stream: Stream, buffer: &mut [u8], cut: &[u8]) -> StreamAnswer {
    let (lent, room) = (buffer.as_mut_ptr(), buffer.len());
    unsafe { orizhgum_stream_push(stream, lent, room, cut.as_ptr(), cut.len()) }
}

pub fn stream_end(stream: Stream, buffer: &[u8]) -> StreamAnswer {
    unsafe { orizhgum_stream_end(stream, buffer.as_ptr(), buffer.len()) }
}

macro_rules! read {
    ($($name:ident = $call:ident -> $numbers:ty;)*) => {
        $(pub fn $name(body: &[u8]) -> Answer<$numbers> {
            unsafe { $call(body.as_ptr(), body.len()) }
        })*
    };
}

read! {
    order = orizhgum_order -> Order;
    trade = orizhgum_trade -> Trade;
    snapshot = orizhgum_snapshot -> Snapshot;
    index = orizhgum_index -> Index;
    channel_heartbeat = orizhgum_channel_heartbeat -> ChannelHeartbeat;
}

pub fn cursor(kind: u32, body: &[u8]) -> Cursor {
    unsafe { orizhgum_cursor(kind, body.as_ptr(), body.len()) }
}

/// A step, whose lent price is written where the entry says one.
pub fn next(at: Cursor, kind: u32, body: &[u8], price: &mut i64) -> StepAnswer {
    unsafe { orizhgum_next(at, kind, body.as_ptr(), body.len(), price) }
}

/// A step whose price nobody looks at.
pub fn step(at: Cursor, kind: u32, body: &[u8]) -> StepAnswer {
    next(at, kind, body, &mut 0)
}

/// A tracker of these channels, each with its first number.
pub fn set_up(channels: &[u16], from: &[i64]) -> Tracker {
    let (count, firsts) = (channels.len(), from.len());
    unsafe { orizhgum_set_up(channels.as_ptr(), count, from.as_ptr(), firsts) }.tracker
}

/// A call over the arrays of a tracker.
macro_rules! lend {
    ($call:ident, $t:ident, $lends:ident, $($taken:expr),*) => {
        unsafe {
            $call(
                $t.count,
                $t.numbers.as_ptr(),
                $t.from.as_ptr(),
                $t.highest.$lends(),
                $t.ended.$lends(),
                $t.counts.$lends(),
                $t.first.$lends(),
                $t.last.$lends(),
                $($taken),*
            )
        }
    };
}

pub fn tick(t: &mut Tracker, channel: u16, number: i64) -> u32 {
    lend!(orizhgum_tick_in, t, as_mut_ptr, channel, number)
}

pub fn heartbeat(t: &mut Tracker, channel: u16, last: i64, end: u8) -> u32 {
    lend!(orizhgum_heard_in, t, as_mut_ptr, channel, last, end)
}

/// Joins a tracker with that of another line.
pub fn join(t: &mut Tracker, other: &Tracker) -> u32 {
    lend!(
        orizhgum_join_in,
        t,
        as_mut_ptr,
        other.count,
        other.numbers.as_ptr(),
        other.from.as_ptr(),
        other.highest.as_ptr(),
        other.ended.as_ptr(),
        other.counts.as_ptr(),
        other.first.as_ptr(),
        other.last.as_ptr()
    )
}

pub fn request(t: &Tracker, channel: u16, out: &mut [u8]) -> WriteAnswer {
    let (to, room) = (out.as_mut_ptr(), out.len());
    lend!(orizhgum_request_in, t, as_ptr, channel, to, room)
}

macro_rules! write {
    ($($name:ident = $call:ident($numbers:ty);)*) => {
        $(pub fn $name(r: &$numbers, texts: &[u8], groups: &[u8], out: &mut [u8]) -> WriteAnswer {
            let (t, g) = (texts.as_ptr(), groups.as_ptr());
            unsafe { $call(*r, t, texts.len(), g, groups.len(), out.as_mut_ptr(), out.len()) }
        })*
    };
}

write! {
    write_order = orizhgum_write_order(Order);
    write_trade = orizhgum_write_trade(Trade);
    write_snapshot = orizhgum_write_snapshot(Snapshot);
}

//! Rust's tracker: an array of structs changed through `&mut`, with rule 10 judged on every call.
mod join;

use crate::calls::{self, WriteAnswer, BEFORE_START, DUPLICATE, LATE, NOTHING_MISSING, RESEND};
use crate::writing::{refused, sealed};

#[derive(Clone, Copy, Debug, Default, PartialEq, Eq)]
struct Run {
    first: u64,
    last: u64,
}

#[derive(Clone, Copy, Debug, Default, PartialEq, Eq)]
struct Channel {
    number: u16,
    from: u64,
    highest: u64,
    ended: bool,
    count: usize,
    runs: [Run; 32],
}

#[derive(Clone, Copy, Debug, Default, PartialEq, Eq)]
pub struct Tracker {
    count: usize,
    channels: [Channel; 8],
}

/// The highest number that there can be.
const HIGHEST: u64 = i64::MAX as u64;

impl Channel {
    /// Rule 10 of one channel.
    fn sound(&self) -> bool {
        if self.count > 32 || self.from < 1 || self.from > HIGHEST {
            return false;
        }
        if self.highest < self.from - 1 || self.highest > HIGHEST {
            return false;
        }
        let mut low = self.from;
        for r in &self.runs[..self.count] {
            if r.first < low || r.last < r.first || r.last > self.highest {
                return false;
            }
            low = r.last + 2;
        }
        self.unused_from(self.count)
    }

    /// Whether the run places from one on are zero.
    fn unused_from(&self, place: usize) -> bool {
        self.runs[place..]
            .iter()
            .fold(0, |bits, r| bits | r.first | r.last)
            == 0
    }

    fn blank(&self) -> bool {
        self.number == 0
            && self.from == 0
            && self.highest == 0
            && !self.ended
            && self.count == 0
            && self.unused_from(0)
    }

    /// All numbers from behind the highest to a last one become missing; false where that takes a 33rd run.
    fn miss(&mut self, last: u64) -> bool {
        let h = self.highest;
        if h < last {
            if self.count > 0 && self.runs[self.count - 1].last == h {
                self.runs[self.count - 1].last = last;
            } else if self.count == 32 {
                return false;
            } else {
                self.runs[self.count] = Run { first: h + 1, last };
                self.count += 1;
            }
        }
        true
    }

    fn above(&mut self, n: u64) -> u32 {
        if !self.miss(n - 1) {
            return 9;
        }
        self.highest = n;
        0
    }

    fn leaves(&mut self, j: usize, n: u64) -> u32 {
        let r = self.runs[j];
        if r.first == r.last {
            self.runs.copy_within(j + 1..self.count, j);
            self.count -= 1;
            self.runs[self.count] = Run::default();
        } else if n == r.first {
            self.runs[j].first = n + 1;
        } else if n == r.last {
            self.runs[j].last = n - 1;
        } else if self.count == 32 {
            return 9;
        } else {
            self.runs.copy_within(j..self.count, j + 1);
            self.count += 1;
            self.runs[j].last = n - 1;
            self.runs[j + 1].first = n + 1;
        }
        LATE
    }

    fn tick(&mut self, n: u64) -> u32 {
        if self.highest < n {
            return self.above(n);
        }
        if n < self.from {
            return BEFORE_START;
        }
        match self.runs[..self.count]
            .iter()
            .position(|r| r.first <= n && n <= r.last)
        {
            Some(j) => self.leaves(j, n),
            None => DUPLICATE,
        }
    }

    fn heartbeat(&mut self, last: u64, end: bool) -> u32 {
        if !self.miss(last) {
            return 9;
        }
        self.highest = self.highest.max(last);
        self.ended |= end;
        0
    }
}

impl From<&calls::Tracker> for Tracker {
    fn from(t: &calls::Tracker) -> Tracker {
        let run = |at: usize| Run {
            first: t.first[at],
            last: t.last[at],
        };
        let channel = |c: usize| Channel {
            number: t.numbers[c],
            from: t.from[c],
            highest: t.highest[c],
            ended: t.ended[c] != 0,
            count: t.counts[c],
            runs: std::array::from_fn(|r| run(32 * c + r)),
        };
        Tracker {
            count: t.count,
            channels: std::array::from_fn(channel),
        }
    }
}

impl Tracker {
    fn sound(&self) -> bool {
        if self.count == 0 || self.count > 8 {
            return false;
        }
        let mut low = 0;
        for c in &self.channels[..self.count] {
            if u32::from(c.number) < low || !c.sound() {
                return false;
            }
            low = u32::from(c.number) + 1;
        }
        self.channels[self.count..].iter().all(Channel::blank)
    }

    fn channel(&mut self, number: u16) -> Option<&mut Channel> {
        self.channels[..self.count]
            .iter_mut()
            .find(|c| c.number == number)
    }

    #[inline(never)]
    pub fn tick(&mut self, channel: u16, n: i64) -> u32 {
        if !self.sound() {
            return 10;
        }
        match self.channel(channel) {
            None => 7,
            Some(_) if n < 1 => 8,
            Some(c) => c.tick(n as u64),
        }
    }

    #[inline(never)]
    pub fn heartbeat(&mut self, channel: u16, last: i64, end: u8) -> u32 {
        if !self.sound() {
            return 10;
        }
        match self.channel(channel) {
            None => 7,
            Some(_) if last < 0 => 8,
            Some(c) => c.heartbeat(last as u64, end != 0),
        }
    }

    /// The frame that asks for the first run of a channel, or for its first 200 numbers.
    #[inline(never)]
    pub fn request(&self, channel: u16, out: &mut [u8]) -> WriteAnswer {
        if !self.sound() {
            return refused(10);
        }
        let Some(c) = self.channels[..self.count]
            .iter()
            .find(|c| c.number == channel)
        else {
            return refused(7);
        };
        let Some(run) = c.runs[..c.count].first() else {
            return refused(NOTHING_MISSING);
        };
        if out.len() < 56 {
            return refused(6);
        }
        let b = &mut out[8..52];
        b[0] = 1;
        b[1..3].copy_from_slice(&channel.to_be_bytes());
        b[3..11].copy_from_slice(&run.first.to_be_bytes());
        b[11..19].copy_from_slice(&run.last.min(run.first + 199).to_be_bytes());
        b[19..27].fill(b' ');
        b[27] = 0;
        b[28..44].fill(b' ');
        sealed(RESEND, 44, out)
    }
}

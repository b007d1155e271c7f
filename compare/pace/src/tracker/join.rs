//! Rust's join: a tracker and that of another line, by one walk over the runs of both. Every channel is judged before one changes.
use super::{Channel, Run, Tracker};

/// What a line has not received, in order: its runs, and the numbers behind its highest up to another line's.
struct Gaps<'a> {
    runs: &'a [Run],
    highest: u64,
    to: u64,
}

impl Iterator for Gaps<'_> {
    type Item = Run;

    fn next(&mut self) -> Option<Run> {
        let behind = Run {
            first: self.highest + 1,
            last: self.to,
        };
        match self.runs {
            [] if self.highest == self.to => None,
            [] => {
                self.highest = self.to;
                Some(behind)
            }
            // A run that ends at the highest goes on.
            [run] if run.last == self.highest => {
                (self.runs, self.highest) = (&[], self.to);
                Some(Run {
                    first: run.first,
                    last: self.to,
                })
            }
            [run, rest @ ..] => {
                self.runs = rest;
                Some(*run)
            }
        }
    }
}

impl Channel {
    fn gaps(&self, to: u64) -> Gaps<'_> {
        Gaps {
            runs: &self.runs[..self.count],
            highest: self.highest,
            to,
        }
    }

    /// Takes each run of numbers that neither line has received, in order.
    fn missing(&self, other: &Channel, mut take: impl FnMut(Run)) {
        let to = self.highest.max(other.highest);
        let (mut ours, mut theirs) = (self.gaps(to), other.gaps(to));
        let (mut one, mut two) = (ours.next(), theirs.next());
        while let (Some(a), Some(b)) = (one, two) {
            let first = a.first.max(b.first);
            let last = a.last.min(b.last);
            if first <= last {
                take(Run { first, last });
            }
            if a.last < b.last {
                one = ours.next();
            } else {
                two = theirs.next();
            }
        }
    }

    /// Does the joined channel need more runs than 32? It needs no more than both have, and one behind the highest of each.
    fn over(&self, other: &Channel) -> bool {
        if self.count + other.count + 2 <= 32 {
            return false;
        }
        let mut count = 0;
        self.missing(other, |_| count += 1);
        count > 32
    }

    /// Joins a channel that has place for its runs.
    fn join(&mut self, other: &Channel) {
        let (mut runs, mut count) = ([Run::default(); 32], 0);
        self.missing(other, |run| {
            runs[count] = run;
            count += 1;
        });
        let used = count.max(self.count);
        self.runs[..used].copy_from_slice(&runs[..used]);
        self.count = count;
        self.highest = self.highest.max(other.highest);
        self.ended |= other.ended;
    }
}

impl Tracker {
    /// What another line received is received: 10 of either, 11, 9.
    #[inline(never)]
    pub fn join(&mut self, other: &Tracker) -> u32 {
        if !self.sound() || !other.sound() {
            return 10;
        }
        if self.count != other.count {
            return 11;
        }
        let theirs = &other.channels[..self.count];
        let ours = &mut self.channels[..self.count];
        let set_up = |c: &Channel| (c.number, c.from);
        if ours.iter().zip(theirs).any(|(a, b)| set_up(a) != set_up(b)) {
            return 11;
        }
        if ours.iter().zip(theirs).any(|(a, b)| a.over(b)) {
            return 9;
        }
        for (a, b) in ours.iter_mut().zip(theirs) {
            a.join(b);
        }
        0
    }
}

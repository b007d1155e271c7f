//! Runs both sides of a row: timed, or once each between marks for an emulator that counts instructions.
use std::fmt::Debug;
use std::hint::black_box;
use std::os::unix::process::parent_id;
use std::time::{Duration, Instant};

/// A row: its name, how many turns a timed round has, and how many parts of a turn its figures are for one of.
pub struct Row<'a> {
    pub what: &'a str,
    pub turns: u32,
    pub parts: usize,
}

/// Times or counts, of the rows that have all words.
pub struct Bench {
    pub counts: bool,
    pub words: Vec<String>,
}

impl Bench {
    /// Runs both sides of a row, if it is asked for.
    pub fn race<T, U>(
        &self,
        row: Row,
        mut receiver: impl FnMut() -> T,
        mut rust: impl FnMut() -> U,
    ) {
        if !self.words.iter().all(|word| row.what.contains(word)) {
            return;
        }
        match self.counts {
            true => count(row, receiver, rust),
            false => time(
                &row,
                || round(&row, &mut receiver),
                || round(&row, &mut rust),
            ),
        }
    }

    /// Runs both sides of a row whose calls change what they are called on, if it is asked for: each call gets a copy of its own,
    /// which is made outside the measure.
    pub fn race_copies<S: Copy, T: Copy>(
        &self,
        row: Row,
        receiver: (&S, impl FnMut(&mut S) -> u32),
        rust: (&T, impl FnMut(&mut T) -> u32),
    ) {
        if !self.words.iter().all(|word| row.what.contains(word)) {
            return;
        }
        let (mut receiver, mut rust) = (Copies::new(receiver), Copies::new(rust));
        match self.counts {
            true => count(row, || receiver.call(), || rust.call()),
            false => time(&row, || receiver.round(&row), || rust.round(&row)),
        }
    }
}

/// The head of the table of times.
pub fn head() {
    println!("{:<36}{:>13}{:>13}{:>8}", "", "receiver", "Rust", "ratio");
}

/// The time of a row's turns, in nanoseconds a part.
fn round<T>(row: &Row, call: &mut impl FnMut() -> T) -> f64 {
    let start = Instant::now();
    for _ in 0..row.turns {
        black_box(&call());
    }
    start.elapsed().as_nanos() as f64 / f64::from(row.turns) / row.parts as f64
}

/// How many copies a turn of calls that change them has: few, so that they stay near.
pub const COPIES: usize = 4;

/// One side of a row whose calls change what they are called on.
struct Copies<'a, S, F> {
    start: &'a S,
    copies: [S; COPIES],
    change: F,
}

impl<'a, S: Copy, F: FnMut(&mut S) -> u32> Copies<'a, S, F> {
    fn new((start, change): (&'a S, F)) -> Self {
        Copies {
            start,
            copies: [*start; COPIES],
            change,
        }
    }

    /// A call on each copy.
    fn call(&mut self) -> u32 {
        let copies = black_box(&mut self.copies);
        copies.iter_mut().map(&mut self.change).sum()
    }

    /// The time of a row's turns, in nanoseconds a call.
    fn round(&mut self, row: &Row) -> f64 {
        let mut spent = Duration::ZERO;
        for _ in 0..row.turns {
            self.copies = [*black_box(self.start); COPIES];
            let start = Instant::now();
            black_box(self.call());
            spent += start.elapsed();
        }
        spent.as_nanos() as f64 / f64::from(row.turns) / row.parts as f64
    }
}

/// Thirty rounds of each, in turn, so that both meet the same machine; prints the least of each and the ratio.
fn time(row: &Row, mut receiver: impl FnMut() -> f64, mut rust: impl FnMut() -> f64) {
    let (mut a, mut b) = (f64::MAX, f64::MAX);
    for _ in 0..30 {
        a = a.min(receiver());
        b = b.min(rust());
    }
    println!("{:<36}{a:>10.1} ns{b:>10.1} ns{:>8.2}", row.what, a / b);
}

/// Tells the emulator to say how much has run since the last mark.
fn mark() {
    black_box(parent_id());
}

/// A line for the emulator to go on with: name and parts, then what ran before, nothing, the receiver, and Rust.
fn count<T, U>(row: Row, mut receiver: impl FnMut() -> T, mut rust: impl FnMut() -> U) {
    eprint!("{}\t{}", row.what, row.parts);
    mark();
    mark();
    black_box(&receiver());
    mark();
    black_box(&rust());
    mark();
    eprintln!();
}

/// Two answers must be the same, by what they print: the header's structs have no equality.
pub fn same(receiver: impl Debug, rust: impl Debug) {
    assert_eq!(format!("{receiver:?}"), format!("{rust:?}"));
}

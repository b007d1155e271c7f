//! Runs the calls of include/orizhgum.h beside hand-written Rust that does the same checks, in one process:
//! `pace time|count CAPTURE WORDS..`; given words, only the rows that have them all.
mod calls;
mod cuts;
mod entries;
mod feed;
mod frames;
mod inputs;
mod joins;
mod race;
mod ranges;
mod records;
mod requests;
mod streams;
mod tables;
mod ticks;
mod tracker;
mod writing;

fn main() {
    let mut words = std::env::args().skip(1);
    let counts = match words.next().as_deref() {
        Some("time") => false,
        Some("count") => true,
        _ => panic!("pace time|count CAPTURE WORDS.."),
    };
    let capture = std::fs::read(words.next().expect("a capture")).expect("the capture's bytes");
    let words = words.collect();
    let bench = race::Bench { counts, words };
    if !counts {
        race::head();
    }
    frames::run(&bench);
    cuts::run(&bench);
    records::run(&bench);
    entries::run(&bench);
    writing::run(&bench);
    ticks::run(&bench);
    tables::run(&bench);
    joins::run(&bench);
    requests::run(&bench);
    feed::run(&bench, &capture);
}

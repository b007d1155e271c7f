//! The second program by itself, with the rules' cases; the samples; the
//! comparison of the product, and of broken receivers, with the second
//! program; short histories by both; the C header.

#[path = "second/agreed.rs"]
mod agreed;
#[path = "second/arrivals.rs"]
mod arrivals;
#[path = "second/broken.rs"]
mod broken;
#[path = "second/entries.rs"]
mod entries;
#[path = "second/frames.rs"]
mod frames;
#[path = "second/header.rs"]
mod header;
#[path = "second/histories.rs"]
mod histories;
#[path = "second/joins.rs"]
mod joins;
#[path = "second/malformed.rs"]
mod malformed;
#[path = "second/misjoined.rs"]
mod misjoined;
#[path = "second/samples.rs"]
mod samples;
#[path = "second/starts.rs"]
mod starts;
#[path = "second/streams.rs"]
mod streams;
#[path = "second/text.rs"]
mod text;
#[path = "second/writing.rs"]
mod writing;

use compare::second::rules::Rules;
use compare::second::Second;

/// The second program under the rules.
fn second() -> Second {
    Second {
        rules: Rules::base(),
    }
}

/// Bytes from hex digits; spaces play no part.
fn hex(text: &str) -> Vec<u8> {
    let digits: Vec<u8> = text.bytes().filter(|byte| *byte != b' ').collect();
    let pairs = digits
        .chunks(2)
        .map(|pair| std::str::from_utf8(pair).expect("digits"));
    pairs
        .map(|pair| u8::from_str_radix(pair, 16).expect("hex digits"))
        .collect()
}

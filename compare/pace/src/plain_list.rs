//! The listing as a plain Rust program has it: all of standard input read at once, lines through a BufWriter.
use std::io::{self, BufWriter, Read, Write};

fn word(bytes: &[u8], at: usize) -> u32 {
    u32::from_be_bytes(bytes[at..at + 4].try_into().unwrap())
}

/// A frame's type and body length, or its refusal.
fn read(bytes: &[u8]) -> Result<(u32, usize), u32> {
    if bytes.len() < 8 {
        return Err(1);
    }
    let len = word(bytes, 4) as usize;
    if len > 16_384 {
        return Err(2);
    }
    if bytes.len() < 12 + len {
        return Err(1);
    }
    let sum = bytes[..8 + len].iter().fold(0u8, |a, &b| a.wrapping_add(b));
    if word(bytes, 8 + len) != u32::from(sum) {
        return Err(3);
    }
    Ok((word(bytes, 0), len))
}

fn main() -> io::Result<()> {
    let mut input = Vec::new();
    io::stdin().lock().read_to_end(&mut input)?;
    let mut out = BufWriter::new(io::stdout().lock());
    let (mut at, mut frames) = (0, 0);
    while at < input.len() {
        match read(&input[at..]) {
            Ok((kind, len)) => {
                writeln!(out, "{at} {kind} {len}")?;
                at += 12 + len;
                frames += 1;
            }
            Err(number) => return writeln!(out, "{at} refused {number}"),
        }
    }
    writeln!(out, "{at} end {frames}")
}

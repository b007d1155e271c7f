//! Frames: type, body length L, body, checksum.

use super::rules::Rules;
use crate::receiver::FrameAnswer;

/// The bytes of type and length.
pub const HEADER: usize = 8;
/// The bytes of a frame beside its body.
pub const AROUND: usize = 12;

/// Reads the frame at the beginning of the bytes.
pub fn frame(rules: &Rules, bytes: &[u8]) -> FrameAnswer {
    match judge(rules, bytes) {
        Err(refusal) => refusal,
        Ok((kind, length)) => FrameAnswer::Frame {
            kind,
            from: HEADER,
            to: HEADER + length,
            size: AROUND + length,
        },
    }
}

/// The type and L; or, in this order, 1, 2, 1, 3. The first 1 says what the
/// header lacks, the second what the frame lacks.
fn judge(rules: &Rules, bytes: &[u8]) -> Result<(u32, usize), FrameAnswer> {
    whole(bytes, HEADER)?;
    let length = u64::from(four(bytes, 4));
    if length > rules.body_limit as u64 {
        return Err(FrameAnswer::Refused(2));
    }
    let length = length as usize;
    whole(bytes, AROUND + length)?;
    let end = HEADER + length;
    if four(bytes, end) != checksum(&bytes[..end]) {
        return Err(FrameAnswer::Refused(3));
    }
    Ok((four(bytes, 0), length))
}

/// 1 where there are fewer bytes than this size, with how many are missing.
fn whole(bytes: &[u8], size: usize) -> Result<(), FrameAnswer> {
    if bytes.len() < size {
        let missing = size - bytes.len();
        return Err(FrameAnswer::Short { missing });
    }
    Ok(())
}

/// The sum of all bytes modulo 256, held as a 32-bit number.
pub fn checksum(bytes: &[u8]) -> u32 {
    let sum: u64 = bytes.iter().map(|byte| u64::from(*byte)).sum();
    (sum % 256) as u32
}

/// The four bytes at an offset as a big-endian number.
pub fn four(bytes: &[u8], offset: usize) -> u32 {
    bytes[offset..offset + 4]
        .iter()
        .fold(0, |number, byte| number * 256 + u32::from(*byte))
}

//! The call of a join, over the arrays of two trackers.

use super::STRAY;
use crate::receiver::{JoinAnswer, Tracker};

/// The arrays of the tracker that is joined, and of the other one.
type Joins = unsafe extern "C" fn(
    usize,
    *const u16,
    *const u64,
    *mut u64,
    *mut u8,
    *mut usize,
    *mut u64,
    *mut u64,
    usize,
    *const u16,
    *const u64,
    *const u64,
    *const u8,
    *const usize,
    *const u64,
    *const u64,
) -> u32;

/// Joins two trackers. The arrays of the other one are lent so that they could
/// be written: a call that does it is told, by `STRAY`.
pub fn joined(call: Joins, tracker: &Tracker, other: &Tracker) -> JoinAnswer {
    let (mut next, mut read) = (*tracker, *other);
    let answer = unsafe {
        call(
            next.count,
            next.numbers.as_mut_ptr(),
            next.from.as_mut_ptr(),
            next.highest.as_mut_ptr(),
            next.ended.as_mut_ptr(),
            next.counts.as_mut_ptr(),
            next.first.as_mut_ptr(),
            next.last.as_mut_ptr(),
            read.count,
            read.numbers.as_mut_ptr(),
            read.from.as_mut_ptr(),
            read.highest.as_mut_ptr(),
            read.ended.as_mut_ptr(),
            read.counts.as_mut_ptr(),
            read.first.as_mut_ptr(),
            read.last.as_mut_ptr(),
        )
    };
    let refused = match answer {
        _ if read != *other => Some(STRAY),
        0 => None,
        _ => Some(answer),
    };
    JoinAnswer { refused, next }
}

#[cfg(test)]
mod tests {
    use super::*;

    /// Writes the last place of that array of the other tracker which the
    /// first one's count says, if any; answers the other one's count.
    unsafe extern "C" fn writes(
        count: usize,
        _numbers: *const u16,
        _from: *const u64,
        _highest: *mut u64,
        _ended: *mut u8,
        _counts: *mut usize,
        _first: *mut u64,
        _last: *mut u64,
        other_count: usize,
        other_numbers: *const u16,
        other_from: *const u64,
        other_highest: *const u64,
        other_ended: *const u8,
        other_counts: *const usize,
        other_first: *const u64,
        other_last: *const u64,
    ) -> u32 {
        match count {
            1 => *other_numbers.cast_mut().add(7) = 1,
            2 => *other_from.cast_mut().add(7) = 1,
            3 => *other_highest.cast_mut().add(7) = 1,
            4 => *other_ended.cast_mut().add(7) = 1,
            5 => *other_counts.cast_mut().add(7) = 1,
            6 => *other_first.cast_mut().add(255) = 1,
            7 => *other_last.cast_mut().add(255) = 1,
            _ => {}
        }
        other_count as u32
    }

    #[test]
    fn a_call_that_writes_the_other_tracker_is_stray() {
        let (mut tracker, mut other) = (Tracker::ZERO, Tracker::ZERO);
        for (answer, told) in [(0, None), (9, Some(9)), (11, Some(11))] {
            other.count = answer;
            for array in 0..8 {
                tracker.count = array;
                let refused = if array == 0 { told } else { Some(STRAY) };
                assert_eq!(joined(writes, &tracker, &other).refused, refused);
            }
        }
    }

    /// Answers 0 where both are handed over in the header's order.
    unsafe extern "C" fn in_order(
        count: usize,
        numbers: *const u16,
        from: *const u64,
        highest: *mut u64,
        ended: *mut u8,
        counts: *mut usize,
        first: *mut u64,
        last: *mut u64,
        other_count: usize,
        other_numbers: *const u16,
        other_from: *const u64,
        other_highest: *const u64,
        other_ended: *const u8,
        other_counts: *const usize,
        other_first: *const u64,
        other_last: *const u64,
    ) -> u32 {
        let one = (*numbers, *from, *highest, *ended, *counts, *first, *last);
        let two = (
            *other_numbers,
            *other_from,
            *other_highest,
            *other_ended,
            *other_counts,
            *other_first,
            *other_last,
        );
        let right = (count, one) == (1, (2, 3, 4, 5, 6, 7, 8))
            && (other_count, two) == (11, (12, 13, 14, 15, 16, 17, 18));
        u32::from(!right)
    }

    /// A tracker whose arrays begin with the numbers behind this one.
    fn counted(from: u8) -> Tracker {
        let mut tracker = Tracker::ZERO;
        let next = |beside: u8| u64::from(from + beside);
        tracker.count = usize::from(from);
        tracker.numbers[0] = u16::from(from + 1);
        tracker.from[0] = next(2);
        tracker.highest[0] = next(3);
        tracker.ended[0] = from + 4;
        tracker.counts[0] = usize::from(from + 5);
        (tracker.first[0], tracker.last[0]) = (next(6), next(7));
        tracker
    }

    #[test]
    fn both_trackers_are_handed_over_in_order() {
        let answer = joined(in_order, &counted(1), &counted(11));
        assert_eq!((answer.refused, answer.next), (None, counted(1)));
    }
}

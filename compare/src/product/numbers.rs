//! The numbers of each type's struct, in the order of the rules' table.

use super::header::*;
use crate::receiver::NUMBERS;

/// A struct of fixed fields.
pub trait Numbers {
    /// Its fields; places behind them are zero.
    fn all(&self) -> [i64; NUMBERS];

    /// The struct with these fields.
    fn of(numbers: &[i64; NUMBERS]) -> Self;
}

macro_rules! numbers {
    ($($type:ident: $($($field:ident).+),*;)*) => {
        $(impl Numbers for $type {
            fn all(&self) -> [i64; NUMBERS] {
                let mut numbers = [0; NUMBERS];
                let fields: &[i64] = &[$(self.$($field).+ as i64),*];
                numbers[..fields.len()].copy_from_slice(fields);
                numbers
            }

            fn of(numbers: &[i64; NUMBERS]) -> $type {
                let mut made = $type::default();
                let mut next = numbers.iter();
                $(made.$($field).+ = *next.next().unwrap_or(&0) as _;)*
                made
            }
        })*
    };
}

numbers! {
    Order: channel, number, order_price, quantity, side, time, order_type;
    Trade: channel, number, bid_number, offer_number, trade_price, quantity, execution, time;
    ChannelHeartbeat: channel, last_number, end;
    Resend: resend_type, channel, first_number, last_number, status;
    Snapshot: common.time, common.channel, common.previous_close, common.trade_count, common.volume, common.amount, count;
    Index: common.time, common.channel, common.previous_close, common.trade_count, common.volume, common.amount, count;
    VolumeIndex: common.time, common.channel, common.previous_close, common.trade_count, common.volume, common.amount, stock_number;
    Statistics: time, channel, count;
    SecurityStatus: time, channel, count;
}

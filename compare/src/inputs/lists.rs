//! What a set-up takes: channels and their first numbers, good and such that
//! it refuses.

use super::dice::Dice;
use super::Input;
use std::fmt;

/// The ways for the lists of a set-up to be refused.
#[derive(Clone, Copy, PartialEq, Eq, Debug)]
pub enum Unfit {
    NoChannel,
    TooManyChannels,
    ChannelNumbersEqual,
    ChannelNumbersDescending,
    NoFirstNumber,
    FewerFirstNumbers,
    MoreFirstNumbers,
    FirstNumberZero,
    FirstNumberNegative,
    FirstNumberLowest,
}

impl Unfit {
    pub const ALL: [Unfit; 10] = [
        Unfit::NoChannel,
        Unfit::TooManyChannels,
        Unfit::ChannelNumbersEqual,
        Unfit::ChannelNumbersDescending,
        Unfit::NoFirstNumber,
        Unfit::FewerFirstNumbers,
        Unfit::MoreFirstNumbers,
        Unfit::FirstNumberZero,
        Unfit::FirstNumberNegative,
        Unfit::FirstNumberLowest,
    ];

    pub fn name(self) -> &'static str {
        match self {
            Unfit::NoChannel => "no channel",
            Unfit::TooManyChannels => "more than 8 channels",
            Unfit::ChannelNumbersEqual => "channel numbers equal",
            Unfit::ChannelNumbersDescending => "channel numbers descending",
            Unfit::NoFirstNumber => "no first number",
            Unfit::FewerFirstNumbers => "fewer first numbers than channels",
            Unfit::MoreFirstNumbers => "more first numbers than channels",
            Unfit::FirstNumberZero => "first number 0",
            Unfit::FirstNumberNegative => "first number negative",
            Unfit::FirstNumberLowest => "first number the lowest possible",
        }
    }
}

/// Channels, and a first number for each.
#[derive(Clone, PartialEq, Eq, Debug)]
pub struct Lists {
    pub channels: Vec<u16>,
    pub from: Vec<i64>,
}

impl Lists {
    /// Good lists of so many channels.
    pub fn good(dice: &mut Dice, count: usize) -> Lists {
        Lists {
            channels: channels(dice, count),
            from: first_numbers(dice, count),
        }
    }

    /// A channel's place.
    pub fn a_place(&self, dice: &mut Dice) -> usize {
        dice.below(self.channels.len() as u64) as usize
    }
}

impl fmt::Display for Lists {
    fn fmt(&self, out: &mut fmt::Formatter<'_>) -> fmt::Result {
        write!(out, "{:?} from {:?}", self.channels, self.from)
    }
}

/// Channel numbers, strictly ascending.
pub fn channels(dice: &mut Dice, count: usize) -> Vec<u16> {
    let mut numbers = Vec::new();
    while numbers.len() < count {
        let number = match dice.below(8) {
            0 => dice.pick(&[0, u16::MAX]),
            1 => dice.bits() as u16,
            _ => 2001 + dice.below(30) as u16,
        };
        if !numbers.contains(&number) {
            numbers.push(number);
        }
    }
    numbers.sort_unstable();
    numbers
}

/// A first number: often 1, often one of noon, at times the highest possible.
pub fn first_number(dice: &mut Dice) -> i64 {
    match dice.below(10) {
        0..=2 => 1,
        3 => 2 + dice.below(40) as i64,
        4..=6 => 100_000 + dice.below(3_000_000) as i64,
        7 => i64::MAX,
        8 => i64::MAX - dice.pick(&[1, 2, 5, 64, 200]),
        _ => 1 + (dice.wide() % i64::MAX as u64) as i64,
    }
}

/// As many first numbers; at times all are 1.
fn first_numbers(dice: &mut Dice, count: usize) -> Vec<i64> {
    if dice.one_in(4) {
        return vec![1; count];
    }
    (0..count).map(|_| first_number(dice)).collect()
}

/// Lists for a set-up: good ones, and in turn with them those that are refused
/// in each way.
pub fn set_up(dice: &mut Dice, turn: u64) -> Input {
    let way = match turn % 2 {
        0 => None,
        _ => Some(Unfit::ALL[(turn / 2 % Unfit::ALL.len() as u64) as usize]),
    };
    let lists = match way {
        None => {
            let count = 1 + dice.below(8) as usize;
            Lists::good(dice, count)
        }
        Some(way) => unfit(dice, way),
    };
    Input::SetUp { way, lists }
}

/// Lists that are refused in one way.
fn unfit(dice: &mut Dice, way: Unfit) -> Lists {
    let count = match way {
        Unfit::NoChannel => 0,
        Unfit::TooManyChannels => 9 + dice.below(4) as usize,
        _ => 2 + dice.below(7) as usize,
    };
    let mut lists = Lists::good(dice, count);
    let (channels, from) = (&mut lists.channels, &mut lists.from);
    let one = dice.below(count.max(2) as u64 - 1) as usize;
    let any = dice.below(count.max(1) as u64) as usize;
    match way {
        Unfit::NoChannel | Unfit::TooManyChannels => {}
        Unfit::ChannelNumbersEqual => channels[one + 1] = channels[one],
        Unfit::ChannelNumbersDescending => channels.swap(one, one + 1),
        Unfit::NoFirstNumber => from.clear(),
        Unfit::FewerFirstNumbers => from.truncate(one + 1),
        Unfit::MoreFirstNumbers => {
            let more = 1 + dice.below(4) as usize;
            from.extend(first_numbers(dice, more));
        }
        Unfit::FirstNumberZero => from[any] = 0,
        Unfit::FirstNumberNegative => {
            let any_number = -1 - (dice.wide() >> 1) as i64;
            from[any] = dice.pick(&[-1, -2, i64::MIN + 1, any_number]);
        }
        Unfit::FirstNumberLowest => from[any] = i64::MIN,
    }
    lists
}

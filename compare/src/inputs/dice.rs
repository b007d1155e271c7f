//! A small generator with a fixed seed: splitmix64.

/// Numbers without a pattern, the same for the same seed and index.
pub struct Dice {
    state: u64,
}

/// splitmix64's step.
const STEP: u64 = 0x9E37_79B9_7F4A_7C15;

/// splitmix64's mixing of a state.
fn mix(state: u64) -> u64 {
    let mut mixed = state;
    mixed = (mixed ^ (mixed >> 30)).wrapping_mul(0xBF58_476D_1CE4_E5B9);
    mixed = (mixed ^ (mixed >> 27)).wrapping_mul(0x94D0_49BB_1331_11EB);
    mixed ^ (mixed >> 31)
}

impl Dice {
    pub fn new(seed: u64, index: u64) -> Dice {
        Dice {
            state: mix(mix(seed.wrapping_add(STEP)) ^ mix(index.wrapping_add(1))),
        }
    }

    /// The next 64 bits.
    pub fn bits(&mut self) -> u64 {
        self.state = self.state.wrapping_add(STEP);
        mix(self.state)
    }

    /// A number below the given one, which is not 0.
    pub fn below(&mut self, end: u64) -> u64 {
        self.bits() % end
    }

    /// True once in so many times.
    pub fn one_in(&mut self, times: u64) -> bool {
        self.below(times) == 0
    }

    /// One of the given.
    pub fn pick<T: Copy>(&mut self, from: &[T]) -> T {
        from[self.below(from.len() as u64) as usize]
    }

    /// A number of any magnitude.
    pub fn wide(&mut self) -> u64 {
        let magnitude = self.below(64);
        self.bits() >> magnitude
    }

    /// A number of any magnitude in a range, both ends included and often
    /// met.
    pub fn between(&mut self, low: i64, high: i64) -> i64 {
        let span = (i128::from(high) - i128::from(low)) as u64;
        let step = match span.checked_add(1) {
            Some(end) => self.wide() % end,
            None => self.wide(),
        };
        let zero = 0.clamp(low, high);
        match self.below(8) {
            0 => low,
            1 => high,
            2 => zero,
            3 => (low + 1).min(high),
            4 => (high - 1).max(low),
            5 => (i128::from(high) - i128::from(step)) as i64,
            6 => (i128::from(low) + i128::from(step)) as i64,
            _ => zero.saturating_add(self.below(1_000_000) as i64).min(high),
        }
    }

    /// Bytes: of any kind, printable, or spaces.
    pub fn bytes(&mut self, length: usize) -> Vec<u8> {
        match self.below(4) {
            0 => vec![b' '; length],
            1 => (0..length).map(|_| b'0' + self.below(10) as u8).collect(),
            _ => self.noise(length),
        }
    }

    /// Bytes of any kind.
    pub fn noise(&mut self, length: usize) -> Vec<u8> {
        let mut bytes = Vec::with_capacity(length + 8);
        while bytes.len() < length {
            bytes.extend_from_slice(&self.bits().to_be_bytes());
        }
        bytes.truncate(length);
        bytes
    }
}

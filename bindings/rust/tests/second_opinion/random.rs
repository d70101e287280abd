//! A small generator of random numbers (SplitMix64), its seed and the size of a run.

use std::env;
use std::time::{SystemTime, UNIX_EPOCH};

pub struct Random(u64);

impl Random {
    pub fn new(seed: u64) -> Random {
        Random(seed)
    }

    pub fn bits(&mut self) -> u64 {
        self.0 = self.0.wrapping_add(0x9e37_79b9_7f4a_7c15);
        let mut z = self.0;
        z = (z ^ (z >> 30)).wrapping_mul(0xbf58_476d_1ce4_e5b9);
        z = (z ^ (z >> 27)).wrapping_mul(0x94d0_49bb_1331_11eb);
        z ^ (z >> 31)
    }

    /// A whole number from `low` to `high`, both counted.
    pub fn between(&mut self, low: i64, high: i64) -> i64 {
        let span = (i128::from(high) - i128::from(low) + 1) as u128;
        (i128::from(low) + ((u128::from(self.bits()) * span) >> 64) as i128) as i64
    }

    pub fn below(&mut self, limit: usize) -> usize {
        self.between(0, limit as i64 - 1) as usize
    }

    /// True `part` times in a hundred.
    pub fn percent(&mut self, part: i64) -> bool {
        self.between(1, 100) <= part
    }

    pub fn pick<T: Copy>(&mut self, choices: &[T]) -> T {
        choices[self.below(choices.len())]
    }

    /// A whole number of a random number of bits and a random sign.
    pub fn any_size(&mut self) -> i64 {
        let cut = self.below(64) as u32;
        (self.bits() as i64) >> cut
    }
}

/// `LAEA_SEED`, else the clock; each run prints it.
pub fn seed() -> u64 {
    number("LAEA_SEED").unwrap_or_else(|| {
        let now = SystemTime::now()
            .duration_since(UNIX_EPOCH)
            .expect("a clock after 1970");
        now.as_nanos() as u64
    })
}

/// `LAEA_INPUTS`, the number of inputs for each call, else 1,000,000.
pub fn inputs() -> u64 {
    number("LAEA_INPUTS").unwrap_or(1_000_000)
}

fn number(variable: &str) -> Option<u64> {
    let text = env::var(variable).ok()?;
    Some(
        text.replace([',', '_'], "")
            .parse()
            .unwrap_or_else(|_| panic!("{variable} is no whole number: {text}")),
    )
}

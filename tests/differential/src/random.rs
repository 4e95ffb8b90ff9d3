//! A small seeded generator (splitmix64), the same on every run unless
//! CAPTIONS_SEED gives another seed.

/// The variable that gives another seed, decimal or 0x and hex digits.
pub const SEED_VARIABLE: &str = "CAPTIONS_SEED";

const USUAL_SEED: u64 = 0x6d43_7279_7074_6f6e;

/// The seed of this run.
pub fn seed() -> u64 {
    let Ok(text) = std::env::var(SEED_VARIABLE) else {
        return USUAL_SEED;
    };
    let number = match text.strip_prefix("0x") {
        Some(digits) => u64::from_str_radix(digits, 16),
        None => text.parse(),
    };
    number.unwrap_or_else(|_| panic!("{SEED_VARIABLE} is not a number: {text}"))
}

pub struct Random(u64);

impl Random {
    /// The generator of one test: `part` keeps its numbers apart from those
    /// of the other tests under the same seed.
    pub fn of_part(part: u64) -> Random {
        let mut parts = Random(seed() ^ part.wrapping_mul(0xd134_2543_de82_ef95));
        Random(parts.number())
    }

    pub fn number(&mut self) -> u64 {
        self.0 = self.0.wrapping_add(0x9e37_79b9_7f4a_7c15);
        let mut z = self.0;
        z = (z ^ (z >> 30)).wrapping_mul(0xbf58_476d_1ce4_e5b9);
        z = (z ^ (z >> 27)).wrapping_mul(0x94d0_49bb_1331_11eb);
        z ^ (z >> 31)
    }

    /// The same, by the name that the second program's tests call.
    pub fn next(&mut self) -> u64 {
        self.number()
    }

    /// A number below `bound`.
    pub fn below(&mut self, bound: usize) -> usize {
        (self.number() % bound as u64) as usize
    }

    /// True once in `times` on average.
    pub fn once_in(&mut self, times: usize) -> bool {
        self.below(times) == 0
    }

    pub fn pick<T: Copy>(&mut self, choices: &[T]) -> T {
        choices[self.below(choices.len())]
    }

    pub fn path(&mut self) -> u16 {
        self.number() as u16
    }

    pub fn block(&mut self) -> [u8; 8] {
        self.number().to_be_bytes()
    }

    pub fn bytes(&mut self, length: usize) -> Vec<u8> {
        let mut bytes = Vec::with_capacity(length + 7);
        while bytes.len() < length {
            bytes.extend(self.block());
        }
        bytes.truncate(length);
        bytes
    }
}

#[test]
fn the_generator_gives_the_known_numbers_of_seed_0() {
    let mut random = Random(0);
    assert_eq!(random.number(), 0xe220_a839_7b1d_cdaf);
    assert_eq!(random.number(), 0x6e78_9e6a_a1b9_65f4);
}

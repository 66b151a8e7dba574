//! Inputs for the tests and the benchmarks: seeded, the same on every machine.
//!
//! Nothing here knows an answer, apart from [`example`] and [`vectors`], whose
//! answers are written out by hand from document 01 and the readings of it.
//!
//! * [`days`]: timetable numbers, from tiny and tie-heavy to the limits;
//! * [`texts`]: timetable texts, good and damaged;
//! * [`slots`]: codes made against the library's index;
//! * [`tables`]: tables files, good but hostile, and damaged;
//! * [`asks`]: what to ask, with numbers at and past every edge;
//! * [`programs`]: inputs of the program "journey";
//! * [`example`]: the example day T, its tables, cases A to J;
//! * [`vectors`]: further inputs with the answers they must have.

pub mod asks;
pub mod days;
pub mod example;
pub mod programs;
pub mod slots;
pub mod tables;
pub mod texts;
pub mod vectors;

/// A small generator of numbers (splitmix64): all it must be is repeatable.
#[derive(Clone, Debug)]
pub struct Rng(u64);

impl Rng {
    pub fn new(seed: u64) -> Rng {
        Rng(seed)
    }

    pub fn next(&mut self) -> u64 {
        self.0 = self.0.wrapping_add(0x9E37_79B9_7F4A_7C15);
        let mut z = self.0;
        z = (z ^ (z >> 30)).wrapping_mul(0xBF58_476D_1CE4_E5B9);
        z = (z ^ (z >> 27)).wrapping_mul(0x94D0_49BB_1331_11EB);
        z ^ (z >> 31)
    }

    /// A number below `n`; `n` is at least 1.
    pub fn below(&mut self, n: u32) -> u32 {
        (self.next() % n as u64) as u32
    }

    /// A number from `low` to `high`, both included.
    pub fn between(&mut self, low: u32, high: u32) -> u32 {
        low + self.below(high - low + 1)
    }

    /// True once in `n` times.
    pub fn one_in(&mut self, n: u32) -> bool {
        self.below(n) == 0
    }

    pub fn pick<T: Copy>(&mut self, from: &[T]) -> T {
        from[self.below(from.len() as u32) as usize]
    }

    pub fn shuffle<T>(&mut self, all: &mut [T]) {
        for i in (1..all.len()).rev() {
            all.swap(i, self.below(i as u32 + 1) as usize);
        }
    }
}

/// How many times as many seeds the long run takes: `KIOSK_LONG=n`, else 1.
pub fn long() -> u64 {
    std::env::var("KIOSK_LONG").ok().and_then(|n| n.parse().ok()).unwrap_or(1)
}

/// Runs `body` on many seeds, more of them in the long run. A failure names its
/// seed; `KIOSK_SEED=s` then runs that one alone.
pub fn each_seed(name: &str, quick: u64, mut body: impl FnMut(&mut Rng)) {
    let only: Option<u64> = std::env::var("KIOSK_SEED").ok().and_then(|s| s.parse().ok());
    let seeds = match only {
        Some(seed) => seed..seed + 1,
        None => 0..quick * long(),
    };
    for seed in seeds {
        let outcome = std::panic::catch_unwind(std::panic::AssertUnwindSafe(|| {
            body(&mut Rng::new(seed));
        }));
        if let Err(panic) = outcome {
            eprintln!("{name}: failed with KIOSK_SEED={seed}");
            std::panic::resume_unwind(panic);
        }
    }
}

//! The kiosk's calls in plain, fast, unproved Rust: what ours is measured
//! against.
//!
//! Each function takes the same bytes and slices as the call of its name over
//! the C boundary ([`ask`] and [`ask_rides`] stand for three calls each), gives
//! the same answers and refusals in the same order, and leaves the same final
//! contents in every lent buffer. The algorithms are
//! as good as ours: one scan a departure in the builder, one pass over the
//! labels a run in the check, one pass over two label sets in an ask.
//!
//! Working room has its own fixed sizes here, [`BUILD_ROOM`], [`CHECK_ROOM`] and
//! [`RIDES_ROOM`]; less is refusal 17.

mod asks;
mod build;
mod check;
mod hubs;
mod journey;
mod numbers;
mod read;
mod rides;
mod tables;

pub use asks::{ask, Ask};
pub use build::{build, BUILD_ROOM};
pub use check::{check, CHECK_ROOM};
pub use hubs::{labels_by_hubs, Found};
pub use journey::journey;
pub use read::{read, read_by_scan};
pub use rides::{ask_rides, RIDES_ROOM};

/// A refusal: number, place, and for 20 the stop.
#[derive(Clone, Copy, Debug, PartialEq, Eq)]
pub(crate) struct Refusal(u32, u32, u32);

impl Refusal {
    const fn plain(number: u32) -> Refusal {
        Refusal(number, 0, 0)
    }

    const fn at(number: u32, place: usize) -> Refusal {
        Refusal(number, place as u32, 0)
    }

    fn answer(self) -> [u32; 4] {
        [self.0, self.1, self.2, 0]
    }
}

pub(crate) const MOST_STOPS: usize = 255;
pub(crate) const MOST_RUNS: usize = 4_096;
pub(crate) const MOST_LABELS: usize = 8_192;
pub(crate) const MINUTES: usize = 2_880;

//! The static library and the programs as subjects of the tests.

#[cfg(feature = "people")]
pub mod people;
#[cfg(any(feature = "journey", feature = "people"))]
pub mod process;
#[cfg(feature = "journey")]
pub mod program;

#[allow(unused_imports)]
use suite::{Ask, Numbers};

/// The static library `target/staticlib/libkiosk.a`.
pub struct Library;

#[cfg(feature = "read")]
impl suite::Reads for Library {
    fn read(text: &[u8], runs: &mut [u32], codes: &mut [u32], answer: &mut [u32; 4]) {
        kiosk::four::read(text, runs, codes, answer);
    }
}

#[cfg(feature = "build")]
impl suite::Builds for Library {
    fn build_room() -> usize {
        kiosk::build_room()
    }
    fn build(given: Numbers, tables: &mut [u8], work: &mut [u16], answer: &mut [u32; 4]) {
        kiosk::four::build(numbers(given), tables, work, answer);
    }
}

#[cfg(feature = "check")]
impl suite::Checks for Library {
    fn check_room() -> usize {
        kiosk::check_room()
    }
    fn check(tables: &[u8], given: Numbers, work: &mut [u16], answer: &mut [u32; 4]) {
        kiosk::four::check(tables, numbers(given), work, answer);
    }
}

#[cfg(feature = "asks")]
impl suite::Asks for Library {
    fn ask(tables: &[u8], ask: Ask, answer: &mut [u32; 4]) {
        kiosk::four::ask(tables, ask.from, ask.to, asked(ask), answer);
    }
}

#[cfg(feature = "rides")]
impl suite::Rides for Library {
    fn rides_room() -> usize {
        kiosk::rides_room()
    }
    fn ask_rides(
        tables: &[u8],
        given: Numbers,
        ask: Ask,
        list: &mut [u32],
        work: &mut [u16],
        answer: &mut [u32; 4],
    ) {
        let Ask { from, to, .. } = ask;
        kiosk::four::ask_rides(tables, numbers(given), from, to, asked(ask), list, work, answer);
    }
}

#[cfg(any(feature = "build", feature = "check", feature = "rides"))]
fn numbers(given: Numbers<'_>) -> kiosk::Numbers<'_> {
    kiosk::Numbers { stops: given.stops, run_count: given.run_count, runs: given.runs }
}

#[cfg(any(feature = "asks", feature = "rides"))]
fn asked(ask: Ask) -> kiosk::Ask {
    use kiosk::Ask::*;
    ask.said(|t| Early { t }, |t| Late { t }, |t, t2| Short { t, t2 })
}

//! The library's calls; each says whether it is linked at all.

#![allow(unused_imports, unused_variables, clippy::too_many_arguments)]

use generate::asks::Ask;
use generate::days::Day;

#[cfg(any(feature = "build", feature = "check", feature = "rides"))]
fn numbers<'a>(day: &Day, runs: &'a [u32]) -> kiosk::Numbers<'a> {
    kiosk::Numbers { stops: day.stops, run_count: day.run_count(), runs }
}

#[cfg(any(feature = "asks", feature = "rides"))]
fn ask_of(ask: Ask) -> kiosk::Ask {
    use kiosk::Ask::*;
    ask.said(|t| Early { t }, |t| Late { t }, |t, t2| Short { t, t2 })
}

pub fn read(text: &[u8], runs: &mut [u32], codes: &mut [u32], answer: &mut [u32; 4]) -> bool {
    #[cfg(feature = "read")]
    kiosk::four::read(text, runs, codes, answer);
    cfg!(feature = "read")
}

pub fn build_room() -> usize {
    #[cfg(feature = "build")]
    return kiosk::build_room();
    #[cfg(not(feature = "build"))]
    0
}

pub fn build(
    day: &Day,
    runs: &[u32],
    tables: &mut [u8],
    work: &mut [u16],
    answer: &mut [u32; 4],
) -> bool {
    #[cfg(feature = "build")]
    kiosk::four::build(numbers(day, runs), tables, work, answer);
    cfg!(feature = "build")
}

pub fn check_room() -> usize {
    #[cfg(feature = "check")]
    return kiosk::check_room();
    #[cfg(not(feature = "check"))]
    0
}

pub fn check(
    tables: &[u8],
    day: &Day,
    runs: &[u32],
    work: &mut [u16],
    answer: &mut [u32; 4],
) -> bool {
    #[cfg(feature = "check")]
    kiosk::four::check(tables, numbers(day, runs), work, answer);
    cfg!(feature = "check")
}

pub fn ask(tables: &[u8], ask: Ask, answer: &mut [u32; 4]) -> bool {
    #[cfg(feature = "asks")]
    kiosk::four::ask(tables, ask.from, ask.to, ask_of(ask), answer);
    cfg!(feature = "asks")
}

pub fn rides_room() -> usize {
    #[cfg(feature = "rides")]
    return kiosk::rides_room();
    #[cfg(not(feature = "rides"))]
    0
}

pub fn ask_rides(
    tables: &[u8],
    day: &Day,
    runs: &[u32],
    ask: Ask,
    list: &mut [u32],
    work: &mut [u16],
    answer: &mut [u32; 4],
) -> bool {
    #[cfg(feature = "rides")]
    {
        let numbers = numbers(day, runs);
        kiosk::four::ask_rides(tables, numbers, ask.from, ask.to, ask_of(ask), list, work, answer);
    }
    cfg!(feature = "rides")
}

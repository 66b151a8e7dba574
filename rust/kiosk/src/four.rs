//! The calls as they are: four numbers for an answer, `[0, ..]` on success and
//! `[number, place, stop, 0]` on a refusal.

#[allow(unused_imports)]
use crate::{Ask, Numbers};

/// The functions of the static library. A slice passes as a pointer and then a
/// length, the four numbers of the answer as one pointer.
mod library {
    #[cfg(feature = "read")]
    extern "C" {
        pub fn kiosk_read(
            text: *const u8,
            text_len: usize,
            runs: *mut u32,
            runs_len: usize,
            codes: *mut u32,
            codes_len: usize,
            answer: *mut [u32; 4],
        );
    }

    #[cfg(feature = "build")]
    extern "C" {
        pub fn kiosk_build(
            stops: u32,
            run_count: u32,
            runs: *const u32,
            runs_len: usize,
            tables: *mut u8,
            tables_len: usize,
            work: *mut u16,
            work_len: usize,
            answer: *mut [u32; 4],
        );
        pub fn kiosk_build_room() -> u32;
    }

    #[cfg(feature = "check")]
    extern "C" {
        pub fn kiosk_check(
            tables: *const u8,
            tables_len: usize,
            stops: u32,
            run_count: u32,
            runs: *const u32,
            runs_len: usize,
            work: *mut u16,
            work_len: usize,
            answer: *mut [u32; 4],
        );
        pub fn kiosk_check_room() -> u32;
    }

    #[cfg(feature = "asks")]
    extern "C" {
        pub fn kiosk_early(
            tables: *const u8,
            tables_len: usize,
            from: u32,
            to: u32,
            t: u32,
            answer: *mut [u32; 4],
        );
        pub fn kiosk_late(
            tables: *const u8,
            tables_len: usize,
            from: u32,
            to: u32,
            t: u32,
            answer: *mut [u32; 4],
        );
        pub fn kiosk_short(
            tables: *const u8,
            tables_len: usize,
            from: u32,
            to: u32,
            t: u32,
            t2: u32,
            answer: *mut [u32; 4],
        );
    }

    #[cfg(feature = "rides")]
    extern "C" {
        pub fn kiosk_early_rides(
            tables: *const u8,
            tables_len: usize,
            stops: u32,
            run_count: u32,
            runs: *const u32,
            runs_len: usize,
            from: u32,
            to: u32,
            t: u32,
            list: *mut u32,
            list_len: usize,
            work: *mut u16,
            work_len: usize,
            answer: *mut [u32; 4],
        );
        pub fn kiosk_late_rides(
            tables: *const u8,
            tables_len: usize,
            stops: u32,
            run_count: u32,
            runs: *const u32,
            runs_len: usize,
            from: u32,
            to: u32,
            t: u32,
            list: *mut u32,
            list_len: usize,
            work: *mut u16,
            work_len: usize,
            answer: *mut [u32; 4],
        );
        pub fn kiosk_short_rides(
            tables: *const u8,
            tables_len: usize,
            stops: u32,
            run_count: u32,
            runs: *const u32,
            runs_len: usize,
            from: u32,
            to: u32,
            t: u32,
            t2: u32,
            list: *mut u32,
            list_len: usize,
            work: *mut u16,
            work_len: usize,
            answer: *mut [u32; 4],
        );
        pub fn kiosk_rides_room() -> u32;
    }
}

#[cfg(feature = "read")]
pub fn read(text: &[u8], runs: &mut [u32], codes: &mut [u32], answer: &mut [u32; 4]) {
    unsafe {
        library::kiosk_read(
            text.as_ptr(),
            text.len(),
            runs.as_mut_ptr(),
            runs.len(),
            codes.as_mut_ptr(),
            codes.len(),
            answer,
        )
    }
}

#[cfg(feature = "build")]
pub fn build(numbers: Numbers, tables: &mut [u8], work: &mut [u16], answer: &mut [u32; 4]) {
    unsafe {
        library::kiosk_build(
            numbers.stops,
            numbers.run_count,
            numbers.runs.as_ptr(),
            numbers.runs.len(),
            tables.as_mut_ptr(),
            tables.len(),
            work.as_mut_ptr(),
            work.len(),
            answer,
        )
    }
}

#[cfg(feature = "build")]
pub fn build_room() -> u32 {
    unsafe { library::kiosk_build_room() }
}

#[cfg(feature = "check")]
pub fn check(tables: &[u8], numbers: Numbers, work: &mut [u16], answer: &mut [u32; 4]) {
    unsafe {
        library::kiosk_check(
            tables.as_ptr(),
            tables.len(),
            numbers.stops,
            numbers.run_count,
            numbers.runs.as_ptr(),
            numbers.runs.len(),
            work.as_mut_ptr(),
            work.len(),
            answer,
        )
    }
}

#[cfg(feature = "check")]
pub fn check_room() -> u32 {
    unsafe { library::kiosk_check_room() }
}

#[cfg(feature = "asks")]
pub fn ask(tables: &[u8], from: u32, to: u32, ask: Ask, answer: &mut [u32; 4]) {
    let (at, len) = (tables.as_ptr(), tables.len());
    unsafe {
        match ask {
            Ask::Early { t } => library::kiosk_early(at, len, from, to, t, answer),
            Ask::Late { t } => library::kiosk_late(at, len, from, to, t, answer),
            Ask::Short { t, t2 } => library::kiosk_short(at, len, from, to, t, t2, answer),
        }
    }
}

#[cfg(feature = "rides")]
#[allow(clippy::too_many_arguments)]
pub fn ask_rides(
    tables: &[u8],
    numbers: Numbers,
    from: u32,
    to: u32,
    ask: Ask,
    list: &mut [u32],
    work: &mut [u16],
    answer: &mut [u32; 4],
) {
    let (at, len) = (tables.as_ptr(), tables.len());
    let Numbers { stops, run_count, runs } = numbers;
    let (runs, runs_len) = (runs.as_ptr(), runs.len());
    let (list, list_len) = (list.as_mut_ptr(), list.len());
    let (work, work_len) = (work.as_mut_ptr(), work.len());
    unsafe {
        match ask {
            Ask::Early { t } => library::kiosk_early_rides(
                at, len, stops, run_count, runs, runs_len, from, to, t, list, list_len, work,
                work_len, answer,
            ),
            Ask::Late { t } => library::kiosk_late_rides(
                at, len, stops, run_count, runs, runs_len, from, to, t, list, list_len, work,
                work_len, answer,
            ),
            Ask::Short { t, t2 } => library::kiosk_short_rides(
                at, len, stops, run_count, runs, runs_len, from, to, t, t2, list, list_len, work,
                work_len, answer,
            ),
        }
    }
}

#[cfg(feature = "rides")]
pub fn rides_room() -> u32 {
    unsafe { library::kiosk_rides_room() }
}

//! The tests themselves, over anything that answers like the C boundary.
//!
//! They are written once, as functions over a subject, and run twice: on the
//! static library (`tests/kiosk_tests`) and on the plain Rust implementation
//! (`bench/plain/tests`), which shows that the tests pass on something.
//!
//! Every call is made through [`calls`]: buffers are lent full of rubbish, with
//! guard words before and behind; the answer and every final byte are compared
//! with the oracle's.

pub mod asks;
pub mod build;
pub mod calls;
pub mod check;
pub mod journey;
pub mod lent;
pub mod limits;
pub mod read;
pub mod rides;
pub mod room;

pub use generate::asks::Ask;
pub use oracle::calls::Numbers;
use std::cell::Cell;

/// Reads timetable texts.
pub trait Reads {
    fn read(text: &[u8], runs: &mut [u32], codes: &mut [u32], answer: &mut [u32; 4]);
}

/// Builds tables from timetable numbers.
pub trait Builds {
    /// How many numbers of working room a call needs.
    fn build_room() -> usize;
    fn build(numbers: Numbers, tables: &mut [u8], work: &mut [u16], answer: &mut [u32; 4]);
}

/// Checks tables against timetable numbers.
pub trait Checks {
    fn check_room() -> usize;
    fn check(tables: &[u8], numbers: Numbers, work: &mut [u16], answer: &mut [u32; 4]);
}

/// Asks tables.
pub trait Asks {
    fn ask(tables: &[u8], ask: Ask, answer: &mut [u32; 4]);
}

/// Asks tables and lists the rides.
pub trait Rides {
    fn rides_room() -> usize;
    fn ask_rides(
        tables: &[u8],
        numbers: Numbers,
        ask: Ask,
        list: &mut [u32],
        work: &mut [u16],
        answer: &mut [u32; 4],
    );
}

/// The program "journey".
pub trait Program {
    fn journey(input: &[u8]) -> Vec<u8>;
}

thread_local! {
    static CALLS: Cell<u64> = const { Cell::new(0) };
}

/// Counts one call to the subject.
pub(crate) fn count_call() {
    CALLS.with(|calls| calls.set(calls.get() + 1));
}

/// Runs a test and prints how many calls it made, and the seconds it took with
/// the oracle's part in them.
pub fn counted(name: &str, test: impl FnOnce()) {
    let before = CALLS.with(|calls| calls.get());
    let start = std::time::Instant::now();
    test();
    let made = CALLS.with(|calls| calls.get()) - before;
    println!("calls made: {made:>8} in {:6.2} s by {name}", start.elapsed().as_secs_f64());
}

/// One `#[test]` for each function of an area, over one subject.
#[macro_export]
macro_rules! area {
    ($area:ident, $subject:ty, [$($test:ident),* $(,)?]) => {
        mod $area {
            #[allow(unused_imports)]
            use super::*;
            $(
                #[test]
                fn $test() {
                    let name = concat!(stringify!($area), "::", stringify!($test));
                    $crate::counted(name, $crate::$area::$test::<$subject>);
                }
            )*
        }
    };
}

#[macro_export]
macro_rules! read_tests {
    ($subject:ty) => {
        $crate::area!(
            read,
            $subject,
            [
                example,
                vectors,
                room,
                prefixes_of_t,
                bytes_of_t_changed,
                bytes_of_t_moved,
                lines_of_t_moved,
                good_texts,
                damaged_texts,
                texts_at_the_limit,
            ]
        );
    };
}

#[macro_export]
macro_rules! build_tests {
    ($subject:ty) => {
        $crate::area!(
            build,
            $subject,
            [
                example,
                vectors,
                room,
                tiny_days,
                ties,
                there_and_back,
                middling_days,
                few_and_many_runs,
                any_small_day,
                damaged_numbers,
                counts_at_the_edges,
                label_limit,
                days_at_the_limits,
            ]
        );
    };
}

#[macro_export]
macro_rules! check_tests {
    ($subject:ty) => {
        $crate::area!(
            check,
            $subject,
            [
                example,
                vectors,
                room,
                order_of_refusals,
                damaged_tables,
                own_tables,
                every_label_removed,
                nudged_labels,
                labels_added,
                other_days,
                arbitrary_tables,
                damaged_numbers,
                tables_at_the_limits,
            ]
        );
    };
}

#[macro_export]
macro_rules! asks_tests {
    ($subject:ty) => {
        $crate::area!(
            asks,
            $subject,
            [
                cases,
                vectors,
                order_of_refusals,
                damaged_tables,
                every_ask_of_t,
                own_tables,
                arbitrary_tables,
                every_ask_of_small_tables,
                odd_asks,
                tables_at_the_limits,
            ]
        );
    };
}

#[macro_export]
macro_rules! rides_tests {
    ($subject:ty) => {
        $crate::area!(
            rides,
            $subject,
            [
                cases,
                vectors,
                room,
                order_of_refusals,
                damaged_tables,
                own_tables,
                labels_added,
                arbitrary_tables,
                runs_missing,
                odd_asks,
                damaged_numbers,
                long_chain,
                deep_tables,
                tables_at_the_limits,
            ]
        );
    };
}

#[macro_export]
macro_rules! room_tests {
    ($subject:ty) => {
        $crate::area!(room, $subject, [within_the_limit]);
    };
}

#[macro_export]
macro_rules! journey_tests {
    ($subject:ty) => {
        $crate::area!(
            journey,
            $subject,
            [
                vectors,
                stored,
                random_inputs,
                damaged_timetables,
                cut_inputs,
                input_at_the_limit,
                too_many_labels,
                much_output,
            ]
        );
    };
}

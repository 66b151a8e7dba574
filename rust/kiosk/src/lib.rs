//! The proved kiosk library, called safely from Rust: slices in, an enum out.
//!
//! Each call takes what the C boundary takes and gives back a [`Result`]: what
//! was found, or a [`Refusal`] with its number and its place. The library allocates nothing: results and working room go into
//! buffers that the caller lends. Whatever they held before, after a refusal
//! they are all zero; after success they are zero beyond what was written;
//! working room always ends zero.
//!
//! Every area of the library is a feature of this crate: `read`, `build`,
//! `check`, `asks`, `rides`. [`four`] has the same calls with the four numbers
//! of the answer just as the library leaves them.
//!
//! The one unsafe thing here is the call itself. It is sound because a slice
//! passes as its pointer and its length, because the functions demand nothing
//! of their arguments, and because they are proved to stay within the slices.

#[cfg(any(
    feature = "read",
    feature = "build",
    feature = "check",
    feature = "asks",
    feature = "rides"
))]
pub mod four;

use std::fmt;

/// Numbers of room the reader needs for runs: five for each of 4,096.
pub const RUNS_ROOM: usize = 20_480;
/// Numbers of room the reader needs for codes: two for each of 255.
pub const CODES_ROOM: usize = 510;
/// Bytes that any tables fit in: 255 stops and 8,192 labels.
pub const TABLES_ROOM: usize = 2 + 4 * 255 + 6 * 8_192;
/// No list of rides is longer.
pub const LIST_ROOM: usize = 2_879;

/// Why there is no answer.
#[derive(Clone, Copy, Debug, PartialEq, Eq)]
pub struct Refusal {
    /// 1 to 22.
    pub number: u32,
    /// A line, a run or a label, by the number; else 0.
    pub place: u32,
    /// The stop of a gap (20); else 0.
    pub stop: u32,
}

impl Refusal {
    /// What the number means.
    pub fn meaning(self) -> &'static str {
        match self.number {
            1 => "first line wrong",
            2 => "line shape",
            3 => "stop code bad",
            4 => "code repeated",
            5 => "stop unknown",
            6 => "run to its own stop",
            7 => "number out of range, or departure not before arrival",
            8 => "more than a limit",
            9 => "tables: shorter than 2 bytes, first byte not 1, or no stops",
            10 => "tables: contents cut short, too many labels, or length differs",
            11 => "label not good",
            12 => "stop not below the stop count",
            13 => "same stop twice",
            14 => "ask minute over 2,879",
            15 => "earliest departure after latest arrival",
            16 => "no journey",
            17 => "lent room too short",
            18 => "rides missing",
            19 => "label unsupported",
            20 => "gap",
            21 => "stop counts differ",
            22 => "more than 8,192 labels by the rule",
            _ => "unknown refusal",
        }
    }
}

impl fmt::Display for Refusal {
    fn fmt(&self, f: &mut fmt::Formatter<'_>) -> fmt::Result {
        write!(f, "refusal {} at {}", self.number, self.place)?;
        if self.number == 20 {
            write!(f, ", stop {}", self.stop)?;
        }
        write!(f, ": {}", self.meaning())
    }
}

impl std::error::Error for Refusal {}

/// Timetable numbers: five a run, from, to, departure, arrival, trip. Numbers
/// beyond those of `run_count` runs are not read.
#[derive(Clone, Copy, Debug)]
pub struct Numbers<'a> {
    pub stops: u32,
    pub run_count: u32,
    pub runs: &'a [u32],
}

/// What is asked, in minutes.
#[derive(Clone, Copy, Debug, PartialEq, Eq)]
pub enum Ask {
    /// Leave at or after t: the least arrival, then the latest departure.
    Early { t: u32 },
    /// Arrive at or before t: the latest departure, then the least arrival.
    Late { t: u32 },
    /// Leave at or after t and arrive by t2: the least duration, then the
    /// earliest departure.
    Short { t: u32, t2: u32 },
}

/// What was read: the numbers of stops and of runs.
#[derive(Clone, Copy, Debug, PartialEq, Eq)]
pub struct Read {
    pub stops: u32,
    pub runs: u32,
}

/// What was built: the bytes of the tables and the number of their labels.
#[derive(Clone, Copy, Debug, PartialEq, Eq)]
pub struct Built {
    pub length: usize,
    pub labels: u32,
}

/// A journey: first departure, last arrival, and how many rides were listed (0
/// where none were asked for).
#[derive(Clone, Copy, Debug, PartialEq, Eq)]
pub struct Journey {
    pub departure: u32,
    pub arrival: u32,
    pub rides: usize,
}

/// The answer's four numbers as a result.
#[allow(dead_code)]
fn result<T>(answer: [u32; 4], good: impl FnOnce([u32; 4]) -> T) -> Result<T, Refusal> {
    match answer {
        [0, ..] => Ok(good(answer)),
        [number, place, stop, _] => Err(Refusal { number, place, stop }),
    }
}

/// Reads a timetable text into numbers: five a run into `runs`, which needs
/// [`RUNS_ROOM`]; where each stop's code starts and how long it is into
/// `codes`, which needs [`CODES_ROOM`].
#[cfg(feature = "read")]
pub fn read(text: &[u8], runs: &mut [u32], codes: &mut [u32]) -> Result<Read, Refusal> {
    let mut answer = [0; 4];
    four::read(text, runs, codes, &mut answer);
    result(answer, |a| Read { stops: a[1], runs: a[2] })
}

/// Builds the tables of a day. `work` needs [`build_room`].
#[cfg(feature = "build")]
pub fn build(numbers: Numbers, tables: &mut [u8], work: &mut [u16]) -> Result<Built, Refusal> {
    let mut answer = [0; 4];
    four::build(numbers, tables, work, &mut answer);
    result(answer, |a| Built { length: a[1] as usize, labels: a[2] })
}

/// Working room for [`build`], in numbers.
#[cfg(feature = "build")]
pub fn build_room() -> usize {
    four::build_room() as usize
}

/// Checks tables from anywhere against a day. `work` needs [`check_room`].
#[cfg(feature = "check")]
pub fn check(tables: &[u8], numbers: Numbers, work: &mut [u16]) -> Result<(), Refusal> {
    let mut answer = [0; 4];
    four::check(tables, numbers, work, &mut answer);
    result(answer, |_| ())
}

/// Working room for [`check`], in numbers.
#[cfg(feature = "check")]
pub fn check_room() -> usize {
    four::check_room() as usize
}

/// Asks tables for a journey.
#[cfg(feature = "asks")]
pub fn ask(tables: &[u8], from: u32, to: u32, ask: Ask) -> Result<Journey, Refusal> {
    let mut answer = [0; 4];
    four::ask(tables, from, to, ask, &mut answer);
    result(answer, |a| Journey { departure: a[1], arrival: a[2], rides: 0 })
}

/// Asks tables for a journey and lists its rides by their run numbers. No list
/// is longer than [`LIST_ROOM`]; `work` needs [`rides_room`].
#[cfg(feature = "rides")]
pub fn ask_rides(
    tables: &[u8],
    numbers: Numbers,
    from: u32,
    to: u32,
    ask: Ask,
    list: &mut [u32],
    work: &mut [u16],
) -> Result<Journey, Refusal> {
    let mut answer = [0; 4];
    four::ask_rides(tables, numbers, from, to, ask, list, work, &mut answer);
    result(answer, |a| Journey { departure: a[1], arrival: a[2], rides: a[3] as usize })
}

/// Working room for [`ask_rides`], in numbers.
#[cfg(feature = "rides")]
pub fn rides_room() -> usize {
    four::rides_room() as usize
}

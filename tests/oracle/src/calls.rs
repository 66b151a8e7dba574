//! What each call over the C boundary leaves behind: the four numbers of the
//! answer and the final contents of every lent buffer, refused or not.
//!
//! Working room ends zero always, whatever its length, so it is not returned.
//! How much of it a call needs is the library's to say; here it is `needs`.

use crate::journeys::Ask;
use crate::kinds::{judge_numbers, Day, Refusal, CODES_ROOM, RUNS_ROOM};
use crate::tables::{judge_ask, judge_tables, Tables};
use crate::{rides, rule, text, verdict};

/// Timetable numbers as they are given to a call.
#[derive(Clone, Copy, Debug)]
pub struct Numbers<'a> {
    pub stops: u32,
    pub run_count: u32,
    pub runs: &'a [u32],
}

/// Working room: how many numbers are lent and how many the call needs.
#[derive(Clone, Copy, Debug)]
pub struct Room {
    pub lent: usize,
    pub needs: usize,
}

impl Room {
    fn is_enough(self) -> bool {
        self.lent >= self.needs
    }
}

fn numbers_judged(numbers: Numbers<'_>, room: Room) -> Result<Day, Refusal> {
    judge_numbers(numbers.stops, numbers.run_count, numbers.runs, room.is_enough())
}

/// A buffer of `len` numbers that begins with these and is zero beyond.
fn filled<T: Copy + Default>(values: &[T], len: usize) -> Vec<T> {
    let mut all = vec![T::default(); len];
    all[..values.len()].copy_from_slice(values);
    all
}

/// `kiosk_read`: the answer, the runs, the codes.
pub fn read(text: &[u8], runs: usize, codes: usize) -> ([u32; 4], Vec<u32>, Vec<u32>) {
    let result = if runs < RUNS_ROOM || codes < CODES_ROOM {
        Err(Refusal::plain(17))
    } else {
        text::read(text)
    };
    match result {
        Err(refusal) => (refusal.answer(), vec![0; runs], vec![0; codes]),
        Ok(timetable) => {
            let places: Vec<u32> =
                timetable.codes.iter().flat_map(|c| [c.start as u32, c.len as u32]).collect();
            let day = timetable.day();
            (
                [0, day.stops as u32, day.runs.len() as u32, 0],
                filled(&day.numbers(), runs),
                filled(&places, codes),
            )
        }
    }
}

/// `kiosk_build`: the answer and the tables.
pub fn build(numbers: Numbers<'_>, tables: usize, room: Room) -> ([u32; 4], Vec<u8>) {
    let result = numbers_judged(numbers, room).and_then(|day| rule::tables(&day));
    match built(result, tables) {
        Err(refusal) => (refusal.answer(), vec![0; tables]),
        Ok((labels, bytes)) => ([0, bytes.len() as u32, labels as u32, 0], filled(&bytes, tables)),
    }
}

fn built(result: Result<Tables, Refusal>, lent: usize) -> Result<(usize, Vec<u8>), Refusal> {
    let tables = result?;
    let bytes = tables.bytes();
    if lent < bytes.len() {
        return Err(Refusal::plain(17));
    }
    Ok((tables.labels.len(), bytes))
}

/// `kiosk_check`: the answer.
pub fn check(tables: &[u8], numbers: Numbers<'_>, room: Room) -> [u32; 4] {
    let result = tables_and_day(tables, numbers, room)
        .and_then(|(tables, day)| verdict::check(&tables, &day));
    match result {
        Err(refusal) => refusal.answer(),
        Ok(()) => [0; 4],
    }
}

/// 9, 10, 11, the timetable's, 21.
fn tables_and_day(
    tables: &[u8],
    numbers: Numbers<'_>,
    room: Room,
) -> Result<(Tables, Day), Refusal> {
    let tables = judge_tables(tables)?;
    let day = numbers_judged(numbers, room)?;
    if tables.stops != day.stops {
        return Err(Refusal::plain(21));
    }
    Ok((tables, day))
}

/// `kiosk_early`, `kiosk_late`, `kiosk_short`: the answer.
pub fn ask(tables: &[u8], ask: Ask, from: u32, to: u32) -> [u32; 4] {
    let result = judge_tables(tables).and_then(|tables| {
        judge_ask(tables.stops, ask, from, to)?;
        tables.ask(ask, from as usize, to as usize).ok_or(Refusal::plain(16))
    });
    match result {
        Err(refusal) => refusal.answer(),
        Ok((dep, arr)) => [0, dep, arr, 0],
    }
}

/// `kiosk_early_rides` and its two sisters: the answer and the list.
pub fn ask_rides(
    tables: &[u8],
    numbers: Numbers<'_>,
    ask: Ask,
    from: u32,
    to: u32,
    list: usize,
    room: Room,
) -> ([u32; 4], Vec<u32>) {
    let result = tables_and_day(tables, numbers, room).and_then(|(tables, day)| {
        judge_ask(tables.stops, ask, from, to)?;
        let sketch = tables.chosen(ask, from as usize, to as usize).ok_or(Refusal::plain(16))?;
        let rides = rides::of_sketch(&tables, &day, &sketch).ok_or(Refusal::plain(18))?;
        if list < rides.len() {
            return Err(Refusal::plain(17));
        }
        Ok((sketch.pair(), rides))
    });
    match result {
        Err(refusal) => (refusal.answer(), vec![0; list]),
        Ok(((dep, arr), rides)) => ([0, dep, arr, rides.len() as u32], filled(&rides, list)),
    }
}

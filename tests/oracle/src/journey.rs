//! The program "journey": a timetable, then ask lines; answers printed.

use crate::journeys::Ask;
use crate::kinds::{Day, Refusal, MOST_INPUT};
use crate::tables::{judge_ask, Tables};
use crate::text::{self, fields, lines, number, Timetable};
use crate::{rides, rule};
use std::collections::HashMap;

/// The bytes through the first line that is exactly "end" and LF, and the rest;
/// without such a line, all of the input and nothing.
pub fn split(input: &[u8]) -> (&[u8], &[u8]) {
    for line in lines(input) {
        if line.finished && line.bytes == b"end" {
            return input.split_at(line.start + 4);
        }
    }
    (input, &[])
}

/// What the program prints for this input.
pub fn output(input: &[u8]) -> Vec<u8> {
    if input.len() > MOST_INPUT {
        return b"no 8 0\n".to_vec();
    }
    let (head, asks) = split(input);
    let started = text::read(head).and_then(|timetable| {
        let tables = rule::tables(&timetable.day())?;
        Ok((timetable, tables))
    });
    let (timetable, tables) = match started {
        Err(Refusal { number, place, .. }) => return format!("no {number} {place}\n").into_bytes(),
        Ok(both) => both,
    };
    answers(head, &timetable, &tables, asks)
}

/// What these ask lines get, over any tables for the timetable of this text.
pub fn answers(head: &[u8], timetable: &Timetable, tables: &Tables, asks: &[u8]) -> Vec<u8> {
    let day = timetable.day();
    let mut printed = Vec::new();
    // The same line has the same answer.
    let mut known: HashMap<&[u8], Vec<u8>> = HashMap::new();
    for line in lines(asks) {
        if !line.finished {
            printed.extend(b"no 2\n");
            continue;
        }
        let answer = known
            .entry(line.bytes)
            .or_insert_with(|| answer(head, timetable, &day, tables, line.bytes));
        printed.extend_from_slice(answer);
    }
    printed
}

fn answer(head: &[u8], timetable: &Timetable, day: &Day, tables: &Tables, line: &[u8]) -> Vec<u8> {
    match rides_of(head, timetable, day, tables, line) {
        Err(number) => format!("no {number}\n").into_bytes(),
        Ok((dep, arr, list)) => {
            let mut printed = format!("at {dep} {arr} {}\n", list.len()).into_bytes();
            for i in list {
                let run = day.runs[i as usize];
                printed.extend(b"ride ");
                printed.extend(timetable.code(head, run.from));
                printed.push(b' ');
                printed.extend(timetable.code(head, run.to));
                printed.extend(format!(" {} {} {}\n", run.dep, run.arr, run.trip).into_bytes());
            }
            printed
        }
    }
}

/// One ask line: 2, 5, 13, 14, 15, 16.
fn rides_of(
    head: &[u8],
    timetable: &Timetable,
    day: &Day,
    tables: &Tables,
    line: &[u8],
) -> Result<(u32, u32, Vec<u32>), u32> {
    let parts = fields(line);
    let minute = |i: usize| parts.get(i).and_then(|f| number(f)).ok_or(2u32);
    let ask = match (parts[0], parts.len()) {
        (b"early", 4) => Ask::Early { t: minute(3)? },
        (b"late", 4) => Ask::Late { t: minute(3)? },
        (b"short", 5) => Ask::Short { t: minute(3)?, t2: minute(4)? },
        _ => return Err(2),
    };
    let stop = |i: usize| timetable.stop(head, parts[i]).ok_or(5u32);
    let (from, to) = (stop(1)?, stop(2)?);
    judge_ask(day.stops, ask, from as u32, to as u32).map_err(|r| r.number)?;
    let sketch = tables.chosen(ask, from, to).ok_or(16u32)?;
    let (dep, arr) = sketch.pair();
    let list = rides::of_sketch(tables, day, &sketch).ok_or(18u32)?;
    Ok((dep, arr, list))
}

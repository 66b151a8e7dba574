//! The timetable text, line by line.

use crate::kinds::{
    minutes_and_trip_in_range, Day, Refusal, Run, MOST_CODE, MOST_RUNS, MOST_STOPS, MOST_TEXT,
};

/// Where a code stands in the text.
#[derive(Clone, Copy, Debug, PartialEq, Eq)]
pub struct Code {
    pub start: usize,
    pub len: usize,
}

/// A timetable as read: the place of each stop's code, and the runs.
#[derive(Clone, Debug, PartialEq, Eq)]
pub struct Timetable {
    pub codes: Vec<Code>,
    pub runs: Vec<Run>,
}

impl Timetable {
    pub fn day(&self) -> Day {
        Day { stops: self.codes.len(), runs: self.runs.clone() }
    }

    /// The stop that has this code, compared whole.
    pub fn stop(&self, text: &[u8], code: &[u8]) -> Option<usize> {
        stop_with(text, &self.codes, code)
    }

    pub fn code<'a>(&self, text: &'a [u8], stop: usize) -> &'a [u8] {
        bytes_of(text, self.codes[stop])
    }
}

/// One line without its LF; the last may lack one.
pub struct Line<'a> {
    pub start: usize,
    pub bytes: &'a [u8],
    pub finished: bool,
}

/// The lines of a text. What follows the last LF is a line, unfinished, if it
/// has at least one byte.
pub fn lines(text: &[u8]) -> Vec<Line<'_>> {
    let mut all = Vec::new();
    let mut start = 0;
    for at in 0..text.len() {
        if text[at] == b'\n' {
            all.push(Line { start, bytes: &text[start..at], finished: true });
            start = at + 1;
        }
    }
    if start < text.len() {
        all.push(Line { start, bytes: &text[start..], finished: false });
    }
    all
}

/// A decimal number of 1 to 5 digits with no leading zero except "0" itself;
/// `None` for any other form. Its range is not judged.
pub fn number(field: &[u8]) -> Option<u32> {
    if field.is_empty() || field.len() > 5 {
        return None;
    }
    if field.iter().any(|b| !b.is_ascii_digit()) {
        return None;
    }
    if field[0] == b'0' && field.len() > 1 {
        return None;
    }
    Some(std::str::from_utf8(field).unwrap().parse().unwrap())
}

/// The fields between the spaces of a line.
pub fn fields(line: &[u8]) -> Vec<&[u8]> {
    line.split(|b| *b == b' ').collect()
}

fn bytes_of(text: &[u8], code: Code) -> &[u8] {
    &text[code.start..code.start + code.len]
}

fn stop_with(text: &[u8], codes: &[Code], code: &[u8]) -> Option<usize> {
    codes.iter().position(|c| bytes_of(text, *c) == code)
}

/// Reads a timetable text. The reader's 17 for its room is in [`crate::calls`].
pub fn read(text: &[u8]) -> Result<Timetable, Refusal> {
    if text.len() > MOST_TEXT {
        return Err(Refusal::plain(8));
    }
    let mut codes: Vec<Code> = Vec::new();
    let mut runs: Vec<Run> = Vec::new();
    let mut ended = false;
    let lines = lines(text);
    if lines.is_empty() {
        return Err(Refusal::at(1, 1));
    }
    for (i, line) in lines.iter().enumerate() {
        let place = i + 1;
        let refuse = |number| Err(Refusal::at(number, place));
        if place == 1 {
            if !line.finished || line.bytes != b"timetable 1" {
                return refuse(1);
            }
            continue;
        }
        // Bytes after "end", and a line without LF.
        if ended || !line.finished {
            return refuse(2);
        }
        if line.bytes.starts_with(b"stop ") {
            // Out of place: a stop after a run.
            if !runs.is_empty() {
                return refuse(2);
            }
            let code = Code { start: line.start + 5, len: line.bytes.len() - 5 };
            let bytes = bytes_of(text, code);
            if code.len < 1 || code.len > MOST_CODE {
                return refuse(3);
            }
            if bytes.iter().any(|b| *b < 33 || *b > 126) {
                return refuse(3);
            }
            if stop_with(text, &codes, bytes).is_some() {
                return refuse(4);
            }
            if codes.len() == MOST_STOPS {
                return refuse(8);
            }
            codes.push(code);
        } else if line.bytes.starts_with(b"run ") {
            // Out of place: a run before any stop.
            if codes.is_empty() {
                return refuse(2);
            }
            let parts = fields(line.bytes);
            if parts.len() != 6 {
                return refuse(2);
            }
            let (Some(dep), Some(arr), Some(trip)) =
                (number(parts[3]), number(parts[4]), number(parts[5]))
            else {
                return refuse(2);
            };
            let (Some(from), Some(to)) =
                (stop_with(text, &codes, parts[1]), stop_with(text, &codes, parts[2]))
            else {
                return refuse(5);
            };
            if from == to {
                return refuse(6);
            }
            if !minutes_and_trip_in_range(dep, arr, trip) {
                return refuse(7);
            }
            if runs.len() == MOST_RUNS {
                return refuse(8);
            }
            runs.push(Run { from, to, dep, arr, trip });
        } else if line.bytes == b"end" {
            // Out of place: "end" before any stop.
            if codes.is_empty() {
                return refuse(2);
            }
            ended = true;
        } else {
            return refuse(2);
        }
    }
    if !ended {
        return Err(Refusal::at(2, lines.len() + 1));
    }
    Ok(Timetable { codes, runs })
}

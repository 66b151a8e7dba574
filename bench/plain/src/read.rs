//! The timetable text.

use crate::{Refusal, MINUTES, MOST_RUNS, MOST_STOPS};
use std::collections::HashMap;

const MOST_TEXT: usize = 1_048_576;
const MOST_CODE: usize = 64;

/// How a code is found among the stops read so far.
trait Directory<'t>: Default {
    fn find(&self, code: &[u8]) -> Option<u32>;
    fn add(&mut self, code: &'t [u8]);
    fn len(&self) -> usize;
}

#[derive(Default)]
struct ByHash<'t>(HashMap<&'t [u8], u32>);

impl<'t> Directory<'t> for ByHash<'t> {
    fn find(&self, code: &[u8]) -> Option<u32> {
        self.0.get(code).copied()
    }
    fn add(&mut self, code: &'t [u8]) {
        self.0.insert(code, self.0.len() as u32);
    }
    fn len(&self) -> usize {
        self.0.len()
    }
}

#[derive(Default)]
struct ByScan<'t>(Vec<&'t [u8]>);

impl<'t> Directory<'t> for ByScan<'t> {
    fn find(&self, code: &[u8]) -> Option<u32> {
        self.0.iter().position(|c| *c == code).map(|i| i as u32)
    }
    fn add(&mut self, code: &'t [u8]) {
        self.0.push(code);
    }
    fn len(&self) -> usize {
        self.0.len()
    }
}

/// Reads a timetable text, finding codes by a hash map.
pub fn read(text: &[u8], runs: &mut [u32], codes: &mut [u32], answer: &mut [u32; 4]) {
    read_with::<ByHash>(text, runs, codes, answer);
}

/// The same, finding codes by going through the stops: what a kiosk without a
/// heap would do.
pub fn read_by_scan(text: &[u8], runs: &mut [u32], codes: &mut [u32], answer: &mut [u32; 4]) {
    read_with::<ByScan>(text, runs, codes, answer);
}

fn read_with<'t, D: Directory<'t>>(
    text: &'t [u8],
    runs: &mut [u32],
    codes: &mut [u32],
    answer: &mut [u32; 4],
) {
    runs.fill(0);
    codes.fill(0);
    *answer = match lines::<D>(text, runs, codes) {
        Ok((stops, count)) => [0, stops, count, 0],
        Err(refusal) => {
            runs.fill(0);
            codes.fill(0);
            refusal.answer()
        }
    };
}

fn lines<'t, D: Directory<'t>>(
    text: &'t [u8],
    runs: &mut [u32],
    codes: &mut [u32],
) -> Result<(u32, u32), Refusal> {
    if runs.len() < 5 * MOST_RUNS || codes.len() < 2 * MOST_STOPS {
        return Err(Refusal::plain(17));
    }
    if text.len() > MOST_TEXT {
        return Err(Refusal::plain(8));
    }
    let Some(mut rest) = text.strip_prefix(b"timetable 1\n") else {
        return Err(Refusal::at(1, 1));
    };
    let mut stops = D::default();
    let mut count = 0;
    let mut line = 1;
    loop {
        line += 1;
        let refuse = |number| Err(Refusal::at(number, line));
        let Some(end) = rest.iter().position(|b| *b == b'\n') else {
            return refuse(2);
        };
        let this = &rest[..end];
        if let Some(fields) = this.strip_prefix(b"run ") {
            if stops.len() == 0 {
                return refuse(2);
            }
            let run = match run(fields, &stops) {
                Ok(run) => run,
                Err(number) => return refuse(number),
            };
            if count == MOST_RUNS {
                return refuse(8);
            }
            runs[5 * count..5 * count + 5].copy_from_slice(&run);
            count += 1;
        } else if let Some(code) = this.strip_prefix(b"stop ") {
            if count > 0 {
                return refuse(2);
            }
            if code.is_empty()
                || code.len() > MOST_CODE
                || code.iter().any(|b| !(33..=126).contains(b))
            {
                return refuse(3);
            }
            if stops.find(code).is_some() {
                return refuse(4);
            }
            if stops.len() == MOST_STOPS {
                return refuse(8);
            }
            let start = text.len() - rest.len() + 5;
            codes[2 * stops.len()] = start as u32;
            codes[2 * stops.len() + 1] = code.len() as u32;
            stops.add(code);
        } else if this == b"end" && stops.len() > 0 {
            if end + 1 < rest.len() {
                return Err(Refusal::at(2, line + 1));
            }
            return Ok((stops.len() as u32, count as u32));
        } else {
            return refuse(2);
        }
        rest = &rest[end + 1..];
    }
}

/// The five numbers of a run line after its word, or the refusal's number.
fn run<'t, D: Directory<'t>>(fields: &[u8], stops: &D) -> Result<[u32; 5], u32> {
    let mut fields = fields.split(|b| *b == b' ');
    let (Some(from), Some(to), Some(dep), Some(arr), Some(trip), None) =
        (fields.next(), fields.next(), fields.next(), fields.next(), fields.next(), fields.next())
    else {
        return Err(2);
    };
    let (dep, arr, trip) = (number(dep)?, number(arr)?, number(trip)?);
    let (Some(from), Some(to)) = (stops.find(from), stops.find(to)) else {
        return Err(5);
    };
    if from == to {
        return Err(6);
    }
    if dep >= arr || arr >= MINUTES as u32 || trip == 0 || trip > 65_535 {
        return Err(7);
    }
    Ok([from, to, dep, arr, trip])
}

/// 1 to 5 digits, no leading zero except "0" itself.
pub(crate) fn number(field: &[u8]) -> Result<u32, u32> {
    if field.is_empty() || field.len() > 5 || (field[0] == b'0' && field.len() > 1) {
        return Err(2);
    }
    field.iter().try_fold(0, |n, b| match b {
        b'0'..=b'9' => Ok(10 * n + (b - b'0') as u32),
        _ => Err(2),
    })
}

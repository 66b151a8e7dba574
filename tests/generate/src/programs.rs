//! Inputs of the program "journey": a timetable text and ask lines.

use crate::asks::{self, Kind};
use crate::days::Day;
use crate::texts;
use crate::Rng;

/// The line of an ask between two codes.
pub fn line(ask: asks::Ask, codes: &[Vec<u8>]) -> Vec<u8> {
    let word: &[u8] = match ask.kind {
        Kind::Early => b"early ",
        Kind::Late => b"late ",
        Kind::Short => b"short ",
    };
    let mut line = word.to_vec();
    for stop in [ask.from, ask.to] {
        match codes.get(stop as usize) {
            Some(code) => line.extend(code),
            None => line.extend(format!("{stop}").bytes()),
        }
        line.push(b' ');
    }
    line.extend(format!("{}", ask.t).bytes());
    if ask.kind == Kind::Short {
        line.extend(format!(" {}", ask.t2).bytes());
    }
    line.push(b'\n');
    line
}

/// An ask line with its shape damaged.
fn odd_line(rng: &mut Rng, good: &[u8]) -> Vec<u8> {
    let mut line = good.to_vec();
    let at = rng.below(line.len() as u32) as usize;
    match rng.below(8) {
        0 => line.insert(at, b' '),
        1 => {
            line.remove(at);
        }
        2 => line[at] = rng.pick(b" 0x\r\n\t~"),
        3 => line = rng.pick(&["\n", "end\n", "early\n", "early \n", " \n", "stop A\n"]).into(),
        4 => line.insert(line.len() - 1, rng.pick(b"0123456789 ")),
        5 => line = line.to_ascii_uppercase(),
        6 => line.extend(b"timetable 1\n"),
        _ => {
            line.pop();
        }
    }
    line
}

/// The input of a day with some asks, a few of them damaged.
pub fn input(rng: &mut Rng, day: &Day, count: u32) -> Vec<u8> {
    let codes = texts::codes(rng, day.stops);
    let minutes: Vec<u32> = day.runs.iter().flat_map(|r| [r[2], r[3]]).collect();
    let mut input = texts::text(day, &codes);
    for _ in 0..count {
        let ask = if rng.one_in(6) || day.stops < 2 {
            asks::odd(rng, day.stops, &minutes)
        } else {
            asks::good(rng, day.stops, &minutes)
        };
        let good = line(ask, &codes);
        let line = if rng.one_in(8) { odd_line(rng, &good) } else { good };
        input.extend(line);
    }
    input
}

/// An input of at most 65,536 bytes that can print tens of megabytes: a chain of
/// `rides` rides in the order of the marks on a ruler, and then `asks` asks for
/// all of it, or as many as there is room for.
pub fn much_output(rides: u32, asks: usize) -> Vec<u8> {
    let names: &[u8] = b"abcdefghijklmnop";
    let marks = 32 - (rides - 1).leading_zeros();
    let name = |minute: u32| -> char {
        let stop = match minute {
            0 => marks,
            m if m == rides => marks + 1,
            m => marks - 1 - m.trailing_zeros(),
        };
        names[stop as usize] as char
    };
    let mut text = String::from("timetable 1\n");
    for stop in 0..marks + 2 {
        text.push_str(&format!("stop {}\n", names[stop as usize] as char));
    }
    for m in 0..rides {
        text.push_str(&format!("run {} {} {} {} 1\n", name(m), name(m + 1), m, m + 1));
    }
    text.push_str("end\n");
    let ask = format!("early {} {} 0\n", name(0), name(rides));
    let room = (65_536 - text.len()) / ask.len();
    text.push_str(&ask.repeat(asks.min(room)));
    text.into_bytes()
}

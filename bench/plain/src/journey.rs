//! The program "journey": input bytes to output bytes.

use crate::read::number;
use crate::{ask_rides, build, read, Ask, BUILD_ROOM, MINUTES, MOST_RUNS, MOST_STOPS, RIDES_ROOM};
use std::io::Write;

const MOST_INPUT: usize = 65_536;

pub fn journey(input: &[u8]) -> Vec<u8> {
    if input.len() > MOST_INPUT {
        return b"no 8 0\n".to_vec();
    }
    // The timetable goes through the first line that is "end".
    let mut length = 0;
    for line in input.split_inclusive(|b| *b == b'\n') {
        length += line.len();
        if line == b"end\n" {
            break;
        }
    }
    let (text, asks) = input.split_at(length);
    let mut runs = vec![0; 5 * MOST_RUNS];
    let mut codes = vec![0; 2 * MOST_STOPS];
    let mut tables = vec![0; 2 + 4 * MOST_STOPS + 6 * 8_192];
    let mut work = vec![0; BUILD_ROOM.max(RIDES_ROOM)];
    let mut answer = [0; 4];
    read(text, &mut runs, &mut codes, &mut answer);
    let (stops, count) = (answer[1], answer[2]);
    if answer[0] == 0 {
        build(stops, count, &runs, &mut tables, &mut work, &mut answer);
    }
    if answer[0] != 0 {
        return format!("no {} {}\n", answer[0], answer[1]).into_bytes();
    }
    let tables = &tables[..answer[1] as usize];
    let names: Vec<&[u8]> = codes[..2 * stops as usize]
        .chunks_exact(2)
        .map(|c| &text[c[0] as usize..][..c[1] as usize])
        .collect();
    let mut list = vec![0; MINUTES];
    let mut printed = Vec::new();
    for line in asks.split_inclusive(|b| *b == b'\n') {
        let mut ask = |line: &[u8]| -> Result<[u32; 4], u32> {
            let line = line.strip_suffix(b"\n").ok_or(2u32)?;
            let fields: Vec<&[u8]> = line.split(|b| *b == b' ').collect();
            let asked = match fields[..] {
                [b"early", _, _, t] => Ask::Early(number(t)?),
                [b"late", _, _, t] => Ask::Late(number(t)?),
                [b"short", _, _, t, t2] => Ask::Short(number(t)?, number(t2)?),
                _ => return Err(2),
            };
            let stop = |code| names.iter().position(|n| *n == code).ok_or(5u32);
            let (from, to) = (stop(fields[1])? as u32, stop(fields[2])? as u32);
            let (list, work) = (&mut list, &mut work);
            let mut a = [0; 4];
            ask_rides(tables, stops, count, &runs, from, to, asked, list, work, &mut a);
            match a[0] {
                0 => Ok(a),
                number => Err(number),
            }
        };
        match ask(line) {
            Err(number) => writeln!(printed, "no {number}").unwrap(),
            Ok([_, dep, arr, rides]) => {
                writeln!(printed, "at {dep} {arr} {rides}").unwrap();
                for run in &list[..rides as usize] {
                    let r = &runs[5 * *run as usize..][..5];
                    printed.extend_from_slice(b"ride ");
                    printed.extend_from_slice(names[r[0] as usize]);
                    printed.push(b' ');
                    printed.extend_from_slice(names[r[1] as usize]);
                    writeln!(printed, " {} {} {}", r[2], r[3], r[4]).unwrap();
                }
            }
        }
    }
    printed
}

//! The example day of document 01: its text T, its tables, cases A to J.

use crate::asks::{Ask, Kind};
use crate::days::Day;

/// Input T.
pub const T: &[u8] = b"timetable 1
stop HUB
stop MOOR
stop QUAY-N
stop QUAY-S
run MOOR HUB 480 500 11
run HUB QUAY-N 500 530 12
run HUB QUAY-N 510 525 13
run QUAY-S MOOR 540 560 14
run MOOR QUAY-N 490 540 15
run HUB QUAY-S 505 520 16
end
";

/// The tables of T in hex, as document 01 prints them.
pub const TABLES_HEX: &str = "01 04 \
     00000000 01000100 00000200 01000100 \
     00E001F401FF 00F901300203 00FE010D02FF 01EA011C02FF 011C023002FF 00F9010802FF";

/// The stops of T by name.
pub const HUB: u32 = 0;
pub const MOOR: u32 = 1;
pub const QUAY_N: u32 = 2;
pub const QUAY_S: u32 = 3;

/// The numbers of T.
pub fn day() -> Day {
    Day {
        stops: 4,
        runs: vec![
            [MOOR, HUB, 480, 500, 11],
            [HUB, QUAY_N, 500, 530, 12],
            [HUB, QUAY_N, 510, 525, 13],
            [QUAY_S, MOOR, 540, 560, 14],
            [MOOR, QUAY_N, 490, 540, 15],
            [HUB, QUAY_S, 505, 520, 16],
        ],
    }
}

/// The tables of T, 54 bytes.
pub fn tables() -> Vec<u8> {
    from_hex(TABLES_HEX)
}

/// The bytes that a text in hex digits stands for.
pub fn from_hex(text: &str) -> Vec<u8> {
    let digits: Vec<u8> = text.bytes().filter(|b| !b.is_ascii_whitespace()).collect();
    digits
        .chunks(2)
        .map(|two| u8::from_str_radix(std::str::from_utf8(two).unwrap(), 16).unwrap())
        .collect()
}

/// One of the cases: on which day, what is asked, the answer with rides.
pub struct Case {
    pub name: &'static str,
    pub day: Day,
    pub ask: Ask,
    pub answer: [u32; 4],
    pub rides: Vec<u32>,
}

/// Cases A to J. Where document 01 names no runs, those listed are the only
/// journey with the pair.
pub fn cases() -> Vec<Case> {
    let case = |name, ask, answer: [u32; 4], rides: &[u32]| Case {
        name,
        day: day(),
        ask,
        answer,
        rides: rides.to_vec(),
    };
    let ask = |kind, from, to, t, t2| Ask { kind, from, to, t, t2 };
    let mut without_run_2 =
        case("J", ask(Kind::Early, MOOR, QUAY_N, 480, 0), [0, 480, 530, 2], &[0, 1]);
    without_run_2.day.runs.remove(2);
    vec![
        case("A", ask(Kind::Early, MOOR, QUAY_N, 480, 0), [0, 480, 525, 2], &[0, 2]),
        case("B", ask(Kind::Early, MOOR, QUAY_N, 481, 0), [0, 490, 540, 1], &[4]),
        case("C", ask(Kind::Late, MOOR, QUAY_N, 540, 0), [0, 490, 540, 1], &[4]),
        case("D", ask(Kind::Late, MOOR, QUAY_N, 539, 0), [0, 480, 525, 2], &[0, 2]),
        case("E", ask(Kind::Late, MOOR, QUAY_N, 524, 0), [16, 0, 0, 0], &[]),
        case("F", ask(Kind::Short, MOOR, QUAY_N, 480, 540), [0, 480, 525, 2], &[0, 2]),
        case("G", ask(Kind::Early, HUB, MOOR, 505, 0), [0, 505, 560, 2], &[5, 3]),
        case("H", ask(Kind::Early, HUB, MOOR, 506, 0), [16, 0, 0, 0], &[]),
        case("I", ask(Kind::Early, HUB, QUAY_N, 500, 0), [0, 510, 525, 1], &[2]),
        without_run_2,
    ]
}

/// What "journey" is given and what it prints.
pub fn program_input() -> Vec<u8> {
    [T, b"early MOOR QUAY-N 480\nlate MOOR QUAY-N 524\n"].concat()
}

pub const PROGRAM_OUTPUT: &[u8] = b"at 480 525 2
ride MOOR HUB 480 500 11
ride HUB QUAY-N 510 525 13
no 16
";

//! Inputs with the answers they must have, written out by hand from document 01
//! and the readings of it that the tests hold the software to.

use crate::asks::{Ask, Kind};
use crate::days::Day;
use crate::example::T;
use crate::tables::{Sets, NO_PIVOT};

/// A timetable text and the answer to reading it: [0, stops, runs, 0], or the
/// refusal and its line.
pub struct Text {
    pub text: Vec<u8>,
    pub answer: [u32; 4],
}

/// Texts made of two stops, A and B, and lines after them. Line 4 is the first
/// of those lines.
fn after_two_stops(lines: &str) -> Vec<u8> {
    format!("timetable 1\nstop A\nstop B\n{lines}").into_bytes()
}

pub fn texts() -> Vec<Text> {
    let mut all = Vec::new();
    let mut good = |text: Vec<u8>, stops: u32, runs: u32| {
        all.push(Text { text, answer: [0, stops, runs, 0] });
    };
    good(T.to_vec(), 4, 6);
    good(b"timetable 1\nstop A\nend\n".to_vec(), 1, 0);
    good(after_two_stops("end\n"), 2, 0);
    // Identical runs are allowed.
    good(after_two_stops("run A B 1 2 3\nrun A B 1 2 3\nend\n"), 2, 2);
    // The edges of every number.
    good(after_two_stops("run A B 0 2879 65535\nrun B A 2878 2879 1\nend\n"), 2, 2);
    // Codes at their longest, and codes that begin alike.
    good(codes(&[&[b'a'; 64]]), 1, 0);
    good(codes(&[b"!", b"~", b"!!", b"end", b"stop", b"run"]), 6, 0);
    let alike = |end: &str| [&[b'c'; 32][..], end.as_bytes()].concat();
    good(codes(&[&alike(""), &alike("1"), &alike("2"), &alike("12")]), 4, 0);
    good(many_stops(255, ""), 255, 0);
    good(many_runs(4_096, ""), 2, 4_096);

    let mut bad = |number: u32, line: u32, text: Vec<u8>| {
        all.push(Text { text, answer: [number, line, 0, 0] });
    };
    // Line 1 has only refusal 1.
    for text in [
        "",
        "\n",
        "t",
        "timetable 1",
        "timetable 1\r\n",
        "timetable 1 \n",
        "timetable  1\n",
        " timetable 1\n",
        "timetable 2\n",
        "timetable 11\n",
        "Timetable 1\n",
        "stop A\n",
        "end\n",
        "timetable\n1\n",
        "\ntimetable 1\nstop A\nend\n",
    ] {
        bad(1, 1, text.into());
    }
    // No end, at the line after the last; a line without LF, at its own.
    bad(2, 2, "timetable 1\n".into());
    bad(2, 3, "timetable 1\nstop A\n".into());
    bad(2, 4, after_two_stops(""));
    bad(2, 5, after_two_stops("run A B 1 2 3\n"));
    bad(2, 2, "timetable 1\nstop A".into());
    bad(2, 4, after_two_stops("end"));
    bad(2, 4, after_two_stops("run A B 1 2 3"));
    bad(2, 4, after_two_stops("run X B 9999 2 3"));
    bad(2, 4, after_two_stops("stop A"));
    bad(2, 4, after_two_stops("stop "));
    // Bytes after the end, at the line after it.
    for more in ["\n", "x", "end\n", "stop C\n", "run A B 1 2 3\n", "\0", " "] {
        bad(2, 5, after_two_stops(&format!("end\n{more}")));
    }
    // Out of place, before any other refusal of the line.
    bad(2, 2, "timetable 1\nend\n".into());
    bad(2, 2, "timetable 1\nrun A B 1 2 3\n".into());
    bad(2, 2, "timetable 1\ntimetable 1\nstop A\nend\n".into());
    bad(2, 4, after_two_stops("timetable 1\nend\n"));
    for late in ["stop C", "stop A", "stop ", "stop \u{7f}"] {
        bad(2, 5, after_two_stops(&format!("run A B 1 2 3\n{late}\nend\n")));
    }
    // No line of any kind.
    for line in [
        "",
        " ",
        "stop",
        "stopC",
        " stop C",
        "Stop C",
        "stop\tC",
        "end ",
        " end",
        "ends",
        "en",
        "run",
        "runA B 1 2 3",
        " run A B 1 2 3",
        "run\tA B 1 2 3",
        "end\r",
        "#",
        "\0",
    ] {
        bad(2, 4, after_two_stops(&format!("{line}\nend\n")));
    }
    // Codes that could be none: 3; then 4.
    for code in ["", " ", " C", "C ", "C D", "C\r", "C\t", "\u{7f}", "C\u{80}", "\u{1f}C", "\0"] {
        bad(3, 4, after_two_stops(&format!("stop {code}\nend\n")));
    }
    bad(3, 2, codes(&[&[b'a'; 65]]));
    bad(3, 3, codes(&[&[b'a'; 64], &[b'a'; 65]]));
    bad(4, 4, after_two_stops("stop A\nend\n"));
    bad(4, 4, after_two_stops("stop B\nend\n"));
    bad(4, 3, codes(&[&[b'a'; 64], &[b'a'; 64]]));
    // The shape of a run line: the word, five spaces, three number forms.
    for line in [
        "run ",
        "run A",
        "run A B 1 2",
        "run A B 1 2 ",
        "run A B 1 2 3 ",
        "run A B 1 2 3 4",
        "run A  B 1 2 3",
        "run  A B 1 2 3",
        "run A B  1 2 3",
        "run A B 1  2 3",
        "run A B 1  3",
        "run A B  2 3",
        "run A B 01 2 3",
        "run A B 1 02 3",
        "run A B 1 2 03",
        "run A B 00 2 3",
        "run A B 000000 2 3",
        "run A B 100000 2 3",
        "run A B 1 100000 3",
        "run A B 1 2 100000",
        "run A B 4294967297 2 3",
        "run A B 1 2 3\r",
        "run A B 1 2 3x",
        "run A B -1 2 3",
        "run A B +1 2 3",
        "run A B 1 2 0x3",
        "run A B 1,2,3",
        "run A B 08:05 2 3",
        "run X X 1 2 03",
        "run X B 1 2 03",
        "run A A 1 2 03",
    ] {
        bad(2, 4, after_two_stops(&format!("{line}\nend\n")));
    }
    // Then a stop that no line has, also one that could be no code.
    for line in [
        "run X B 1 2 3",
        "run A X 1 2 3",
        "run X X 1 2 3",
        "run  B 1 2 3",
        "run A  1 2 3",
        "run   1 2 3",
        "run a B 1 2 3",
        "run AB B 1 2 3",
        "run \u{7f} B 1 2 3",
        "run A\tB B 1 2 3",
        "run X X 2880 2 3",
        "run A X 2 1 0",
    ] {
        bad(5, 4, after_two_stops(&format!("{line}\nend\n")));
    }
    // Then a run to its own stop.
    bad(6, 4, after_two_stops("run A A 1 2 3\nend\n"));
    bad(6, 4, after_two_stops("run B B 2880 2 0\nend\n"));
    // Then numbers out of range, and DEP not before ARR.
    for line in [
        "run A B 2880 2881 3",
        "run A B 2879 2880 3",
        "run A B 0 2880 3",
        "run A B 2879 2879 3",
        "run A B 5 5 3",
        "run A B 5 4 3",
        "run A B 1 2 0",
        "run A B 1 2 65536",
        "run A B 1 2 99999",
        "run A B 99999 99999 3",
        "run A B 1 65537 3",
        "run A B 65536 65537 3",
    ] {
        bad(7, 4, after_two_stops(&format!("{line}\nend\n")));
    }
    // The first bad line decides.
    bad(7, 4, after_two_stops("run A B 2 1 3\nrun A A 1 2 3\nstop\n"));
    bad(2, 5, after_two_stops("run A B 1 2 3\nx\nrun A A 1 2 3\n"));
    // More than a limit, after all else of the line.
    bad(8, 257, many_stops(255, "stop last\n"));
    bad(3, 257, many_stops(255, "stop \n"));
    bad(4, 257, many_stops(255, "stop 0\n"));
    bad(4, 257, many_stops(255, "stop 254\n"));
    bad(2, 257, many_stops(255, "stop\n"));
    bad(8, 4_100, many_runs(4_096, "run A B 1 2 3\n"));
    bad(2, 4_100, many_runs(4_096, "run A B 1 2 03\n"));
    bad(5, 4_100, many_runs(4_096, "run A C 1 2 3\n"));
    bad(6, 4_100, many_runs(4_096, "run A A 1 2 3\n"));
    bad(7, 4_100, many_runs(4_096, "run A B 2 2 3\n"));
    bad(2, 4_100, many_runs(4_096, "run A B 1 2 3"));
    bad(2, 4_100, many_runs(4_096, "stop C\n"));
    // The text's length, before any line.
    bad(1, 1, vec![b'x'; 1_048_576]);
    bad(8, 0, vec![b'x'; 1_048_577]);
    bad(8, 0, [b"timetable 1\nstop A\nend\n", &vec![b'\n'; 1_048_577][..]].concat());
    all
}

/// A text of these stops and no runs.
fn codes(codes: &[&[u8]]) -> Vec<u8> {
    let mut text = b"timetable 1\n".to_vec();
    for code in codes {
        text.extend(b"stop ");
        text.extend(*code);
        text.push(b'\n');
    }
    text.extend(b"end\n");
    text
}

/// A text of `count` stops, "0" on, and a line after the last of them.
fn many_stops(count: u32, then: &str) -> Vec<u8> {
    let stops: String = (0..count).map(|i| format!("stop {i}\n")).collect();
    format!("timetable 1\n{stops}{then}end\n").into_bytes()
}

/// A text of two stops and `count` runs, and a line after the last of them.
fn many_runs(count: u32, then: &str) -> Vec<u8> {
    let runs = "run A B 1 2 3\n".repeat(count as usize);
    after_two_stops(&format!("{runs}{then}end\n"))
}

/// Given numbers and what is refused: the number and the place, 0 for good.
pub struct Numbers {
    pub stops: u32,
    pub run_count: u32,
    pub runs: Vec<u32>,
    pub refusal: (u32, u32),
}

pub fn numbers() -> Vec<Numbers> {
    let mut all = Vec::new();
    let mut add = |refusal, stops, run_count, runs: &[&[u32]]| {
        all.push(Numbers { stops, run_count, runs: runs.concat(), refusal });
    };
    let good: &[u32] = &[0, 1, 5, 6, 1];
    add((0, 0), 2, 0, &[]);
    add((0, 0), 1, 0, &[]);
    add((0, 0), 255, 1, &[&[254, 253, 0, 2_879, 65_535]]);
    add((0, 0), 2, 1, &[good]);
    // What stands beyond the runs is not read.
    add((0, 0), 2, 1, &[good, &[7, 7, 9, 8, 0, u32::MAX]]);
    // 8 before all else.
    for stops in [0, 256, 257, 65_537, u32::MAX] {
        add((8, 0), stops, 0, &[]);
        add((8, 0), stops, 1, &[&[9, 9]]);
    }
    for runs in [4_097, 65_536, 0x3333_3334, u32::MAX] {
        add((8, 0), 2, runs, &[]);
        add((8, 0), 2, runs, &[good]);
    }
    // 17 before any run is judged.
    add((17, 0), 2, 1, &[]);
    add((17, 0), 2, 1, &[&good[..4]]);
    add((17, 0), 2, 2, &[&[9, 9, 9, 9, 9], &good[..4]]);
    add((17, 0), 2, 4_096, &[good]);
    // Run by run 5, 6, 7.
    for stop in [2, 3, 255, 256, 65_536, 65_537, u32::MAX] {
        add((5, 1), 2, 2, &[good, &[stop, 1, 5, 6, 1]]);
        add((5, 1), 2, 2, &[good, &[0, stop, 5, 6, 1]]);
        add((5, 0), 2, 2, &[&[stop, stop, 9_999, 6, 0], &[0, 0, 5, 6, 1]]);
    }
    add((6, 0), 2, 1, &[&[1, 1, 5, 6, 1]]);
    add((6, 1), 2, 2, &[good, &[0, 0, 2_880, 6, 0]]);
    for (dep, arr, trip) in [
        (5, 5, 1),
        (6, 5, 1),
        (2_879, 2_880, 1),
        (2_880, 2_881, 1),
        (0, 2_880, 1),
        (2_879, 2_879, 1),
        (0, u32::MAX, 1),
        (u32::MAX, 5, 1),
        (65_537, 65_538, 1),
        (5, 6, 0),
        (5, 6, 65_536),
        (5, 6, 65_537),
        (5, 6, u32::MAX),
    ] {
        add((7, 1), 2, 3, &[good, &[0, 1, dep, arr, trip], &[2, 2, 2, 2, 2]]);
    }
    all
}

/// A day, and what is asked of its own tables.
pub struct Asked {
    pub why: &'static str,
    pub day: Day,
    pub ask: Ask,
    pub answer: [u32; 4],
    pub rides: Vec<u32>,
}

/// Days on which the natural program is wrong.
pub fn asked() -> Vec<Asked> {
    let early = |from, to, t| Ask { kind: Kind::Early, from, to, t, t2: 0 };
    vec![
        Asked {
            why: "waiting and riding to the hub and back have one pair: the hub takes it",
            day: Day {
                stops: 4,
                runs: vec![[1, 2, 0, 1, 1], [2, 0, 1, 2, 1], [0, 2, 2, 3, 1], [2, 3, 3, 4, 1]],
            },
            ask: early(1, 3, 0),
            answer: [0, 0, 4, 4],
            rides: vec![0, 1, 2, 3],
        },
        Asked {
            why: "a run gives no label when a higher stop has its pair: two rides are listed",
            day: Day { stops: 3, runs: vec![[1, 2, 0, 10, 1], [1, 0, 0, 5, 1], [0, 2, 5, 10, 1]] },
            ask: early(1, 2, 0),
            answer: [0, 0, 10, 2],
            rides: vec![1, 2],
        },
        Asked {
            why: "a run goes before a lower stop between with its pair: one ride is listed",
            day: Day { stops: 3, runs: vec![[0, 2, 0, 5, 1], [2, 1, 5, 10, 1], [0, 1, 0, 10, 1]] },
            ask: early(0, 1, 0),
            answer: [0, 0, 10, 1],
            rides: vec![2],
        },
        Asked {
            why: "of identical runs the lowest number is listed",
            day: Day {
                stops: 2,
                runs: vec![[0, 1, 4, 9, 1], [0, 1, 3, 8, 2], [0, 1, 3, 8, 1], [0, 1, 3, 8, 3]],
            },
            ask: early(0, 1, 0),
            answer: [0, 3, 8, 1],
            rides: vec![1],
        },
        Asked {
            why: "the pivot is the highest stop on any journey with the pair",
            day: Day {
                stops: 4,
                runs: vec![[0, 3, 0, 2, 1], [3, 1, 2, 9, 1], [0, 2, 0, 4, 1], [2, 1, 4, 9, 1]],
            },
            ask: early(0, 1, 0),
            answer: [0, 0, 9, 2],
            rides: vec![2, 3],
        },
        Asked {
            why: "of two shortest the one that leaves first",
            day: Day { stops: 2, runs: vec![[0, 1, 20, 25, 1], [0, 1, 10, 15, 1]] },
            ask: Ask { kind: Kind::Short, from: 0, to: 1, t: 0, t2: 2_879 },
            answer: [0, 10, 15, 1],
            rides: vec![1],
        },
        Asked {
            why: "late: of what leaves last, what arrives first",
            day: Day { stops: 2, runs: vec![[0, 1, 20, 27, 1], [0, 1, 20, 25, 1]] },
            ask: Ask { kind: Kind::Late, from: 0, to: 1, t: 2_879, t2: 0 },
            answer: [0, 20, 25, 1],
            rides: vec![1],
        },
    ]
}

/// Accepted tables that are not the rule's: a single label ties with a joined
/// pair and its ride is the one listed.
pub fn single_ties_with_joined() -> (Sets, Asked) {
    let mut sets = Sets::new(3);
    sets.add(1, 0, 0, 5, NO_PIVOT);
    sets.add(0, 2, 5, 10, NO_PIVOT);
    sets.add(1, 2, 0, 10, NO_PIVOT);
    sets.sort();
    let asked = Asked {
        why: "a single label goes before a joined pair",
        day: Day { stops: 3, runs: vec![[1, 0, 0, 5, 1], [0, 2, 5, 10, 1], [1, 2, 0, 10, 1]] },
        ask: Ask { kind: Kind::Early, from: 1, to: 2, t: 0, t2: 0 },
        answer: [0, 0, 10, 1],
        rides: vec![2],
    };
    (sets, asked)
}

/// Tables in which two hubs have one best pair: the lower is opened. When it
/// cannot be, no other is tried: 18.
pub fn hubs_tie(lower_opens: bool) -> (Sets, Asked) {
    let mut sets = Sets::new(4);
    sets.add(2, 0, 0, 4, NO_PIVOT);
    sets.add(0, 3, 5, 10, NO_PIVOT);
    sets.add(2, 1, 0, 5, NO_PIVOT);
    sets.add(1, 3, 5, 10, NO_PIVOT);
    sets.sort();
    let mut runs = vec![[2, 1, 0, 5, 1], [1, 3, 5, 10, 1], [2, 0, 0, 4, 1]];
    if lower_opens {
        runs.push([0, 3, 5, 10, 1]);
    }
    let asked = Asked {
        why: "then the lowest hub",
        day: Day { stops: 4, runs },
        ask: Ask { kind: Kind::Early, from: 2, to: 3, t: 0, t2: 0 },
        answer: if lower_opens { [0, 0, 10, 2] } else { [18, 0, 0, 0] },
        rides: if lower_opens { vec![2, 3] } else { vec![] },
    };
    (sets, asked)
}

/// An input of "journey" and what it prints.
pub struct Program {
    pub input: Vec<u8>,
    pub output: Vec<u8>,
}

pub fn programs() -> Vec<Program> {
    let mut all = vec![Program {
        input: crate::example::program_input(),
        output: crate::example::PROGRAM_OUTPUT.to_vec(),
    }];
    let t = String::from_utf8(T.to_vec()).unwrap();
    let mut add = |input: String, output: &str| {
        all.push(Program { input: input.into_bytes(), output: output.into() });
    };
    // A refused timetable prints its number and place, and nothing more.
    add(String::new(), "no 1 1\n");
    add("x".into(), "no 1 1\n");
    add("end\n".into(), "no 1 1\n");
    add("end\nearly A B 1\n".into(), "no 1 1\n");
    add("timetable 1\n".into(), "no 2 2\n");
    add("timetable 1\nend\nearly A B 1\n".into(), "no 2 2\n");
    add("timetable 1\nstop A\nend".into(), "no 2 3\n");
    add("timetable 1\nstop A\nstop A\nend\nearly A A 1\n".into(), "no 4 3\n");
    add("timetable 1\nstop A\nrun A B 1 2 3\nend\n".into(), "no 5 3\n");
    add("timetable 1\nstop A\nearly A A 1\nend\n".into(), "no 2 3\n");
    // Without an end line all of the input is the timetable.
    add("timetable 1\nstop A\nend \nearly A A 1\n".into(), "no 2 3\n");
    // No ask, no output.
    add(t.clone(), "");
    add("timetable 1\nstop A\nend\n".into(), "");
    // Every line has one answer; the last piece without LF is one too.
    let asks = |asks: &str| format!("{t}{asks}");
    add(asks("\n"), "no 2\n");
    add(asks("\n\n"), "no 2\nno 2\n");
    add(asks("e"), "no 2\n");
    add(asks("end\n"), "no 2\n");
    add(asks("end"), "no 2\n");
    add(asks("early MOOR QUAY-N 480"), "no 2\n");
    add(asks("early MOOR HUB 481"), "no 2\n");
    add(asks("early MOOR HUB 481\n"), "no 16\n");
    for ill in [
        "early",
        "early ",
        "early MOOR",
        "early MOOR HUB",
        "early MOOR HUB ",
        "early MOOR HUB 1 ",
        "early MOOR HUB 1 2",
        "late MOOR HUB 1 2",
        "short MOOR HUB 1",
        "short MOOR HUB 1 2 3",
        "early  MOOR HUB 1",
        " early MOOR HUB 1",
        "Early MOOR HUB 1",
        "earlyMOOR HUB 1",
        "early MOOR HUB 01",
        "early MOOR HUB 100000",
        "early MOOR HUB 1x",
        "early MOOR HUB -1",
        "short MOOR HUB 1 02",
        "short MOOR HUB 01 2",
        "early X X 00",
        "early MOOR HUB 1\r",
        "stop MOOR",
        "run MOOR HUB 1 2 3",
        "timetable 1",
    ] {
        add(asks(&format!("{ill}\n")), "no 2\n");
    }
    for unknown in [
        "early X HUB 1",
        "early HUB X 1",
        "early X X 99999",
        "early  HUB 1",
        "late HUB  1",
        "early   1",
        "short X HUB 2 1",
        "early hub MOOR 1",
        "early HUBS MOOR 1",
    ] {
        add(asks(&format!("{unknown}\n")), "no 5\n");
    }
    add(asks("early HUB HUB 2880\n"), "no 13\n");
    add(asks("short HUB HUB 2 1\n"), "no 13\n");
    add(asks("early HUB MOOR 2880\n"), "no 14\n");
    add(asks("late HUB MOOR 99999\n"), "no 14\n");
    add(asks("short HUB MOOR 2880 1\n"), "no 14\n");
    add(asks("short HUB MOOR 1 2880\n"), "no 14\n");
    add(asks("short HUB MOOR 2 1\n"), "no 15\n");
    add(asks("early HUB MOOR 2879\n"), "no 16\n");
    add(
        asks("early HUB MOOR 505\nx\nlate MOOR QUAY-N 540\nshort MOOR QUAY-N 480 540\n"),
        "at 505 560 2\nride HUB QUAY-S 505 520 16\nride QUAY-S MOOR 540 560 14\nno 2\n\
         at 490 540 1\nride MOOR QUAY-N 490 540 15\n\
         at 480 525 2\nride MOOR HUB 480 500 11\nride HUB QUAY-N 510 525 13\n",
    );
    // 65,536 bytes are held, 65,537 are not, whatever they are.
    let filled = |len: usize| format!("{t}{}", "\n".repeat(len - t.len()));
    add(filled(65_536), &"no 2\n".repeat(65_536 - t.len()));
    add(filled(65_537), "no 8 0\n");
    add("x".repeat(65_536), "no 1 1\n");
    add("x".repeat(65_537), "no 8 0\n");
    add("x".repeat(200_000), "no 8 0\n");
    all
}

/// The cases stored in `tests/vectors`, by name: NAME.in is the input, NAME.out
/// what it prints, written by hand from document 01.
pub fn stored_programs() -> Vec<(String, Program)> {
    let folder = std::path::Path::new(env!("CARGO_MANIFEST_DIR")).join("../vectors");
    let mut all = Vec::new();
    for entry in std::fs::read_dir(&folder).expect("the folder tests/vectors") {
        let path = entry.unwrap().path();
        if path.extension().is_some_and(|e| e == "in") {
            let name = path.file_stem().unwrap().to_string_lossy().into_owned();
            let output =
                std::fs::read(path.with_extension("out")).expect("an output for each input");
            all.push((name, Program { input: std::fs::read(&path).unwrap(), output }));
        }
    }
    all.sort_by(|a, b| a.0.cmp(&b.0));
    assert!(all.len() >= 25, "the cases are in tests/vectors");
    all
}

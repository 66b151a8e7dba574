//! The programs for people: stored cases, days from seeds against the oracle,
//! and files that cannot be used.
#![cfg(feature = "people")]

use generate::days::{self, Day};
use generate::tables::{self, Sets};
use generate::{each_seed, example, programs, texts, Rng};
use kiosk_tests::people::Folder;
use oracle::journey::split;
use oracle::kinds::{MOST_INPUT, MOST_TEXT};
use oracle::people::{asked, built, checked, long, MOST_TABLES};
use std::fs;
use std::path::Path;

#[track_caller]
fn same(said: &[u8], right: &[u8]) {
    assert_eq!(String::from_utf8_lossy(said), String::from_utf8_lossy(right));
}

#[track_caller]
fn check_is_right(text: &[u8], tables: &[u8]) -> Vec<u8> {
    let folder = Folder::new();
    folder.put("day", text);
    folder.put("tables", tables);
    let said = folder.run("tables_check", &["day", "tables"], b"");
    same(&said, &checked(text, tables));
    said
}

#[track_caller]
fn build_is_right(text: &[u8]) {
    let folder = Folder::new();
    folder.put("day", text);
    let (right, file) = built(text);
    same(&folder.run("tables_build", &["day", "tables"], b""), &right);
    assert_eq!(folder.get("tables"), file);
    let names: &[&str] = if file.is_some() { &["day", "tables"] } else { &["day"] };
    assert_eq!(folder.names(), names);
}

#[track_caller]
fn ask_is_right(text: &[u8], tables: &[u8], asks: &[u8]) {
    let folder = Folder::new();
    folder.put("day", text);
    folder.put("tables", tables);
    same(&folder.run("tables_ask", &["day", "tables"], asks), &asked(text, tables, asks));
}

/// Each folder of `tests/people` is a case: the words of its file `args`, the
/// program first; its `stdin`, if any; and the `stdout` that must come. The case
/// starts with the example day as `day.txt` and `day.tables`, and with its other
/// files. A file `NAME.hex` is `NAME` in hex digits; `NAME.after.hex` is what
/// `NAME` must be in the end.
#[test]
fn stored_cases() {
    let cases = Path::new(env!("CARGO_MANIFEST_DIR")).join("../people");
    let mut count = 0;
    for case in fs::read_dir(cases).unwrap() {
        let case = case.unwrap().path();
        let read = |name: &str| fs::read(case.join(name)).unwrap_or_default();
        let hex = |name: &str| example::from_hex(&String::from_utf8(read(name)).unwrap());
        let folder = Folder::new();
        folder.put("day.txt", example::T);
        folder.put("day.tables", &example::tables());
        let mut after = Vec::new();
        for file in fs::read_dir(&case).unwrap() {
            let name = file.unwrap().file_name().into_string().unwrap();
            match name.as_str() {
                "args" | "stdin" | "stdout" => {}
                _ => match (name.strip_suffix(".after.hex"), name.strip_suffix(".hex")) {
                    (Some(own), _) => after.push((own.to_string(), hex(&name))),
                    (None, Some(own)) => folder.put(own, &hex(&name)),
                    (None, None) => folder.put(&name, &read(&name)),
                },
            }
        }
        let args = String::from_utf8(read("args")).unwrap();
        let words: Vec<&str> = args.lines().collect();
        let said = folder.run(words[0], &words[1..], &read("stdin"));
        assert_eq!(
            String::from_utf8_lossy(&said),
            String::from_utf8_lossy(&read("stdout")),
            "{}",
            case.display()
        );
        for (name, bytes) in after {
            assert_eq!(folder.get(&name), Some(bytes), "{}: {name}", case.display());
        }
        count += 1;
    }
    assert!(count >= 12, "{count} cases");
}

fn text_of(rng: &mut Rng, day: &Day) -> Vec<u8> {
    let codes = texts::codes(rng, day.stops);
    texts::text(day, &codes)
}

#[test]
fn days_built_checked_and_asked() {
    each_seed("people::days", 150, |rng| {
        let day = days::small(rng);
        let count = rng.between(0, 30);
        let input = programs::input(rng, &day, count);
        let (text, asks) = split(&input);
        build_is_right(text);
        if let (_, Some(tables)) = built(text) {
            check_is_right(text, &tables);
            ask_is_right(text, &tables, asks);
        }
    });
}

#[test]
fn labels_missing_and_moved() {
    each_seed("people::labels", 150, |rng| {
        let day = days::small(rng);
        let text = text_of(rng, &day);
        let (_, Some(tables)) = built(&text) else { return };
        let sets = Sets::from_bytes(&tables);
        if sets.count() > 0 {
            let k = rng.below(sets.count() as u32) as usize;
            let fewer = sets.without(k).bytes();
            check_is_right(&text, &fewer);
            ask_is_right(&text, &fewer, b"early A B 0\n");
        }
        check_is_right(&text, &tables::nudged(rng, &sets).bytes());
    });
}

#[test]
fn arbitrary_tables() {
    each_seed("people::arbitrary", 150, |rng| {
        let (sets, day) = tables::arbitrary(rng);
        let text = text_of(rng, &day);
        check_is_right(&text, &sets.bytes());
        let other = days::tiny(rng);
        let text = text_of(rng, &other);
        check_is_right(&text, &sets.bytes());
    });
}

#[test]
fn damaged_files() {
    each_seed("people::damaged", 150, |rng| {
        let day = days::tiny(rng);
        let text = texts::damaged(rng, &day);
        build_is_right(&text);
        check_is_right(&text, &example::tables());
    });
    let tables = example::tables();
    for cut in 0..tables.len() {
        check_is_right(example::T, &tables[..cut]);
    }
    tables::damaged_labels(&tables, |bytes| {
        check_is_right(example::T, bytes);
    });
    // Both are refused: the tables' refusal goes before.
    same(&check_is_right(b"", b""), &checked(example::T, b""));
}

#[test]
fn too_many_labels() {
    let codes: Vec<Vec<u8>> = (0..12).map(|i| vec![b'a' + i]).collect();
    for labels in [8_192, 8_193] {
        build_is_right(&texts::text(&days::with_labels(labels), &codes));
    }
}

/// A text and tables of the greatest length, and of one byte more.
#[test]
fn long_files() {
    let tables = example::tables();
    for more in [0, 1, 2, 100_000] {
        let folder = Folder::new();
        let mut text = example::T.to_vec();
        text.resize(MOST_TEXT - 1 + more, b'x');
        text.push(b'\n');
        folder.put("day", &text);
        folder.put("tables", &tables);
        let right = [long("day", &text, MOST_TEXT), checked(&text, &tables)].concat();
        same(&folder.run("tables_check", &["day", "tables"], b""), &right);
        same(&folder.run("tables_ask", &["day", "tables"], b"early MOOR HUB 0\n"), &right);
        same(&folder.run("tables_build", &["day", "new"], b""), &right);
        assert_eq!(folder.get("new"), None);
    }
    for most in [MOST_TABLES, MOST_TABLES + 1, MOST_TABLES + 2, 200_000] {
        let folder = Folder::new();
        let mut bytes = tables.clone();
        bytes.resize(most, 0);
        folder.put("day", example::T);
        folder.put("tables", &bytes);
        let right = [long("tables", &bytes, MOST_TABLES), checked(example::T, &bytes)].concat();
        same(&folder.run("tables_check", &["day", "tables"], b""), &right);
        same(&folder.run("tables_ask", &["day", "tables"], b"early MOOR HUB 0\n"), &right);
    }
}

/// As many asks as the program holds, and one byte more; a text that is longer
/// than the asks may be.
#[test]
fn many_asks() {
    let mut asks = Vec::new();
    while asks.len() < MOST_INPUT {
        asks.extend(b"early MOOR QUAY-N 480\n");
    }
    for long in [MOST_INPUT - 1, MOST_INPUT, MOST_INPUT + 1, MOST_INPUT + 2] {
        asks.resize(long, b'\n');
        ask_is_right(example::T, &example::tables(), &asks);
    }
    let mut day = example::day();
    for i in 0..4_000 {
        day.runs.push([i % 4, (i + 1) % 4, i % 2_800, i % 2_800 + 40, 1 + i]);
    }
    let codes: Vec<Vec<u8>> = [b'H', b'M', b'N', b'S'].iter().map(|c| vec![*c; 40]).collect();
    let text = texts::text(&day, &codes);
    assert!(text.len() > MOST_INPUT);
    let (_, tables) = built(&text);
    let asks: Vec<u8> = (0..200)
        .flat_map(|t| {
            programs::line(generate::asks::good(&mut Rng::new(t), 4, &[0, 900, 1_800]), &codes)
        })
        .collect();
    ask_is_right(&text, &tables.unwrap(), &asks);
}

#[test]
fn files_that_cannot_be_used() {
    let folder = Folder::new();
    folder.put("day", example::T);
    folder.put("tables", &example::tables());
    fs::create_dir(folder.path("dir")).unwrap();
    for program in ["tables_check", "tables_ask", "tables_build"] {
        let says =
            |words: &[&str], right: &str| same(&folder.run(program, words, b""), right.as_bytes());
        for words in [&[][..], &["day"], &["day", "tables", "more"]] {
            says(words, &format!("usage: {program} TIMETABLE TABLES\n"));
        }
        says(&["none", "tables"], "cannot open none\n");
        says(&["dir", "tables"], "cannot read dir\n");
        says(&["", "tables"], "cannot open : the name is empty or too long\n");
    }
    for program in ["tables_check", "tables_ask"] {
        let says =
            |words: &[&str], right: &str| same(&folder.run(program, words, b""), right.as_bytes());
        says(&["day", "none"], "cannot open none\n");
        says(&["day", "dir"], "cannot read dir\n");
    }
}

const WRITTEN: &str = "written: 4 stops, 6 runs, 6 labels, 54 bytes\n";

/// What cannot be written leaves the file as it was, and nothing else.
#[test]
fn files_that_cannot_be_written() {
    let folder = Folder::new();
    folder.put("day", example::T);
    folder.put("bad", b"timetable 1\nend\n");
    folder.put("old", b"as it was");
    fs::create_dir(folder.path("dir")).unwrap();
    let build = |words: &[&str], right: &str| {
        same(&folder.run("tables_build", words, b""), right.as_bytes())
    };
    build(
        &["bad", "old"],
        "refused 2 at line 2 of the timetable: the line is missing or unfinished, or has no form that may stand here\n",
    );
    build(&["day", "dir"], "cannot make dir\n");
    build(&["day", "dir/none/tables"], "cannot make dir/none/tables\n");
    let name = "x".repeat(4_089);
    build(&["day", &name], &format!("cannot make {name}: the name is empty or too long\n"));
    build(&["day", ""], "cannot make : the name is empty or too long\n");
    build(&["day", "day"], "cannot make the tables: their name is the timetable's\n");
    assert_eq!(folder.get("day").unwrap(), example::T);
    // The system takes no byte of the file: it is full, as it were.
    let full = folder.shell("trap '' XFSZ; ulimit -f 0; exec $bin/tables_build day old");
    same(&full.stdout, b"cannot write old\n");
    same(&full.stderr, b"old: File too large\n");
    assert_eq!(folder.get("old").unwrap(), b"as it was");
    assert_eq!(folder.names(), ["bad", "day", "dir", "old"]);
}

/// Builds that were broken off, or that others are at: the next one takes another
/// name, and leaves theirs alone.
#[test]
fn first_names_that_are_taken() {
    let folder = Folder::new();
    folder.put("day", example::T);
    folder.put("new", b"as it was");
    let build = |right: &str| {
        same(&folder.run("tables_build", &["day", "new"], b""), right.as_bytes());
    };
    // Killed while it writes.
    let killed = folder.shell("ulimit -f 0; exec $bin/tables_build day new");
    assert!(!killed.status.success());
    assert_eq!(folder.names(), ["day", "new", "new.part00"]);
    assert_eq!(folder.get("new").unwrap(), b"as it was");
    build(WRITTEN);
    assert_eq!(folder.get("new").unwrap(), example::tables());
    assert_eq!(folder.names(), ["day", "new", "new.part00"]);
    for k in 0..100 {
        folder.put(&format!("new.part{k:02}"), b"half");
    }
    folder.put("new", b"as it was");
    fs::remove_file(folder.path("new.part99")).unwrap();
    build(WRITTEN);
    assert_eq!(folder.get("new").unwrap(), example::tables());
    assert_eq!(folder.get("new.part99"), None);
    folder.put("new.part99", b"half");
    folder.put("new", b"as it was");
    build("cannot make new: files of this name with .part00 to .part99 behind it are left over; remove them\n");
    assert_eq!(folder.get("new").unwrap(), b"as it was");
    for k in 0..100 {
        assert_eq!(folder.get(&format!("new.part{k:02}")).unwrap(), b"half");
    }
}

/// Many builds of one file at once: each is whole, whoever comes last.
#[test]
fn builds_at_once() {
    let folder = Folder::new();
    folder.put("day", example::T);
    let all = folder.shell("for i in {1..40}; do $bin/tables_build day new & done; wait");
    same(&all.stdout, WRITTEN.repeat(40).as_bytes());
    assert_eq!(folder.get("new").unwrap(), example::tables());
    assert_eq!(folder.names(), ["day", "new"]);
}

//! Ours against plain Rust: the same machine, the same bytes and slices, both
//! built for release. What counts is the ratio.
//!
//! Every call clears the buffers it is lent as part of its contract, ours and
//! plain alike; nothing is cleared outside the timed calls. Before an input is
//! timed the two are compared on it: the answer and every buffer.

mod measure;
mod ours;
mod report;

use generate::asks::{self, Ask, Kind, KINDS};
use generate::days::{self, Day};
use generate::tables::{self, Sets};
use generate::{example, slots, texts, Rng};
use measure::{row, Row};
use report::Growth;
use std::hint::black_box;

const TABLES: usize = 2 + 4 * 255 + 6 * 8_192;
const LIST: usize = 2_880;
const PASSES: usize = 4;

/// Prints the ratios; with the argument `write` also docs/BENCH.md and its plot.
fn main() -> std::io::Result<()> {
    println!("microseconds a call; ratio is ours by plain");
    let (mut rows, mut growth) = pass(1);
    for number in 2..=PASSES {
        let (again, grown) = pass(number);
        rows.iter_mut().zip(&again).for_each(|(row, again)| row.keep_least(again));
        growth.iter_mut().zip(&grown).for_each(|(point, again)| point.keep_least(again));
    }
    println!("the least of all passes");
    rows.iter().for_each(Row::print);
    for (entry, middle, worst) in report::ratios(&rows) {
        println!("{entry}: middle ratio {middle:.2}, worst ratio {worst:.2}");
    }
    if std::env::args().any(|word| word == "write") {
        std::fs::write("docs/BENCH.md", report::markdown(&rows, &growth))?;
        std::fs::write("docs/growth.svg", report::picture(&growth))?;
    }
    Ok(())
}

/// All rows, measured once.
fn pass(number: usize) -> (Vec<Row>, Vec<Growth>) {
    println!("pass {number} of {PASSES}");
    println!("{:<14} {:<44} {:>12} {:>12} {:>7}", "call", "input", "ours", "plain", "ratio");
    let mut rows = Vec::new();
    reads(&mut rows);
    builds(&mut rows);
    checks(&mut rows);
    asked(&mut rows);
    rides(&mut rows);
    (rows, [512, 1_024, 2_048, 4_096].map(growth).into())
}

fn reads(rows: &mut Vec<Row>) {
    let mut rng = Rng::new(1);
    let city = days::city(&mut rng);
    let short_codes: Vec<Vec<u8>> = (0..255).map(|i| format!("S{i}").into_bytes()).collect();
    let late_codes: Vec<Vec<u8>> = (0..255).map(slots::late_code).collect();
    let inputs = [
        ("T", example::T.to_vec()),
        ("city, short codes", texts::text(&city, &short_codes)),
        ("255 codes of 64 bytes, 4,096 runs", texts::greatest_good(&mut rng)),
        ("255 codes of 64 bytes that differ late", texts::text(&city, &late_codes)),
        ("255 codes of 64 bytes made for taken slots", texts::text(&city, &slots::codes(1 << 14))),
        ("1,048,576 bytes, refused at the last line", texts::filled_to(&mut rng, 1_048_576)),
    ];
    for (name, text) in &inputs {
        let buffers = || (vec![1u32; 20_480], vec![1u32; 510], [1u32; 4]);
        let (mut runs, mut codes, mut answer) = buffers();
        let (mut our_runs, mut our_codes, mut our_answer) = buffers();
        plain::read(text, &mut runs, &mut codes, &mut answer);
        let linked = ours::read(text, &mut our_runs, &mut our_codes, &mut our_answer);
        if linked {
            assert_eq!(our_answer, answer, "{name}");
            assert!(our_runs == runs && our_codes == codes, "{name}");
        }
        let mut ours = || {
            ours::read(black_box(text), &mut our_runs, &mut our_codes, &mut our_answer);
        };
        let by_hash = &mut || plain::read(black_box(text), &mut runs, &mut codes, &mut answer);
        rows.push(row("read", name.to_string(), by_hash, linked.then_some(&mut ours)));
        let by_scan =
            &mut || plain::read_by_scan(black_box(text), &mut runs, &mut codes, &mut answer);
        rows.push(row("read, scan", name.to_string(), by_scan, linked.then_some(&mut ours)));
    }
}

/// Days to build, with their names.
fn days_to_build() -> Vec<(String, Day)> {
    let mut rng = Rng::new(2);
    let shape = days::Shape { stops: 24, runs: 200, first: 300, last: 1_400, longest: 40 };
    vec![
        ("T".into(), example::day()),
        ("24 stops, 200 runs".into(), days::random(&mut rng, shape)),
        ("city: 255 stops, 4,096 runs".into(), days::city(&mut rng)),
        ("8,192 labels".into(), days::with_labels(8_192)),
        ("8,191 labels, 4 stops, 4,096 runs".into(), days::fullest()),
        ("4,096 runs at one stop pair".into(), days::one_pair(&mut rng)),
        ("many ties: 12 stops, 4,096 runs, 120 minutes".into(), days::many_ties(&mut rng)),
        ("4,096 runs at one minute".into(), days::one_minute(&mut rng)),
        ("chain of 2,879 rides".into(), days::chain()),
        ("shuttle: 4,096 runs there and back".into(), days::shuttle()),
        ("sprawl: 255 stops, 4,096 runs, refused".into(), days::sprawl(&mut rng)),
    ]
}

fn builds(rows: &mut Vec<Row>) {
    for (name, day) in days_to_build() {
        rows.push(build_row(name.clone(), &day));
        let runs = day.numbers();
        let (mut tables, mut answer) = (vec![1; TABLES], [1; 4]);
        let mut work = vec![1; ours::build_room()];
        let mut ours = || {
            ours::build(&day, black_box(&runs), &mut tables, &mut work, &mut answer);
        };
        let by_hubs = &mut by_hubs(&day);
        if !name.ends_with("refused") {
            let linked = cfg!(feature = "build").then_some(&mut ours as &mut dyn FnMut());
            rows.push(row("build, by hubs", name, by_hubs, linked));
        }
    }
}

/// The pruned search by hubs over a day.
fn by_hubs(day: &Day) -> impl FnMut() {
    let (stops, runs) = (day.stops as usize, day.numbers());
    move || {
        black_box(plain::labels_by_hubs(stops, black_box(&runs)));
    }
}

fn build_row(name: String, day: &Day) -> Row {
    let runs = day.numbers();
    let (mut tables, mut answer) = (vec![1; TABLES], [1; 4]);
    let (mut our_tables, mut our_answer) = (vec![1; TABLES], [1; 4]);
    let mut work = vec![1; plain::BUILD_ROOM];
    let mut our_work = vec![1; ours::build_room()];
    let (stops, count) = (day.stops, day.run_count());
    plain::build(stops, count, &runs, &mut tables, &mut work, &mut answer);
    let linked = ours::build(day, &runs, &mut our_tables, &mut our_work, &mut our_answer);
    if linked {
        assert_eq!(our_answer, answer, "{name}");
        assert!(our_tables == tables, "{name}");
    }
    let mut ours = || {
        let runs = black_box(&runs);
        ours::build(day, runs, &mut our_tables, &mut our_work, &mut our_answer);
    };
    let plain = &mut || {
        let runs = black_box(&runs);
        plain::build(stops, count, runs, &mut tables, &mut work, &mut answer);
    };
    row("build", name, plain, linked.then_some(&mut ours))
}

/// Build and check of the city with so many runs.
fn growth(runs: u32) -> Growth {
    let day = days::city_of(&mut Rng::new(7), runs);
    let name = format!("city with {runs} runs");
    let build = build_row(name.clone(), &day);
    let by_hubs = row("build, by hubs", name.clone(), &mut by_hubs(&day), None).plain;
    let check = check_row(name, own(&day), &day);
    Growth { runs, build, by_hubs, check }
}

/// The tables of a day, built by plain.
fn own(day: &Day) -> Vec<u8> {
    let (mut tables, mut work) = (vec![0; TABLES], vec![0; plain::BUILD_ROOM]);
    let mut answer = [0; 4];
    let runs = day.numbers();
    plain::build(day.stops, day.run_count(), &runs, &mut tables, &mut work, &mut answer);
    assert_eq!(answer[0], 0);
    tables.truncate(answer[1] as usize);
    tables
}

/// Hostile tables with a run for each label.
fn with_runs(sets: Sets) -> (Vec<u8>, Day) {
    let day = tables::a_run_each(&sets);
    (sets.bytes(), day)
}

fn checks(rows: &mut Vec<Row>) {
    let mut inputs: Vec<(String, Vec<u8>, Day)> = Vec::new();
    for (name, day) in days_to_build() {
        if !name.ends_with("refused") {
            inputs.push((name, own(&day), day));
        }
    }
    let (bytes, day) = with_runs(tables::one_stop(4_096));
    inputs.push(("4,096 labels at two stops, 4,096 runs".into(), bytes, day));
    let (bytes, day) = with_runs(tables::one_owner(4_096));
    inputs.push(("4,096 labels at one stop, 4,096 runs".into(), bytes, day));
    let (bytes, day) = with_runs(tables::star(4_096));
    inputs.push(("4,096 labels in a star, 4,096 runs".into(), bytes, day));
    let (bytes, day) = with_runs(tables::one_minute(4_096));
    inputs.push(("4,096 labels at one minute, 4,096 runs".into(), bytes, day));
    let (bytes, mut day) = with_runs(tables::one_minute(4_095));
    day.runs.insert(0, [0, 1, 1_000, 1_001, 1]);
    inputs.push(("4,095 labels at one minute, a gap at run 0".into(), bytes, day));
    for (name, bytes, day) in inputs {
        rows.push(check_row(name, bytes, &day));
    }
}

fn check_row(name: String, bytes: Vec<u8>, day: &Day) -> Row {
    let runs = day.numbers();
    let (mut answer, mut our_answer) = ([1; 4], [1; 4]);
    let mut work = vec![1; plain::CHECK_ROOM];
    let mut our_work = vec![1; ours::check_room()];
    let (stops, count) = (day.stops, day.run_count());
    plain::check(&bytes, stops, count, &runs, &mut work, &mut answer);
    let linked = ours::check(&bytes, day, &runs, &mut our_work, &mut our_answer);
    assert!(!linked || our_answer == answer, "{name}");
    let mut ours = || {
        ours::check(black_box(&bytes), day, &runs, &mut our_work, &mut our_answer);
    };
    let plain = &mut || {
        plain::check(black_box(&bytes), stops, count, &runs, &mut work, &mut answer);
    };
    row("check", name, plain, linked.then_some(&mut ours))
}

/// An ask as plain takes it.
fn plain_of(ask: Ask) -> plain::Ask {
    ask.said(plain::Ask::Early, plain::Ask::Late, plain::Ask::Short)
}

fn plain_ask(tables: &[u8], ask: Ask, answer: &mut [u32; 4]) {
    plain::ask(tables, ask.from, ask.to, plain_of(ask), answer);
}

fn name_of(kind: Kind, with_rides: bool) -> &'static str {
    match (kind, with_rides) {
        (Kind::Early, false) => "early",
        (Kind::Late, false) => "late",
        (Kind::Short, false) => "short",
        (Kind::Early, true) => "early_rides",
        (Kind::Late, true) => "late_rides",
        (Kind::Short, true) => "short_rides",
    }
}

/// Sixteen asks of a kind, that a row goes through in turn.
fn some_asks(sets: &Sets, kind: Kind) -> Vec<Ask> {
    let mut rng = Rng::new(4);
    let (n, minutes) = (sets.stops.len() as u32, tables::minutes(sets));
    let mut some = Vec::new();
    while some.len() < 16 {
        let ask = asks::good(&mut rng, n, &minutes);
        if ask.kind == kind {
            some.push(ask);
        }
    }
    some
}

/// The widest ask between two stops.
fn widest(kind: Kind, from: u32, to: u32) -> Vec<Ask> {
    let t = if kind == Kind::Late { 2_879 } else { 0 };
    vec![Ask { kind, from, to, t, t2: 2_879 }]
}

fn asked(rows: &mut Vec<Row>) {
    let mut rng = Rng::new(2);
    let t = example::tables();
    let city = own(&days::city(&mut rng));
    let full = own(&days::with_labels(8_192));
    let star = tables::star(8_192).bytes();
    let one_stop = tables::one_stop(8_192).bytes();
    let one_owner = tables::one_owner(8_192).bytes();
    // No stop has number 255: the whole file is judged, and then the answer is 12.
    let unknown = Ask { kind: Kind::Early, from: 255, to: 0, t: 0, t2: 0 };
    for (name, bytes) in [
        ("T", &t),
        ("city", &city),
        ("8,192 labels of the rule", &full),
        ("8,192 labels in a star", &star),
        ("8,192 labels at one stop", &one_owner),
        ("8,192 labels at two stops, joined", &one_stop),
    ] {
        rows.push(ask_row("judge", name, bytes, &[unknown]));
    }
    for kind in KINDS {
        let inputs = [
            ("T", &t, some_asks(&Sets::from_bytes(&t), kind)),
            ("city", &city, some_asks(&Sets::from_bytes(&city), kind)),
            ("8,192 labels of the rule", &full, some_asks(&Sets::from_bytes(&full), kind)),
            ("8,192 labels in a star", &star, some_asks(&Sets::from_bytes(&star), kind)),
            ("8,192 labels at one stop", &one_owner, widest(kind, 254, 0)),
            ("8,192 labels at two stops, joined", &one_stop, widest(kind, 254, 253)),
        ];
        for (name, bytes, some) in inputs {
            rows.push(ask_row(name_of(kind, false), name, bytes, &some));
        }
    }
}

/// These asks in turn.
fn ask_row(entry: &'static str, name: &str, bytes: &[u8], some: &[Ask]) -> Row {
    let (mut answer, mut our_answer) = ([1; 4], [1; 4]);
    let mut linked = false;
    for ask in some {
        plain_ask(bytes, *ask, &mut answer);
        linked = ours::ask(bytes, *ask, &mut our_answer);
        assert!(!linked || our_answer == answer, "{name}: {ask:?}");
    }
    let (mut i, mut j) = (0, 0);
    let mut ours = || {
        i = (i + 1) % some.len();
        ours::ask(black_box(bytes), some[i], &mut our_answer);
    };
    let plain = &mut || {
        j = (j + 1) % some.len();
        plain_ask(black_box(bytes), some[j], &mut answer);
    };
    row(entry, name.into(), plain, linked.then_some(&mut ours))
}

fn plain_rides(
    tables: &[u8],
    day: &Day,
    runs: &[u32],
    ask: Ask,
    list: &mut [u32],
    work: &mut [u16],
    answer: &mut [u32; 4],
) {
    let (stops, count) = (day.stops, day.run_count());
    let Ask { from, to, .. } = ask;
    plain::ask_rides(tables, stops, count, runs, from, to, plain_of(ask), list, work, answer);
}

fn rides(rows: &mut Vec<Row>) {
    let mut rng = Rng::new(2);
    let with_own = |day: Day| (own(&day), day);
    let t = with_own(example::day());
    let city = with_own(days::city(&mut rng));
    let full = with_own(days::with_labels(8_192));
    let chain = with_own(days::chain());
    let deep = |first| {
        let (sets, day) = tables::deep(first);
        (sets.bytes(), day)
    };
    let (deep_first, deep_second) = (deep(true), deep(false));
    let one_pair = with_own(days::one_pair(&mut rng));
    let one_minute = with_own(days::one_minute(&mut rng));
    for kind in KINDS {
        let some = |input: &(Vec<u8>, Day)| some_asks(&Sets::from_bytes(&input.0), kind);
        let ends = |(from, to)| widest(kind, from, to);
        let inputs = [
            ("T", &t, some(&t)),
            ("city", &city, some(&city)),
            ("8,192 labels of the rule", &full, some(&full)),
            ("4,096 runs at one stop pair", &one_pair, some(&one_pair)),
            ("4,096 runs at one minute", &one_minute, some(&one_minute)),
            ("chain of 2,879 rides", &chain, ends(days::CHAIN_ENDS)),
            ("2,879 rides, deep in first labels", &deep_first, ends(tables::deep_ends(true))),
            ("2,879 rides, deep in second labels", &deep_second, ends(tables::deep_ends(false))),
        ];
        for (name, (bytes, day), some) in inputs {
            let runs = day.numbers();
            let (mut list, mut work) = (vec![1; LIST], vec![1; plain::RIDES_ROOM]);
            let (mut our_list, mut our_work) = (vec![1; LIST], vec![1; ours::rides_room()]);
            let (mut answer, mut our_answer) = ([1; 4], [1; 4]);
            let mut linked = false;
            for ask in &some {
                plain_rides(bytes, day, &runs, *ask, &mut list, &mut work, &mut answer);
                linked = ours::ask_rides(
                    bytes,
                    day,
                    &runs,
                    *ask,
                    &mut our_list,
                    &mut our_work,
                    &mut our_answer,
                );
                assert!(!linked || our_answer == answer, "{name}: {ask:?}");
                assert!(!linked || our_list == list, "{name}: {ask:?}");
            }
            let (mut i, mut j) = (0, 0);
            let mut ours = || {
                i = (i + 1) % some.len();
                let bytes = black_box(bytes);
                let (list, work) = (&mut our_list, &mut our_work);
                ours::ask_rides(bytes, day, &runs, some[i], list, work, &mut our_answer);
            };
            let plain = &mut || {
                j = (j + 1) % some.len();
                let bytes = black_box(bytes);
                plain_rides(bytes, day, &runs, some[j], &mut list, &mut work, &mut answer);
            };
            rows.push(row(name_of(kind, true), name.into(), plain, linked.then_some(&mut ours)));
        }
    }
}

//! Tests of `kiosk_build`.

use crate::calls::{build, build_expecting, Given};
use crate::limits::{self, own};
use crate::Builds;
use generate::days::{self, Day};
use generate::{each_seed, example, vectors, Rng};

/// Room for any tables there can be, and some.
const ANY_TABLES: usize = 2 + 4 * 255 + 6 * 8_192 + 11;

pub fn example<S: Builds>() {
    let given = Given::new(&example::day());
    let (answer, tables) = ([0, 54, 6, 0], example::tables());
    build_expecting::<S>(&given, S::build_room(), (answer, tables.clone()));
    let mut longer = tables;
    longer.resize(90, 0);
    build_expecting::<S>(&given, S::build_room() + 3, (answer, longer));
}

/// Numbers with the refusals they must have, and days where the natural program
/// is wrong.
pub fn vectors<S: Builds>() {
    for v in vectors::numbers() {
        let given = Given { stops: v.stops, run_count: v.run_count, runs: v.runs };
        let answer = build::<S>(&given, ANY_TABLES, S::build_room());
        let refusal = if answer[0] == 0 { (0, 0) } else { (answer[0], answer[1]) };
        assert_eq!(refusal, v.refusal);
    }
    for asked in vectors::asked() {
        build::<S>(&Given::new(&asked.day), 300, S::build_room());
    }
    for case in example::cases() {
        build::<S>(&Given::new(&case.day), 300, S::build_room());
    }
}

/// 17 exactly when less working room, a shorter list or too few bytes are lent.
pub fn room<S: Builds>() {
    let needs = S::build_room();
    let good = Given::new(&example::day());
    let mut cut = good.clone();
    cut.runs.pop();
    let mut longer = good.clone();
    longer.runs.extend([u32::MAX, 0, 7, 7, 7, 7]);
    let mut bad = good.clone();
    bad.runs[28] = 9_999;
    let mut none = good.clone();
    none.stops = 0;
    for given in [&good, &cut, &longer, &bad, &none] {
        for room in [0, 1, needs / 2, needs.saturating_sub(1), needs, needs + 1, needs + 500] {
            for tables in [0, 1, 2, 18, 53, 54, 55, 1_000] {
                build::<S>(given, tables, room);
            }
        }
    }
}

/// Builds with the tables' exact length, and now and then with others.
fn built<S: Builds>(rng: &mut Rng, day: &Day) {
    let tables = own(day).map(|sets| sets.bytes());
    built_expecting::<S>(day, tables, rng.one_in(8));
}

/// The same where the rule's tables are known; none stands for 22.
fn built_expecting<S: Builds>(day: &Day, tables: Option<Vec<u8>>, each_length: bool) {
    let (given, room) = (Given::new(day), S::build_room());
    let (answer, mut tables) = match tables {
        None => ([22, 0, 0, 0], vec![0; 100]),
        Some(tables) => {
            let labels = (tables.len() - 2 - 4 * day.stops as usize) / 6;
            ([0, tables.len() as u32, labels as u32, 0], tables)
        }
    };
    build_expecting::<S>(&given, room, (answer, tables.clone()));
    if each_length {
        let length = tables.len();
        let too_short = if answer[0] == 0 { [17, 0, 0, 0] } else { answer };
        for short in [0, length / 2, length - 1] {
            build_expecting::<S>(&given, room, (too_short, vec![0; short]));
        }
        tables.resize(length + 100, 0);
        build_expecting::<S>(&given, room + 17, (answer, tables));
    }
}

pub fn tiny_days<S: Builds>() {
    each_seed("build::tiny_days", 8_000, |rng| {
        let day = days::tiny(rng);
        built::<S>(rng, &day);
    });
}

pub fn ties<S: Builds>() {
    each_seed("build::ties", 4_000, |rng| {
        let day = days::ties(rng);
        built::<S>(rng, &day);
    });
}

pub fn there_and_back<S: Builds>() {
    each_seed("build::there_and_back", 3_000, |rng| {
        let day = days::there_and_back(rng);
        built::<S>(rng, &day);
    });
}

pub fn middling_days<S: Builds>() {
    each_seed("build::middling_days", 400, |rng| {
        let day = days::middling(rng);
        built::<S>(rng, &day);
    });
}

/// Days around 256 runs, which a builder may take for small or for large.
pub fn few_and_many_runs<S: Builds>() {
    each_seed("build::few_and_many_runs", 60, |rng| {
        let (stops, runs) = (rng.between(2, 24), rng.between(253, 260));
        let shape = days::Shape { stops, runs, first: 0, last: 600, longest: 60 };
        let day = days::random(rng, shape);
        built::<S>(rng, &day);
    });
}

pub fn any_small_day<S: Builds>() {
    each_seed("build::any_small_day", 1_000, |rng| {
        let day = days::small(rng);
        built::<S>(rng, &day);
    });
}

pub fn damaged_numbers<S: Builds>() {
    each_seed("build::damaged_numbers", 6_000, |rng| {
        let day = days::ties(rng);
        let given = Given::damaged(rng, &day);
        build::<S>(&given, 2_000, S::build_room());
    });
}

pub fn counts_at_the_edges<S: Builds>() {
    let full = days::one_pair(&mut Rng::new(3)).numbers();
    for stops in days::STOP_COUNTS {
        for run_count in days::RUN_COUNTS {
            for len in [0, 4, 5, 20_474, 20_475, 20_479, 20_480] {
                // Long days that are good are built in another test.
                let good = (2..=255).contains(&stops) && run_count <= 4_096;
                if good && run_count > 1 && len as u32 >= 5 * run_count {
                    continue;
                }
                let given = Given { stops, run_count, runs: full[..len].to_vec() };
                build::<S>(&given, 10, S::build_room());
            }
        }
    }
}

pub fn label_limit<S: Builds>() {
    for (labels, known) in [(8_192, limits::full()), (8_193, limits::over_full())] {
        let count = known.sets.as_ref().map(|sets| sets.count());
        assert_eq!(count, (labels == 8_192).then_some(labels));
        let tables = known.sets.as_ref().map(|sets| sets.bytes());
        built_expecting::<S>(&known.day, tables, true);
    }
    for labels in [8_191, 8_194, 9_000] {
        let day = days::with_labels(labels);
        built_expecting::<S>(&day, own(&day).map(|sets| sets.bytes()), true);
    }
}

pub fn days_at_the_limits<S: Builds>() {
    for known in limits::all() {
        let tables = known.sets.as_ref().map(|sets| sets.bytes());
        built_expecting::<S>(&known.day, tables, true);
    }
    let mut rng = Rng::new(5);
    let long = days::Shape { stops: 3, runs: 4_096, first: 0, last: 2_879, longest: 2_879 };
    let wide = days::Shape { stops: 255, runs: 600, first: 0, last: 2_879, longest: 300 };
    for day in [days::shuttle(), days::random(&mut rng, long), days::random(&mut rng, wide)] {
        built::<S>(&mut rng, &day);
    }
}

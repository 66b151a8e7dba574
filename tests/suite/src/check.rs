//! Tests of `kiosk_check`.

use crate::calls::{check, Given};
use crate::limits::{self, own};
use crate::Checks;
use generate::days::{self, Day};
use generate::tables::{self, Sets, NO_PIVOT};
use generate::{each_seed, example, vectors, Rng};
use oracle::tables::judge_tables;

/// Tables of the rule with labels for some of the runs that have none: still
/// good and accepted, but not the rule's. Here single labels tie with joined
/// pairs.
pub fn with_labels_added(rng: &mut Rng, sets: &Sets, day: &Day) -> Sets {
    let mut more = sets.clone();
    for run in &day.runs {
        if rng.one_in(2) {
            let mut tried = more.clone();
            tried.add(run[0], run[1], run[2], run[3], NO_PIVOT);
            tried.sort();
            if judge_tables(&tried.bytes()).is_ok() {
                more = tried;
            }
        }
    }
    more
}

fn checked<S: Checks>(sets: &Sets, day: &Day) -> [u32; 4] {
    check::<S>(&sets.bytes(), &Given::new(day), S::check_room())
}

pub fn example<S: Checks>() {
    let day = example::day();
    let sets = Sets::from_bytes(&example::tables());
    assert_eq!(checked::<S>(&sets, &day), [0, 0, 0, 0]);
    assert_eq!(checked::<S>(&sets.without(5), &day), [19, 1, 0, 0]);
    assert_eq!(checked::<S>(&sets.without(3), &day), [20, 4, 2, 0]);
    for k in 0..6 {
        assert_ne!(checked::<S>(&sets.without(k), &day)[0], 0);
    }
}

pub fn vectors<S: Checks>() {
    let (sets, asked) = vectors::single_ties_with_joined();
    assert_eq!(checked::<S>(&sets, &asked.day), [0, 0, 0, 0]);
    for lower_opens in [true, false] {
        let (sets, asked) = vectors::hubs_tie(lower_opens);
        checked::<S>(&sets, &asked.day);
    }
    for asked in vectors::asked() {
        let sets = own(&asked.day).unwrap();
        assert_eq!(checked::<S>(&sets, &asked.day), [0, 0, 0, 0]);
    }
    for v in vectors::numbers() {
        let given = Given { stops: v.stops, run_count: v.run_count, runs: v.runs };
        // Tables without labels: only the numbers are judged, and then 21 or 20.
        let n = v.stops.clamp(1, 255);
        let answer = check::<S>(&Sets::new(n).bytes(), &given, S::check_room());
        if v.refusal.0 != 0 {
            assert_eq!((answer[0], answer[1]), v.refusal);
        }
    }
}

/// 17 exactly when less working room or a shorter list is lent.
pub fn room<S: Checks>() {
    let needs = S::check_room();
    let good = Given::new(&example::day());
    let mut cut = good.clone();
    cut.runs.pop();
    let mut longer = good.clone();
    longer.runs.extend([u32::MAX, 0, 7, 7, 7, 7]);
    for given in [&good, &cut, &longer] {
        for room in [0, 1, needs / 2, needs.saturating_sub(1), needs, needs + 1, needs + 500] {
            check::<S>(&example::tables(), given, room);
        }
    }
}

/// Tables, numbers and room each good or bad in every way, all together.
pub fn order_of_refusals<S: Checks>() {
    let t = example::tables();
    let mut eleven = t.clone();
    eleven[18] = 1;
    let unsupported = Sets::from_bytes(&t).without(5).bytes();
    let gap = Sets::from_bytes(&t).without(3).bytes();
    let givens = Given::with_each_fault();
    let needs = S::check_room();
    let tables: [&[u8]; 9] =
        [&t, &[], &[1], &[1, 0, 0], &t[..17], &t[..53], &eleven, &unsupported, &gap];
    for tables in tables {
        for given in &givens {
            for room in [needs.saturating_sub(1), needs] {
                check::<S>(tables, given, room);
            }
        }
    }
}

pub fn damaged_tables<S: Checks>() {
    let given = Given::new(&example::day());
    each_damage(|tables| {
        check::<S>(tables, &given, S::check_room());
    });
}

/// The tables of T damaged in every way there is, and great counts.
pub fn each_damage(mut see: impl FnMut(&[u8])) {
    let t = example::tables();
    tables::damaged_heads(&t, &mut see);
    tables::damaged_labels(&t, &mut see);
    let mut rng = Rng::new(11);
    for _ in 0..4 {
        let (sets, _) = tables::arbitrary(&mut rng);
        tables::disordered(&sets, &mut see);
        tables::damaged_labels(&sets.bytes(), &mut see);
    }
    tables::disordered(&Sets::from_bytes(&t), &mut see);
    for bytes in tables::great_counts() {
        see(&bytes);
    }
}

pub fn own_tables<S: Checks>() {
    each_seed("check::own_tables", 1_500, |rng| {
        let day = days::small(rng);
        if let Some(sets) = own(&day) {
            assert_eq!(checked::<S>(&sets, &day), [0, 0, 0, 0]);
        }
    });
}

pub fn every_label_removed<S: Checks>() {
    each_seed("check::every_label_removed", 200, |rng| {
        let day = if rng.one_in(3) { days::there_and_back(rng) } else { days::ties(rng) };
        let sets = own(&day).unwrap();
        for k in 0..sets.count() {
            assert_ne!(checked::<S>(&sets.without(k), &day)[0], 0);
        }
        // And several at once.
        let mut fewer = sets;
        while fewer.count() > 0 && !rng.one_in(4) {
            fewer = fewer.without(rng.below(fewer.count() as u32) as usize);
            assert_ne!(checked::<S>(&fewer, &day)[0], 0);
        }
    });
}

pub fn nudged_labels<S: Checks>() {
    each_seed("check::nudged_labels", 3_000, |rng| {
        let day = days::small(rng);
        if let Some(sets) = own(&day) {
            for _ in 0..4 {
                checked::<S>(&tables::nudged(rng, &sets), &day);
            }
        }
    });
}

pub fn labels_added<S: Checks>() {
    each_seed("check::labels_added", 800, |rng| {
        let day = if rng.one_in(2) { days::ties(rng) } else { days::there_and_back(rng) };
        let sets = with_labels_added(rng, &own(&day).unwrap(), &day);
        assert_eq!(checked::<S>(&sets, &day), [0, 0, 0, 0]);
    });
}

/// Tables of one day checked against a day that differs a little.
pub fn other_days<S: Checks>() {
    each_seed("check::other_days", 2_000, |rng| {
        let day = days::ties(rng);
        let sets = own(&day).unwrap();
        for _ in 0..3 {
            let mut other = day.clone();
            for _ in 0..rng.between(1, 2) {
                let at = rng.below(other.run_count()) as usize;
                match rng.below(3) {
                    0 if other.runs.len() > 1 => {
                        other.runs.remove(at);
                    }
                    1 => {
                        let shape = days::Shape {
                            stops: day.stops,
                            runs: 1,
                            first: 0,
                            last: 15,
                            longest: 3,
                        };
                        let extra = days::random(rng, shape).runs[0];
                        other.runs.insert(at, extra);
                    }
                    _ => {
                        let run = &mut other.runs[at];
                        run[3] = (run[3] + rng.below(3)).saturating_sub(1).max(run[2] + 1);
                    }
                }
            }
            checked::<S>(&sets, &other);
        }
    });
}

pub fn arbitrary_tables<S: Checks>() {
    each_seed("check::arbitrary_tables", 4_000, |rng| {
        let (sets, day) = tables::arbitrary(rng);
        checked::<S>(&sets, &day);
        // Every label a run, so that gaps decide.
        let mut flat = sets;
        for label in flat.stops.iter_mut().flatten().flatten() {
            label.pivot = NO_PIVOT;
        }
        let day = tables::runs_for(rng, &flat, 1_000);
        checked::<S>(&flat, &day);
    });
}

pub fn damaged_numbers<S: Checks>() {
    each_seed("check::damaged_numbers", 4_000, |rng| {
        let day = days::ties(rng);
        let sets = own(&day).unwrap();
        let given = Given::damaged(rng, &day);
        check::<S>(&sets.bytes(), &given, S::check_room());
    });
}

pub fn tables_at_the_limits<S: Checks>() {
    let mut rng = Rng::new(9);
    for (day, sets) in limits::with_tables() {
        assert_eq!(checked::<S>(sets, day), [0, 0, 0, 0]);
        let k = sets.count() - 1;
        assert_ne!(checked::<S>(&sets.without(k / 2), day)[0], 0);
    }
    // All labels at two stops, in a star or of one owner, each with its run.
    for sets in [tables::one_stop(4_096), tables::star(4_096), tables::one_owner(4_096)] {
        let day = tables::a_run_each(&sets);
        checked::<S>(&sets, &day);
    }
    // More labels than there can be runs; tables that open very deep.
    for sets in [tables::one_stop(8_192), tables::star(8_192), tables::deep(true).0] {
        let day = tables::runs_for(&mut rng, &sets, u32::MAX);
        checked::<S>(&sets, &day);
    }
}

//! The oracle's ways to the same thing, against each other.

use generate::days::{self, Day as Drawn};
use generate::{asks, each_seed, tables, Rng};
use oracle::journeys::{self, Ask, Pair};
use oracle::kinds::{judge_numbers, Day};
use oracle::tables::judge_tables;
use oracle::{rides, rule, verdict};
use std::collections::BTreeSet;

fn judged(day: &Drawn) -> Day {
    judge_numbers(day.stops, day.run_count(), &day.numbers(), true).unwrap()
}

fn ends(stops: usize) -> impl Iterator<Item = (usize, usize)> {
    (0..stops).flat_map(move |u| (0..stops).map(move |v| (u, v))).filter(|(u, v)| u != v)
}

fn some_ask(rng: &mut Rng, last: u32) -> Ask {
    let (x, y) = (rng.between(0, last), rng.between(0, last));
    match rng.pick(&asks::KINDS) {
        asks::Kind::Early => Ask::Early { t: x },
        asks::Kind::Late => Ask::Late { t: x },
        asks::Kind::Short => Ask::Short { t: x.min(y), t2: x.max(y) },
    }
}

#[test]
fn enumeration_boarding_relaxation() {
    each_seed("enumeration_boarding_relaxation", 3_000, |rng| {
        let day = judged(&days::tiny(rng));
        let all = journeys::all_journeys(&day);
        for (u, v) in ends(day.stops) {
            let listed: BTreeSet<Pair> = all
                .iter()
                .filter(|j| {
                    let stops = journeys::stops_of(&day, j);
                    stops[0] == u && stops[stops.len() - 1] == v
                })
                .map(|j| journeys::pair_of(&day, j))
                .collect();
            let boarded = journeys::pairs(&day, u, v);
            assert_eq!(listed, boarded, "{day:?} {u} {v}");
            let front = &journeys::front(&day, u)[v];
            assert!(front.is_subset(&boarded));
            assert_eq!(journeys::undominated(&boarded), journeys::undominated(front));
            for _ in 0..6 {
                let ask = some_ask(rng, 10);
                assert_eq!(ask.best(boarded.clone()), journeys::answer(&day, ask, u, v));
            }
        }
    });
}

#[test]
fn boarding_and_relaxation_on_larger_days() {
    each_seed("boarding_and_relaxation_on_larger_days", 60, |rng| {
        let day = judged(&days::ties(rng));
        for u in 0..day.stops {
            let fronts = journeys::front(&day, u);
            for v in (0..day.stops).filter(|v| *v != u) {
                let pairs = journeys::pairs(&day, u, v);
                assert_eq!(journeys::undominated(&pairs), journeys::undominated(&fronts[v]));
                for t in 0..15 {
                    // What the relaxed minutes say, from the pairs.
                    let least = pairs.iter().filter(|p| p.0 >= t).map(|p| p.1).min();
                    assert_eq!(journeys::earliest_from(&day, u, t)[v], least);
                    let latest = pairs.iter().filter(|p| p.1 <= t).map(|p| p.0).max();
                    assert_eq!(journeys::latest_to(&day, v, t)[u], latest);
                }
            }
        }
    });
}

#[test]
fn the_rule_two_ways() {
    each_seed("the_rule_two_ways", 6_000, |rng| {
        let mut drawn = if rng.one_in(3) { days::there_and_back(rng) } else { days::tiny(rng) };
        drawn.runs.truncate(10);
        let day = judged(&drawn);
        assert_eq!(rule::labels_by_enumeration(&day), rule::labels(&day), "{day:?}");
    });
}

#[test]
fn the_rules_tables_are_good_accepted_and_answer_alike() {
    each_seed("the_rules_tables_are_good", 250, |rng| {
        let day = judged(&days::small(rng));
        let Ok(tables) = rule::tables(&day) else { return };
        assert_eq!(judge_tables(&tables.bytes()).as_ref(), Ok(&tables));
        assert_eq!(verdict::check(&tables, &day), Ok(()));
        if day.stops < 2 {
            return;
        }
        for _ in 0..20 {
            let u = rng.below(day.stops as u32) as usize;
            let v = (u + rng.between(1, day.stops as u32 - 1) as usize) % day.stops;
            let ask = some_ask(rng, 2_879);
            let ask = if rng.one_in(2) { some_ask(rng, 20) } else { ask };
            let answer = journeys::answer(&day, ask, u, v);
            assert_eq!(tables.ask(ask, u, v), answer, "{day:?} {ask:?} {u} {v}");
            let Some(pair) = answer else { continue };
            let sketch = tables.chosen(ask, u, v).unwrap();
            assert_eq!(sketch.pair(), pair);
            let rides = rides::of_sketch(&tables, &day, &sketch).unwrap();
            let list: Vec<usize> = rides.iter().map(|r| *r as usize).collect();
            for two in list.windows(2) {
                let (before, next) = (day.runs[two[0]], day.runs[two[1]]);
                assert!(before.to == next.from && before.arr <= next.dep);
            }
            assert_eq!(journeys::pair_of(&day, &list), pair);
            let stops = journeys::stops_of(&day, &list);
            assert_eq!((stops[0], stops[stops.len() - 1]), (u, v));
        }
    });
}

#[test]
fn no_label_to_spare() {
    each_seed("no_label_to_spare", 150, |rng| {
        let day = judged(&days::ties(rng));
        let tables = rule::tables(&day).unwrap();
        let sets = tables::Sets::from_bytes(&tables.bytes());
        for k in 0..tables.labels.len() {
            let fewer = judge_tables(&sets.without(k).bytes()).unwrap();
            assert!(verdict::check(&fewer, &day).is_err());
        }
    });
}

#[test]
fn order_of_runs_does_not_matter() {
    each_seed("order_of_runs_does_not_matter", 100, |rng| {
        let mut drawn = days::small(rng);
        let before = rule::labels(&judged(&drawn));
        rng.shuffle(&mut drawn.runs);
        assert_eq!(rule::labels(&judged(&drawn)), before);
    });
}

#[test]
fn arrivals_are_the_early_ask() {
    each_seed("arrivals_are_the_early_ask", 300, |rng| {
        let (sets, _) = tables::arbitrary(rng);
        let tables = judge_tables(&sets.bytes()).unwrap();
        let mut arrivals = verdict::Arrivals::new(&tables);
        for (u, v) in ends(tables.stops) {
            for _ in 0..5 {
                let last = rng.pick(&[40, 2_880]);
                let t = rng.below(last);
                let early = tables.ask(Ask::Early { t }, u, v);
                assert_eq!(arrivals.early(u, v, t), early.map(|p| p.1));
            }
        }
    });
}

#[test]
fn larger_days_keep_their_promises() {
    let mut rng = Rng::new(1);
    let city = judged(&days::city(&mut rng));
    assert_eq!((city.stops, city.runs.len()), (255, 4_096));
    let labels = rule::labels(&city).len();
    assert!((6_000..=8_192).contains(&labels), "{labels}");
    assert!(rule::tables(&judged(&days::sprawl(&mut rng))).is_err());
    let fullest = judged(&days::fullest());
    assert_eq!((fullest.runs.len(), rule::labels(&fullest).len()), (4_096, 8_191));
    for labels in [0, 1, 45, 1_000, 8_191, 8_192, 8_193] {
        assert_eq!(rule::labels(&judged(&days::with_labels(labels))).len(), labels as usize);
    }
}

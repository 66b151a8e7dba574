//! The oracle against everything document 01 and the readings of it state as an
//! input and an answer.

use generate::asks::Kind;
use generate::example::{self, T};
use generate::tables::Sets;
use generate::{days, tables, vectors};
use oracle::calls::{self, Numbers, Room};
use oracle::journeys::{self, Ask};
use oracle::kinds::{judge_numbers, Day, Refusal};
use oracle::tables::judge_tables;
use oracle::{journey, rule, text, verdict};

const ENOUGH: Room = Room { lent: 0, needs: 0 };

fn day_of(day: &days::Day) -> Day {
    judge_numbers(day.stops, day.run_count(), &day.numbers(), true).unwrap()
}

fn ask_of(ask: generate::asks::Ask) -> Ask {
    ask.said(|t| Ask::Early { t }, |t| Ask::Late { t }, |t, t2| Ask::Short { t, t2 })
}

/// Asks tables with rides into a list with room to spare; the rest must be zero.
fn with_rides(tables: &[u8], day: &days::Day, ask: generate::asks::Ask) -> ([u32; 4], Vec<u32>) {
    let numbers = day.numbers();
    let numbers = Numbers { stops: day.stops, run_count: day.run_count(), runs: &numbers };
    let (answer, mut list) =
        calls::ask_rides(tables, numbers, ask_of(ask), ask.from, ask.to, 3_000, ENOUGH);
    let rest = list.split_off(answer[3] as usize);
    assert!(rest.iter().all(|n| *n == 0));
    (answer, list)
}

#[test]
fn example_text_and_tables() {
    let read = text::read(T).unwrap();
    assert_eq!(read.day(), day_of(&example::day()));
    assert_eq!(read.code(T, 2), b"QUAY-N");
    let (answer, runs, codes) = calls::read(T, 20_480, 510);
    assert_eq!(answer, [0, 4, 6, 0]);
    assert_eq!(runs[..5], [1, 0, 480, 500, 11]);
    assert_eq!(runs[30..], vec![0; 20_450]);
    assert_eq!(codes[..8], [17, 3, 26, 4, 36, 6, 48, 6]);
    assert_eq!(codes[8..], vec![0; 502]);

    assert_eq!(example::tables().len(), 54);
    let tables = rule::tables(&read.day()).unwrap();
    assert_eq!(tables.bytes(), example::tables());
    assert_eq!(judge_tables(&example::tables()).unwrap(), tables);
    assert_eq!(rule::labels_by_enumeration(&read.day()), tables.labels);
    assert_eq!(verdict::check(&tables, &read.day()), Ok(()));
}

#[test]
fn cases_a_to_j() {
    for case in example::cases() {
        let day = day_of(&case.day);
        let tables = rule::tables(&day).unwrap();
        let (u, v) = (case.ask.from as usize, case.ask.to as usize);
        let ask = ask_of(case.ask);
        let pair = (case.answer[0] == 0).then_some((case.answer[1], case.answer[2]));
        assert_eq!(journeys::answer(&day, ask, u, v), pair, "{}", case.name);
        assert_eq!(ask.best(journeys::pairs(&day, u, v)), pair, "{}", case.name);
        assert_eq!(tables.ask(ask, u, v), pair, "{}", case.name);
        let listed = with_rides(&tables.bytes(), &case.day, case.ask);
        assert_eq!(listed, (case.answer, case.rides), "{}", case.name);
    }
}

#[test]
fn texts() {
    for vector in vectors::texts() {
        let (answer, _, _) = calls::read(&vector.text, 20_480, 510);
        let shown = String::from_utf8_lossy(&vector.text[..vector.text.len().min(200)]);
        assert_eq!(answer, vector.answer, "{shown:?}");
    }
}

#[test]
fn reader_room() {
    for (runs, codes) in [(20_479, 510), (20_480, 509), (0, 0)] {
        // 17 whatever the text holds, also before the text's length.
        for text in [T, b"", &[b'x'; 1_048_577]] {
            assert_eq!(
                calls::read(text, runs, codes),
                ([17, 0, 0, 0], vec![0; runs], vec![0; codes])
            );
        }
    }
    let (answer, runs, codes) = calls::read(T, 20_485, 517);
    assert_eq!((answer, runs.len(), codes.len()), ([0, 4, 6, 0], 20_485, 517));
}

#[test]
fn given_numbers() {
    for v in vectors::numbers() {
        let judged = judge_numbers(v.stops, v.run_count, &v.runs, true);
        let refusal = judged.err().map_or((0, 0), |r| (r.number, r.place));
        assert_eq!(refusal, v.refusal, "{} {} {:?}", v.stops, v.run_count, v.runs);
    }
    // Working room stands with the list's 17: after 8, before 5.
    assert_eq!(judge_numbers(0, 0, &[], false), Err(Refusal::plain(8)));
    assert_eq!(judge_numbers(2, 1, &[7, 7, 7, 7, 7], false), Err(Refusal::plain(17)));
}

#[test]
fn tables_at_their_limits() {
    let mut judged = Vec::new();
    for bytes in tables::great_counts() {
        judged.push(judge_tables(&bytes).map(|t| t.labels.len()).map_err(|r| r.number));
    }
    let (wrapped, near) = judged.split_at(12);
    assert_eq!(wrapped, vec![Err(10); 12]);
    assert_eq!(near[..3], [Ok(8_191); 3]);
    assert_eq!(near[3..6], [Ok(8_192); 3]);
    assert_eq!(near[6..], [Err(10); 6]);
    for (bytes, number) in [
        (&[][..], 9),
        (&[1], 9),
        (&[1, 0], 9),
        (&[0, 1, 0, 0, 0, 0], 9),
        (&[2, 1, 0, 0, 0, 0], 9),
        (&[1, 1], 10),
        (&[1, 1, 0, 0, 0], 10),
        (&[1, 1, 0, 0, 0, 0, 0], 10),
        (&[1, 1, 1, 0, 0, 0], 10),
    ] {
        assert_eq!(judge_tables(bytes), Err(Refusal::plain(number)), "{bytes:?}");
    }
    assert!(judge_tables(&[1, 1, 0, 0, 0, 0]).unwrap().labels.is_empty());
    // A first stop has no hub below it, so any label of it is not good.
    assert_eq!(judge_tables(&[1, 1, 1, 0, 0, 0, 0, 1, 0, 2, 0, 255]), Err(Refusal::at(11, 0)));
}

#[test]
fn labels_not_good() {
    // Three stops; two out-labels and an in-label of stop 2.
    let good = [
        1, 3, 0, 0, 0, 0, 0, 0, 0, 0, 2, 0, 1, 0, // contents
        0, 1, 0, 3, 0, 255, 0, 2, 0, 4, 0, 1, 0, 0, 0, 1, 0, 255,
    ];
    assert_eq!(judge_tables(&good).unwrap().labels.len(), 3);
    let labels = 14;
    let changed = |k: usize, field: usize, value: u8| {
        let mut bytes = good;
        bytes[labels + 6 * k + field] = value;
        judge_tables(&bytes).map(|_| ()).map_err(|r| (r.number, r.place))
    };
    let bad = |k| Err((11, k));
    assert_eq!(changed(0, 0, 2), bad(0)); // hub not below the owner
    assert_eq!(changed(0, 0, 1), bad(1)); // then label 1's hub falls
    assert_eq!(changed(0, 1, 3), bad(0)); // departure at the arrival
    assert_eq!(changed(0, 1, 2), bad(1)); // then label 1's departure does not rise
    assert_eq!(changed(0, 3, 4), bad(1)); // then label 1's arrival does not rise
    assert_eq!(changed(1, 4, 11), Ok(())); // arrival 4 + 2,816
    assert_eq!(changed(1, 4, 12), bad(1)); // arrival 4 + 3,072
    assert_eq!(changed(1, 5, 0), bad(1)); // pivot not above the hub
    assert_eq!(changed(1, 5, 2), bad(1)); // pivot the owner
    assert_eq!(changed(1, 5, 3), bad(1)); // pivot no stop
    assert_eq!(changed(1, 5, 254), bad(1));
    assert_eq!(changed(1, 5, 255), Ok(()));
    assert_eq!(changed(1, 0, 1), bad(1)); // pivot not above its new hub
                                          // Another set begins at label 2: nothing of label 1 counts for it.
    assert_eq!(changed(2, 0, 1), Ok(()));
    assert_eq!(changed(2, 1, 1), bad(2));
}

#[test]
fn check_names_the_first_failure() {
    let day = day_of(&example::day());
    let sets = Sets::from_bytes(&example::tables());
    let without = |k| {
        let tables = judge_tables(&sets.without(k).bytes()).unwrap();
        verdict::check(&tables, &day)
    };
    assert_eq!(without(5), Err(Refusal::at(19, 1)));
    assert_eq!(without(3), Err(Refusal::gap(4, 2)));
    for k in 0..6 {
        assert!(without(k).is_err());
    }
}

#[test]
fn where_the_natural_program_is_wrong() {
    for asked in vectors::asked() {
        let tables = rule::tables(&day_of(&asked.day)).unwrap();
        let listed = with_rides(&tables.bytes(), &asked.day, asked.ask);
        assert_eq!(listed, (asked.answer, asked.rides), "{}", asked.why);
    }
    // In the first of them nothing between the ends of the journey has a label
    // that misses the hub; in the second the run itself has none.
    let ends = |i: usize| -> Vec<(usize, usize)> {
        let labels = rule::labels(&day_of(&vectors::asked()[i].day));
        labels.iter().map(|l| (l.from(), l.to())).collect()
    };
    assert!(!ends(0).contains(&(1, 3)));
    assert_eq!(ends(1), [(1, 0), (0, 2)]);
}

#[test]
fn ties_between_sketches() {
    let (sets, asked) = vectors::single_ties_with_joined();
    let day = day_of(&asked.day);
    let tables = judge_tables(&sets.bytes()).unwrap();
    assert_eq!(verdict::check(&tables, &day), Ok(()));
    assert_ne!(tables, rule::tables(&day).unwrap());
    assert_eq!(with_rides(&sets.bytes(), &asked.day, asked.ask), (asked.answer, asked.rides));
    for lower_opens in [true, false] {
        let (sets, asked) = vectors::hubs_tie(lower_opens);
        assert_eq!(with_rides(&sets.bytes(), &asked.day, asked.ask), (asked.answer, asked.rides));
    }
}

#[test]
fn order_of_refusals() {
    let day = example::day();
    let runs = day.numbers();
    let t = example::tables();
    let rides = |tables: &[u8], stops, run_count, runs: &[u32], from, to, ask, list, room| {
        let numbers = Numbers { stops, run_count, runs };
        calls::ask_rides(tables, numbers, ask, from, to, list, room).0[0]
    };
    let early = |t| Ask::Early { t };
    let no_room = Room { lent: 3, needs: 4 };
    assert_eq!(rides(&[1, 0], 0, 0, &[], 9, 9, early(9_999), 0, no_room), 9);
    assert_eq!(rides(&t[..53], 0, 0, &[], 9, 9, early(9_999), 0, no_room), 10);
    assert_eq!(rides(&t, 0, 0, &[], 9, 9, early(9_999), 0, no_room), 8);
    assert_eq!(rides(&t, 5, 6, &runs[..29], 9, 9, early(9_999), 0, ENOUGH), 17);
    assert_eq!(rides(&t, 5, 6, &runs, 9, 9, early(9_999), 0, no_room), 17);
    let mut bad = runs.clone();
    bad[26] = 5;
    assert_eq!(rides(&t, 5, 6, &bad, 9, 9, early(9_999), 0, ENOUGH), 5);
    assert_eq!(rides(&t, 5, 6, &runs, 9, 9, early(9_999), 0, ENOUGH), 21);
    assert_eq!(rides(&t, 4, 6, &runs, 9, 9, early(9_999), 0, ENOUGH), 12);
    assert_eq!(rides(&t, 4, 6, &runs, 0, 4, early(9_999), 0, ENOUGH), 12);
    assert_eq!(rides(&t, 4, 6, &runs, 0, 0, early(9_999), 0, ENOUGH), 13);
    assert_eq!(rides(&t, 4, 6, &runs, 0, 1, early(2_880), 0, ENOUGH), 14);
    let short = |t, t2| Ask::Short { t, t2 };
    assert_eq!(rides(&t, 4, 6, &runs, 0, 1, short(2, 2_880), 0, ENOUGH), 14);
    assert_eq!(rides(&t, 4, 6, &runs, 0, 1, short(2, 1), 0, ENOUGH), 15);
    assert_eq!(rides(&t, 4, 6, &runs, 0, 1, short(506, 506), 0, ENOUGH), 16);
    // 18 goes before 17; a run that is missing is refused however short the list.
    assert_eq!(rides(&t, 4, 5, &runs, 0, 1, early(0), 0, ENOUGH), 18);
    assert_eq!(rides(&t, 4, 6, &runs, 0, 1, early(0), 1, ENOUGH), 17);
    assert_eq!(rides(&t, 4, 6, &runs, 0, 1, early(0), 2, ENOUGH), 0);

    // The builder: 22 before 17 for the tables, which goes by the exact length.
    let build = |day: &days::Day, tables| {
        let runs = day.numbers();
        let numbers = Numbers { stops: day.stops, run_count: day.run_count(), runs: &runs };
        calls::build(numbers, tables, ENOUGH).0
    };
    assert_eq!(build(&day, 53), [17, 0, 0, 0]);
    assert_eq!(build(&day, 54), [0, 54, 6, 0]);
    assert_eq!(build(&days::with_labels(8_192), 0), [17, 0, 0, 0]);
    assert_eq!(build(&days::with_labels(8_193), 0), [22, 0, 0, 0]);
    assert_eq!(build(&days::with_labels(8_193), 1 << 20), [22, 0, 0, 0]);
    let length = 2 + 4 * 12 + 6 * 8_192;
    assert_eq!(build(&days::with_labels(8_192), length), [0, length as u32, 8_192, 0]);
}

#[test]
fn long_lists_of_rides() {
    let day = days::chain();
    let tables = rule::tables(&day_of(&day)).unwrap();
    let (from, to) = days::CHAIN_ENDS;
    let ask = generate::asks::Ask { kind: Kind::Early, from, to, t: 0, t2: 0 };
    let (answer, rides) = with_rides(&tables.bytes(), &day, ask);
    assert_eq!((day.stops, answer), (14, [0, 0, 2_879, 2_879]));
    assert_eq!(rides, (0..2_879).collect::<Vec<u32>>());
}

#[test]
fn deep_tables_open() {
    for first in [true, false] {
        let (sets, day) = tables::deep(first);
        let bytes = sets.bytes();
        assert!(judge_tables(&bytes).is_ok());
        let pivots = sets.stops.iter().flatten().flatten().filter(|l| l.pivot != 255);
        assert!(pivots.count() > 2_800);
        let (from, to) = tables::deep_ends(first);
        let ask = generate::asks::Ask { kind: Kind::Early, from, to, t: 0, t2: 0 };
        let (answer, rides) = with_rides(&bytes, &day, ask);
        assert_eq!(answer, [0, 0, 2_879, 2_879]);
        assert_eq!(rides.len(), 2_879);
    }
}

#[test]
fn programs() {
    for program in vectors::programs() {
        let printed = journey::output(&program.input);
        let shown = String::from_utf8_lossy(&program.input[..program.input.len().min(400)]);
        assert!(printed == program.output, "{shown:?}: {:?}", String::from_utf8_lossy(&printed));
    }
    let too_many = days::with_labels(8_193);
    let codes: Vec<Vec<u8>> = (0..12).map(|i| vec![b'a' + i]).collect();
    let text = generate::texts::text(&too_many, &codes);
    assert!(text.len() < 65_536);
    assert_eq!(journey::output(&text), b"no 22 0\n");
}

#[test]
fn stored_programs() {
    for (name, program) in vectors::stored_programs() {
        let printed = journey::output(&program.input);
        assert!(printed == program.output, "{name}: {:?}", String::from_utf8_lossy(&printed));
    }
}

//! Tests of `kiosk_early_rides`, `kiosk_late_rides` and `kiosk_short_rides`.

use crate::calls::{ask_rides, Given};
use crate::check::{each_damage, with_labels_added};
use crate::limits::{self, own};
use crate::Rides;
use generate::asks::{self, Ask, Kind, KINDS};
use generate::days::{self, Day};
use generate::tables::{self, Sets, NO_PIVOT};
use generate::{each_seed, example, vectors, Rng};

/// Longer than any list of rides.
const ANY_LIST: usize = 2_890;

fn listed<S: Rides>(tables: &[u8], given: &Given, ask: Ask, list: usize) -> ([u32; 4], Vec<u32>) {
    ask_rides::<S>(tables, given, ask, list, S::rides_room())
}

/// Asks with room to spare, and then with room for exactly the rides, for one
/// less, and for none.
fn listed_with_each_room<S: Rides>(rng: &mut Rng, tables: &[u8], given: &Given, ask: Ask) {
    let spare = rng.pick(&[60, 100, ANY_LIST]);
    let (answer, _) = listed::<S>(tables, given, ask, spare);
    if answer[0] == 0 && rng.one_in(3) {
        let rides = answer[3] as usize;
        assert_eq!(listed::<S>(tables, given, ask, rides).0, answer);
        assert_eq!(listed::<S>(tables, given, ask, rides - 1).0, [17, 0, 0, 0]);
        assert_eq!(listed::<S>(tables, given, ask, 0).0, [17, 0, 0, 0]);
    } else if rng.one_in(5) {
        listed::<S>(tables, given, ask, 0);
    }
}

fn some_asks<S: Rides>(rng: &mut Rng, sets: &Sets, day: &Day, count: u32) {
    let n = sets.stops.len() as u32;
    if n < 2 {
        return;
    }
    let (bytes, minutes, given) = (sets.bytes(), tables::minutes(sets), Given::new(day));
    for _ in 0..count {
        let ask = asks::good(rng, n, &minutes);
        listed_with_each_room::<S>(rng, &bytes, &given, ask);
    }
}

fn must_list<S: Rides>(sets: &Sets, day: &Day, ask: Ask, answer: [u32; 4], rides: &[u32]) {
    let (bytes, given) = (sets.bytes(), Given::new(day));
    let (got, list) = listed::<S>(&bytes, &given, ask, ANY_LIST);
    assert_eq!((got, &list[..rides.len()]), (answer, rides));
    listed::<S>(&bytes, &given, ask, rides.len());
    listed::<S>(&bytes, &given, ask, rides.len().saturating_sub(1));
}

pub fn cases<S: Rides>() {
    for case in example::cases() {
        must_list::<S>(&own(&case.day).unwrap(), &case.day, case.ask, case.answer, &case.rides);
    }
}

pub fn vectors<S: Rides>() {
    for asked in vectors::asked() {
        let sets = own(&asked.day).unwrap();
        must_list::<S>(&sets, &asked.day, asked.ask, asked.answer, &asked.rides);
    }
    for (sets, asked) in
        [vectors::single_ties_with_joined(), vectors::hubs_tie(true), vectors::hubs_tie(false)]
    {
        must_list::<S>(&sets, &asked.day, asked.ask, asked.answer, &asked.rides);
    }
    for v in vectors::numbers() {
        let given = Given { stops: v.stops, run_count: v.run_count, runs: v.runs };
        let tables = Sets::new(v.stops.clamp(1, 255)).bytes();
        let ask = Ask { kind: Kind::Early, from: 0, to: 1, t: 0, t2: 0 };
        let (answer, _) = listed::<S>(&tables, &given, ask, 3);
        if v.refusal.0 != 0 {
            assert_eq!((answer[0], answer[1]), v.refusal);
        }
    }
}

/// 17 with the timetable's for working room and the runs' list; at the very end
/// for the list of rides.
pub fn room<S: Rides>() {
    let needs = S::rides_room();
    let good = Given::new(&example::day());
    let mut cut = good.clone();
    cut.runs.pop();
    let mut longer = good.clone();
    longer.runs.extend([u32::MAX, 0, 7, 7, 7, 7]);
    let tables = example::tables();
    for given in [&good, &cut, &longer] {
        for room in [0, 1, needs / 2, needs.saturating_sub(1), needs, needs + 1, needs + 500] {
            for list in [0, 1, 2, 3, 3_000] {
                for ask in [
                    Ask { kind: Kind::Early, from: 1, to: 2, t: 480, t2: 0 },
                    Ask { kind: Kind::Late, from: 1, to: 2, t: 524, t2: 0 },
                    Ask { kind: Kind::Early, from: 9, to: 2, t: 480, t2: 0 },
                ] {
                    ask_rides::<S>(&tables, given, ask, list, room);
                }
            }
        }
    }
}

/// Tables, numbers, room, ask and list each good or bad, all together.
pub fn order_of_refusals<S: Rides>() {
    let t = example::tables();
    let mut eleven = t.clone();
    eleven[18] = 1;
    // Label 1, HUB to MOOR, opens into label 5: without it 18.
    let missing = Sets::from_bytes(&t).without(5).bytes();
    let givens = Given::with_each_fault();
    let needs = S::rides_room();
    let tables: [&[u8]; 6] = [&t, &[2, 1], &t[..17], &t[..53], &eleven, &missing];
    for bytes in tables {
        for given in &givens {
            for room in [needs.saturating_sub(1), needs] {
                for (from, to) in [(0, 1), (4, 1), (0, 0)] {
                    for (t, t2) in [(0, 2_879), (0, 2_880), (2_880, 0), (1, 0), (600, 700)] {
                        for kind in KINDS {
                            let list = if t == 0 { 1 } else { 2 };
                            let ask = Ask { kind, from, to, t, t2 };
                            ask_rides::<S>(bytes, given, ask, list, room);
                            ask_rides::<S>(bytes, given, ask, 2, room);
                        }
                    }
                }
            }
        }
    }
}

pub fn damaged_tables<S: Rides>() {
    let given = Given::new(&example::day());
    each_damage(|tables| {
        listed::<S>(tables, &given, Ask { kind: Kind::Early, from: 0, to: 1, t: 490, t2: 0 }, 3);
    });
}

pub fn own_tables<S: Rides>() {
    each_seed("rides::own_tables", 1_200, |rng| {
        let day = days::small(rng);
        if let Some(sets) = own(&day) {
            some_asks::<S>(rng, &sets, &day, 20);
        }
    });
}

pub fn labels_added<S: Rides>() {
    each_seed("rides::labels_added", 1_200, |rng| {
        let day = if rng.one_in(2) { days::ties(rng) } else { days::there_and_back(rng) };
        let sets = with_labels_added(rng, &own(&day).unwrap(), &day);
        some_asks::<S>(rng, &sets, &day, 15);
    });
}

pub fn arbitrary_tables<S: Rides>() {
    each_seed("rides::arbitrary_tables", 4_000, |rng| {
        let (sets, day) = tables::arbitrary(rng);
        some_asks::<S>(rng, &sets, &day, 15);
    });
}

/// The rule's tables with some runs of the day gone, or some labels nudged.
pub fn runs_missing<S: Rides>() {
    each_seed("rides::runs_missing", 1_500, |rng| {
        let mut day = days::ties(rng);
        let mut sets = own(&day).unwrap();
        for _ in 0..rng.between(1, 3) {
            if rng.one_in(2) && day.runs.len() > 1 {
                let at = rng.below(day.run_count()) as usize;
                day.runs.remove(at);
            } else {
                sets = tables::nudged(rng, &sets);
            }
        }
        some_asks::<S>(rng, &sets, &day, 15);
    });
}

pub fn odd_asks<S: Rides>() {
    each_seed("rides::odd_asks", 3_000, |rng| {
        let (sets, day) = tables::arbitrary(rng);
        let (bytes, minutes) = (sets.bytes(), tables::minutes(&sets));
        let given = Given::new(&day);
        for _ in 0..5 {
            let ask = asks::odd(rng, day.stops, &minutes);
            let list = rng.below(4) as usize;
            listed::<S>(&bytes, &given, ask, list);
        }
    });
}

pub fn damaged_numbers<S: Rides>() {
    each_seed("rides::damaged_numbers", 3_000, |rng| {
        let day = days::ties(rng);
        let sets = own(&day).unwrap();
        let given = Given::damaged(rng, &day);
        let ask = asks::good(rng, day.stops, &tables::minutes(&sets));
        listed::<S>(&sets.bytes(), &given, ask, 50);
    });
}

pub fn long_chain<S: Rides>() {
    let day = &limits::chain().day;
    let bytes = limits::chain().sets.as_ref().unwrap().bytes();
    let given = Given::new(day);
    let (from, to) = days::CHAIN_ENDS;
    for kind in KINDS {
        let t = if kind == Kind::Late { 2_879 } else { 0 };
        let ask = Ask { kind, from, to, t, t2: 2_879 };
        for list in [0, 2_878, 2_879, 2_880, 4_000] {
            let answer = listed::<S>(&bytes, &given, ask, list).0;
            let right = if list < 2_879 { [17, 0, 0, 0] } else { [0, 0, 2_879, 2_879] };
            assert_eq!(answer, right);
        }
    }
    // One run gone anywhere: 18, however short the list.
    for gone in [0, 1_440, 2_878] {
        let mut fewer = day.clone();
        fewer.runs.remove(gone);
        let ask = Ask { kind: Kind::Early, from, to, t: 0, t2: 0 };
        for list in [0, 5, 2_879] {
            let answer = listed::<S>(&bytes, &Given::new(&fewer), ask, list).0;
            assert_eq!(answer, [18, 0, 0, 0]);
        }
    }
}

pub fn deep_tables<S: Rides>() {
    let mut rng = Rng::new(17);
    for first in [true, false] {
        let (sets, day) = tables::deep(first);
        let (bytes, given) = (sets.bytes(), Given::new(&day));
        let (from, to) = tables::deep_ends(first);
        let ask = Ask { kind: Kind::Early, from, to, t: 0, t2: 0 };
        for list in [0, 2_878, 2_879, 2_880] {
            let answer = listed::<S>(&bytes, &given, ask, list).0;
            let right = if list < 2_879 { [17, 0, 0, 0] } else { [0, 0, 2_879, 2_879] };
            assert_eq!(answer, right);
        }
        // The run of the last leaf is gone, and of any other.
        for gone in [day.runs.len() - 1, 0, day.runs.len() / 2] {
            let mut fewer = day.clone();
            fewer.runs.remove(gone);
            let answer = listed::<S>(&bytes, &Given::new(&fewer), ask, 0).0;
            assert_eq!(answer, [18, 0, 0, 0]);
        }
        for _ in 0..15 {
            let changed = tables::nudged(&mut rng, &sets);
            listed::<S>(&changed.bytes(), &given, ask, 2_879);
            let k = rng.below(sets.count() as u32) as usize;
            listed::<S>(&sets.without(k).bytes(), &given, ask, 2_879);
        }
    }
}

pub fn tables_at_the_limits<S: Rides>() {
    let mut rng = Rng::new(19);
    for (day, sets) in limits::with_tables() {
        some_asks::<S>(&mut rng, sets, day, 40);
    }
    let sets = tables::one_stop(4_096);
    let day = tables::a_run_each(&sets);
    let (bytes, given) = (sets.bytes(), Given::new(&day));
    for t in [0, 1_000, 2_047, 2_879] {
        for kind in KINDS {
            let ask = Ask { kind, from: 254, to: 253, t, t2: 2_879 };
            listed::<S>(&bytes, &given, ask, 2);
        }
    }
    // 4,096 identical runs: the lowest number is listed.
    let run = [0, 1, 5, 6, 1];
    let day = Day { stops: 2, runs: vec![run; 4_096] };
    let mut sets = Sets::new(2);
    sets.add(0, 1, 5, 6, NO_PIVOT);
    let ask = Ask { kind: Kind::Early, from: 0, to: 1, t: 0, t2: 0 };
    must_list::<S>(&sets, &day, ask, [0, 5, 6, 1], &[0]);
}

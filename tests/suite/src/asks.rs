//! Tests of `kiosk_early`, `kiosk_late` and `kiosk_short`.

use crate::calls::ask;
use crate::check::{each_damage, with_labels_added};
use crate::limits::{self, own};
use crate::Asks;
use generate::asks::{self, Ask, Kind, KINDS};
use generate::tables::{self, Sets};
use generate::{days, each_seed, example, vectors, Rng};

/// The answer without its number of rides.
fn without_rides(answer: [u32; 4]) -> [u32; 4] {
    [answer[0], answer[1], answer[2], 0]
}

pub fn cases<S: Asks>() {
    for case in example::cases() {
        let tables = own(&case.day).unwrap().bytes();
        assert_eq!(ask::<S>(&tables, case.ask), without_rides(case.answer), "{}", case.name);
    }
}

pub fn vectors<S: Asks>() {
    for asked in vectors::asked() {
        let tables = own(&asked.day).unwrap().bytes();
        assert_eq!(ask::<S>(&tables, asked.ask), without_rides(asked.answer), "{}", asked.why);
    }
    let (sets, asked) = vectors::single_ties_with_joined();
    assert_eq!(ask::<S>(&sets.bytes(), asked.ask), without_rides(asked.answer));
    let (sets, asked) = vectors::hubs_tie(true);
    assert_eq!(ask::<S>(&sets.bytes(), asked.ask), without_rides(asked.answer));
}

/// Every way to be refused, and every two of them together.
pub fn order_of_refusals<S: Asks>() {
    let t = example::tables();
    let mut eleven = t.clone();
    eleven[18] = 1;
    let tables: [&[u8]; 7] = [&t, &[], &[1], &[2, 4], &t[..17], &t[..53], &eleven];
    for bytes in tables {
        for (from, to) in [(0, 1), (4, 1), (0, 4), (4, 4), (0, 0), (256, 1), (65_537, 0)] {
            for t in [0, 2_879, 2_880, 65_536, u32::MAX] {
                for t2 in [0, 1, 2_879, 2_880, 65_536, u32::MAX] {
                    for kind in KINDS {
                        ask::<S>(bytes, Ask { kind, from, to, t, t2 });
                    }
                }
            }
        }
    }
}

pub fn damaged_tables<S: Asks>() {
    each_damage(|tables| {
        for kind in KINDS {
            ask::<S>(tables, Ask { kind, from: 1, to: 2, t: 490, t2: 540 });
        }
    });
}

/// Every ask of T, with each minute at which an answer could change.
pub fn every_ask_of_t<S: Asks>() {
    let tables = example::tables();
    let mut minutes: Vec<u32> =
        tables::minutes(&Sets::from_bytes(&tables)).iter().flat_map(|m| m - 1..m + 2).collect();
    minutes.extend([0, 2_879, 2_880]);
    minutes.sort();
    minutes.dedup();
    for from in 0..5 {
        for to in 0..5 {
            for t in &minutes {
                ask::<S>(&tables, Ask { kind: Kind::Early, from, to, t: *t, t2: 0 });
                ask::<S>(&tables, Ask { kind: Kind::Late, from, to, t: *t, t2: 0 });
                for t2 in &minutes {
                    ask::<S>(&tables, Ask { kind: Kind::Short, from, to, t: *t, t2: *t2 });
                }
            }
        }
    }
}

fn some_asks<S: Asks>(rng: &mut Rng, sets: &Sets, count: u32) {
    let n = sets.stops.len() as u32;
    if n < 2 {
        return;
    }
    let (bytes, minutes) = (sets.bytes(), tables::minutes(sets));
    for _ in 0..count {
        ask::<S>(&bytes, asks::good(rng, n, &minutes));
    }
}

pub fn own_tables<S: Asks>() {
    each_seed("asks::own_tables", 1_200, |rng| {
        let day = days::small(rng);
        if let Some(sets) = own(&day) {
            some_asks::<S>(rng, &sets, 25);
            let more = with_labels_added(rng, &sets, &day);
            some_asks::<S>(rng, &more, 10);
        }
    });
}

pub fn arbitrary_tables<S: Asks>() {
    each_seed("asks::arbitrary_tables", 4_000, |rng| {
        let (sets, _) = tables::arbitrary(rng);
        some_asks::<S>(rng, &sets, 25);
    });
}

/// Small tables asked everything within their minutes.
pub fn every_ask_of_small_tables<S: Asks>() {
    each_seed("asks::every_ask_of_small_tables", 60, |rng| {
        let sets = own(&days::tiny(rng)).unwrap();
        let n = sets.stops.len() as u32;
        let bytes = sets.bytes();
        for from in 0..n {
            for to in (0..n).filter(|to| *to != from) {
                for t in 0..11 {
                    for kind in [Kind::Early, Kind::Late] {
                        ask::<S>(&bytes, Ask { kind, from, to, t, t2: 0 });
                    }
                    for t2 in t..11 {
                        ask::<S>(&bytes, Ask { kind: Kind::Short, from, to, t, t2 });
                    }
                }
            }
        }
    });
}

pub fn odd_asks<S: Asks>() {
    each_seed("asks::odd_asks", 4_000, |rng| {
        let (sets, _) = tables::arbitrary(rng);
        let (bytes, minutes) = (sets.bytes(), tables::minutes(&sets));
        for _ in 0..10 {
            ask::<S>(&bytes, asks::odd(rng, sets.stops.len() as u32, &minutes));
        }
    });
}

pub fn tables_at_the_limits<S: Asks>() {
    let mut rng = Rng::new(13);
    for (_, sets) in limits::with_tables() {
        some_asks::<S>(&mut rng, sets, 100);
    }
    for sets in [tables::star(8_192), tables::deep(true).0] {
        some_asks::<S>(&mut rng, &sets, 100);
    }
    // All labels at two stops, the longest join there is; and of one owner.
    let (two, one) = (tables::one_stop(8_192).bytes(), tables::one_owner(8_192).bytes());
    for t in [0, 1, 1_000, 2_047, 2_048, 2_879] {
        for kind in KINDS {
            for (from, to) in [(254, 253), (253, 254), (254, 0), (1, 254)] {
                ask::<S>(&two, Ask { kind, from, to, t, t2: 2_879 });
                ask::<S>(&one, Ask { kind, from, to, t, t2: 2_879 });
            }
        }
    }
}

//! The check: O(labels) steps a run.

use crate::tables::{Tables, NO_PIVOT};
use crate::{numbers, Refusal, MOST_RUNS};

/// Working room, in numbers: the runs in the order of their ends and minutes.
pub const CHECK_ROOM: usize = MOST_RUNS;

const UNREACHED: u16 = u16::MAX;

pub fn check(
    tables: &[u8],
    stops: u32,
    run_count: u32,
    runs: &[u32],
    work: &mut [u16],
    answer: &mut [u32; 4],
) {
    let result = (|| {
        let tables = Tables::judge(tables)?;
        let runs = numbers::judge(stops, run_count, runs, work.len() >= CHECK_ROOM)?;
        if tables.stops != stops {
            return Err(Refusal::plain(21));
        }
        supported(&tables, runs, work)?;
        no_gap(&tables, runs)
    })();
    work.fill(0);
    *answer = result.map_or_else(Refusal::answer, |()| [0; 4]);
}

/// 19: a label without its run, or without the two labels it opens into.
fn supported(tables: &Tables, runs: &[u32], work: &mut [u16]) -> Result<(), Refusal> {
    let key = |i: u16| -> [u32; 4] {
        let at = 5 * i as usize;
        [runs[at], runs[at + 1], runs[at + 2], runs[at + 3]]
    };
    let order = &mut work[..runs.len() / 5];
    for (i, slot) in order.iter_mut().enumerate() {
        *slot = i as u16;
    }
    order.sort_unstable_by_key(|i| key(*i));
    let mut number = 0;
    for owner in 0..tables.stops as u8 {
        for (set, out) in [(tables.outs(owner), true), (tables.ins(owner), false)] {
            for label in set.iter() {
                let (u, v) = if out { (owner, label.hub) } else { (label.hub, owner) };
                let good = if label.pivot == NO_PIVOT {
                    let wanted = [u as u32, v as u32, label.dep as u32, label.arr as u32];
                    order.binary_search_by_key(&wanted, |i| key(*i)).is_ok()
                } else {
                    tables.halves(u, v, label).is_some()
                };
                if !good {
                    return Err(Refusal::at(19, number));
                }
                number += 1;
            }
        }
    }
    Ok(())
}

/// A label into a stop, without what the check does not need.
#[derive(Clone, Copy)]
struct Into {
    hub: u8,
    dep: u16,
    arr: u16,
}

/// 20: the first run, and its first stop, at which the tables miss something.
fn no_gap(tables: &Tables, runs: &[u32]) -> Result<(), Refusal> {
    let mut ins: Vec<Into> = Vec::new();
    let mut ends: Vec<usize> = Vec::new();
    for stop in 0..tables.stops as u8 {
        let labels = tables.ins(stop).iter();
        ins.extend(labels.map(|l| Into { hub: l.hub, dep: l.dep, arr: l.arr }));
        ends.push(ins.len());
    }
    for (i, run) in runs.chunks_exact(5).enumerate() {
        let (u, x) = (run[0] as usize, run[1] as usize);
        let from_u = hubs_reached(tables, u, run[2] as u16);
        let from_x = hubs_reached(tables, x, run[3] as u16);
        let mut start = 0;
        for (v, end) in ends.iter().enumerate() {
            let into_v = &ins[start..*end];
            start = *end;
            if v == u {
                continue;
            }
            let (mut by_u, mut by_x) = (from_u[v], from_x[v]);
            for label in into_v {
                if from_u[label.hub as usize] <= label.dep {
                    by_u = by_u.min(label.arr);
                }
                if from_x[label.hub as usize] <= label.dep {
                    by_x = by_x.min(label.arr);
                }
            }
            if v == x {
                by_x = run[3] as u16;
            }
            // Where x does not come to v, by_x is the greatest number there is.
            if by_u > by_x {
                return Err(Refusal(20, i as u32, v as u32));
            }
        }
    }
    Ok(())
}

/// The least minute at each hub by the out-labels of a stop, leaving it at or
/// after a minute; the stop itself is reached at that minute.
fn hubs_reached(tables: &Tables, stop: usize, t: u16) -> [u16; 256] {
    let mut reached = [UNREACHED; 256];
    for label in tables.outs(stop as u8).iter() {
        let least = &mut reached[label.hub as usize];
        if label.dep >= t && label.arr < *least {
            *least = label.arr;
        }
    }
    reached[stop] = t;
    reached
}

//! The check: every label supported, no run with a gap.

use crate::kinds::{Day, Refusal};
use crate::tables::{Label, Tables};
use std::collections::{BTreeMap, HashMap};

/// A label with no pivot has a run with its ends and minutes; one with a pivot
/// has both labels it opens into, and they meet.
pub fn supported(tables: &Tables, day: &Day, label: &Label) -> bool {
    match label.pivot {
        None => day.runs.iter().any(|r| {
            r.from == label.from() && r.to == label.to() && (r.dep, r.arr) == label.pair()
        }),
        Some(p) => tables.halves(label, p).is_some(),
    }
}

/// The tables' early ask, its sketches gone through once for each u and v.
pub struct Arrivals<'a> {
    tables: &'a Tables,
    /// For u and v: each departure of a sketch, with the least arrival.
    known: HashMap<(usize, usize), BTreeMap<u32, u32>>,
}

impl Arrivals<'_> {
    pub fn new(tables: &Tables) -> Arrivals<'_> {
        Arrivals { tables, known: HashMap::new() }
    }

    /// The arrival of early(u, v, t): the least over sketches that leave at or
    /// after t.
    pub fn early(&mut self, u: usize, v: usize, t: u32) -> Option<u32> {
        let tables = self.tables;
        let least = self.known.entry((u, v)).or_insert_with(|| {
            let mut least = BTreeMap::new();
            tables.each_sketch(u, v, |sketch| {
                let (dep, arr) = sketch.pair();
                let known = least.entry(dep).or_insert(arr);
                *known = arr.min(*known);
            });
            least
        });
        least.range(t..).map(|(_, arr)| *arr).min()
    }
}

/// Accepts the tables for the day, or gives the first failure: 19 with its
/// label, then 20 with its run and stop.
pub fn check(tables: &Tables, day: &Day) -> Result<(), Refusal> {
    for (k, label) in tables.labels.iter().enumerate() {
        if !supported(tables, day, label) {
            return Err(Refusal::at(19, k));
        }
    }
    let mut arrivals = Arrivals::new(tables);
    for (i, run) in day.runs.iter().enumerate() {
        for v in 0..day.stops {
            if v == run.from {
                continue;
            }
            // By when the tables must have the rider at v, if at all.
            let by = if v == run.to { Some(run.arr) } else { arrivals.early(run.to, v, run.arr) };
            let Some(by) = by else { continue };
            let gap = match arrivals.early(run.from, v, run.dep) {
                None => true,
                Some(arr) => arr > by,
            };
            if gap {
                return Err(Refusal::gap(i, v));
            }
        }
    }
    Ok(())
}

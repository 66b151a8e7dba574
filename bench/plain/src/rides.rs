//! Asks with rides.
//!
//! The labels of a journey without a pivot leave at different minutes, so they
//! are noted under their departures while labels are opened; one pass over the
//! runs, from the last to the first, then finds each its lowest-numbered run.

use crate::asks::{best, judge, Ask, Pair};
use crate::tables::{Label, Tables, NO_PIVOT};
use crate::{numbers, Refusal, MINUTES};

/// Working room, in numbers: for each minute the ends of the label that leaves
/// then, its arrival, and 1 more than its run.
pub const RIDES_ROOM: usize = 3 * MINUTES;

#[allow(clippy::too_many_arguments)]
pub fn ask_rides(
    tables: &[u8],
    stops: u32,
    run_count: u32,
    runs: &[u32],
    from: u32,
    to: u32,
    ask: Ask,
    list: &mut [u32],
    work: &mut [u16],
    answer: &mut [u32; 4],
) {
    list.fill(0);
    work.fill(0);
    let result = (|| {
        let tables = Tables::judge(tables)?;
        let runs = numbers::judge(stops, run_count, runs, work.len() >= RIDES_ROOM)?;
        if tables.stops != stops {
            return Err(Refusal::plain(21));
        }
        let (u, v) = judge(stops, from, to, ask)?;
        let pair = best(&tables, u, v, ask).ok_or(Refusal::plain(16))?;
        let count = listed(&tables, runs, u, v, pair, list, work)?;
        Ok([0, pair.0 as u32, pair.1 as u32, count as u32])
    })();
    work.fill(0);
    *answer = result.unwrap_or_else(Refusal::answer);
}

/// Lists the rides of the best pair: 18, then 17.
fn listed(
    tables: &Tables,
    runs: &[u32],
    u: u8,
    v: u8,
    (dep, arr): Pair,
    list: &mut [u32],
    work: &mut [u16],
) -> Result<usize, Refusal> {
    let (ends, rest) = work.split_at_mut(MINUTES);
    let (arrivals, rest) = rest.split_at_mut(MINUTES);
    let found = &mut rest[..MINUTES];

    let mut opened = Opened { tables, ends, arrivals, count: 0 };
    let complete = match chosen(tables, u, v, (dep, arr)) {
        (single, None) => opened.open(u, v, single),
        (first, Some(second)) => {
            opened.open(u, first.hub, first) && opened.open(first.hub, v, second)
        }
    };
    let count = opened.count;
    if !complete {
        return Err(Refusal::plain(18));
    }

    let mut missing = count;
    for (i, run) in runs.chunks_exact(5).enumerate().rev() {
        let at = run[2] as usize;
        if arrivals[at] as u32 == run[3] && ends[at] as u32 == run[0] << 8 | run[1] {
            missing -= (found[at] == 0) as usize;
            found[at] = i as u16 + 1;
        }
    }
    if missing > 0 {
        return Err(Refusal::plain(18));
    }
    if list.len() < count {
        return Err(Refusal::plain(17));
    }
    let rides = found[dep as usize..arr as usize].iter().filter(|f| **f != 0);
    for (slot, run) in list.iter_mut().zip(rides) {
        *slot = *run as u32 - 1;
    }
    Ok(count)
}

/// The sketch with the best pair: a single label, then the lowest hub.
fn chosen(tables: &Tables, u: u8, v: u8, (dep, arr): Pair) -> (Label, Option<Label>) {
    if let Some(single) = tables.leaving(u, v, dep).filter(|l| l.arr == arr) {
        return (single, None);
    }
    tables
        .outs(u)
        .iter()
        .filter(|first| first.dep == dep)
        .find_map(|first| {
            let second = tables.ins(v).arriving(first.hub, arr)?;
            (first.arr <= second.dep).then_some((first, Some(second)))
        })
        .expect("the best pair has a sketch")
}

struct Opened<'a> {
    tables: &'a Tables<'a>,
    ends: &'a mut [u16],
    arrivals: &'a mut [u16],
    count: usize,
}

impl Opened<'_> {
    /// Opens a label u to v; false if a label is missing or two do not meet.
    fn open(&mut self, u: u8, v: u8, label: Label) -> bool {
        if label.pivot == NO_PIVOT {
            self.ends[label.dep as usize] = u16::from_be_bytes([u, v]);
            self.arrivals[label.dep as usize] = label.arr;
            self.count += 1;
            return true;
        }
        match self.tables.halves(u, v, label) {
            None => false,
            Some((first, second)) => {
                self.open(u, label.pivot, first) && self.open(label.pivot, v, second)
            }
        }
    }
}

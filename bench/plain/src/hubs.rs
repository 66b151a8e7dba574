//! The pruned search by hubs of source document 004 (its Algorithm 3), for
//! comparison: hub by hub, from the highest rank down, a search forward for each
//! departure and one backward for each arrival, over the stops that rank below
//! the hub only. A search stops at a stop that it reaches no better than a later
//! departure does, or than the labels of higher hubs do already.
//!
//! It finds the labels of the rule, without their pivots: the paper takes pivots
//! from first arrivals, and the rule does not.

use crate::{MINUTES, MOST_STOPS};
use std::cmp::Reverse;
use std::collections::BinaryHeap;

/// Owner, whether it is an in-label, hub, departure, arrival.
pub type Found = (u8, bool, u8, u16, u16);

/// A run as one direction of search sees it: forward, it leaves at `dep`;
/// backward, time runs the other way, and it leaves where and when it arrives.
#[derive(Clone, Copy)]
struct Edge {
    from: u8,
    to: u8,
    dep: u16,
    arr: u16,
}

/// Runs by the stop where they start, each stop's by departure.
struct Edges {
    by_stop: Vec<Vec<Edge>>,
}

/// A label as a direction sees it: its hub, when it leaves, when it arrives.
#[derive(Clone, Copy)]
struct Half {
    hub: u8,
    dep: u16,
    arr: u16,
}

/// Minutes counted from the other end of the day.
fn mirrored(minute: u16) -> u16 {
    MINUTES as u16 - 1 - minute
}

impl Edges {
    fn new(stops: usize, edges: impl Iterator<Item = Edge>) -> Edges {
        let mut by_stop = vec![Vec::new(); stops];
        for edge in edges {
            by_stop[edge.from as usize].push(edge);
        }
        for some in &mut by_stop {
            some.sort_unstable_by_key(|edge| edge.dep);
        }
        Edges { by_stop }
    }

    /// The labels of one hub in this direction: (stop, departure, arrival). `near`
    /// are the hub's own labels of the other side, `far` each stop's of this one,
    /// all with higher hubs.
    fn of_hub(&self, hub: usize, near: &[Half], far: &[Vec<Half>]) -> Vec<(u8, u16, u16)> {
        let mut found = Vec::new();
        let mut near = near.to_vec();
        near.sort_unstable_by_key(|half| Reverse(half.dep));
        let mut near = near.into_iter().peekable();
        // When each higher hub is reached at the earliest.
        let mut reached_hub = [u16::MAX; MOST_STOPS + 1];
        let mut later = [u16::MAX; MOST_STOPS + 1];
        let mut known = [u16::MAX; MOST_STOPS + 1];
        let mut heap = BinaryHeap::new();
        let mut minutes: Vec<u16> = self.by_stop[hub].iter().map(|edge| edge.dep).collect();
        minutes.dedup();
        for dep in minutes.into_iter().rev() {
            while let Some(half) = near.next_if(|half| half.dep >= dep) {
                let best = &mut reached_hub[half.hub as usize];
                *best = (*best).min(half.arr);
            }
            let mut touched = Vec::new();
            let mut board = |edges: &[Edge], known: &mut [u16], heap: &mut BinaryHeap<_>| {
                for edge in edges {
                    let to = edge.to as usize;
                    if to > hub && edge.arr < known[to] && edge.arr < later[to] {
                        known[to] = edge.arr;
                        touched.push(to);
                        heap.push(Reverse((edge.arr, edge.to)));
                    }
                }
            };
            let own = &self.by_stop[hub];
            let first = own.partition_point(|edge| edge.dep < dep);
            let last = own.partition_point(|edge| edge.dep <= dep);
            board(&own[first..last], &mut known, &mut heap);
            let mut settled = Vec::new();
            while let Some(Reverse((arr, stop))) = heap.pop() {
                let s = stop as usize;
                if arr > known[s] {
                    continue;
                }
                settled.push((s, arr));
                let by_higher =
                    |half: &Half| half.arr <= arr && reached_hub[half.hub as usize] <= half.dep;
                if far[s].iter().any(by_higher) {
                    continue;
                }
                found.push((stop, dep, arr));
                let on = &self.by_stop[s];
                board(&on[on.partition_point(|edge| edge.dep < arr)..], &mut known, &mut heap);
            }
            for (s, arr) in settled {
                later[s] = arr;
            }
            for s in touched {
                known[s] = u16::MAX;
            }
        }
        found
    }
}

/// The labels of the rule for good numbers, in file order.
pub fn labels_by_hubs(stops: usize, runs: &[u32]) -> Vec<Found> {
    let edges: Vec<Edge> = runs
        .chunks_exact(5)
        .map(|r| Edge { from: r[0] as u8, to: r[1] as u8, dep: r[2] as u16, arr: r[3] as u16 })
        .collect();
    let mirror =
        |e: &Edge| Edge { from: e.to, to: e.from, dep: mirrored(e.arr), arr: mirrored(e.dep) };
    let forward = Edges::new(stops, edges.iter().copied());
    let backward = Edges::new(stops, edges.iter().map(mirror));
    // In-labels as the forward search sees them, out-labels as the backward one does; and each as
    // the other one does.
    let (mut ins, mut outs) = (vec![Vec::new(); stops], vec![Vec::new(); stops]);
    let (mut ins_back, mut outs_on) = (vec![Vec::new(); stops], vec![Vec::new(); stops]);
    let mut found = Vec::new();
    for hub in 0..stops {
        let on = forward.of_hub(hub, &outs_on[hub], &ins);
        let back = backward.of_hub(hub, &ins_back[hub], &outs);
        let name = hub as u8;
        for (stop, dep, arr) in on {
            found.push((stop, true, name, dep, arr));
            ins[stop as usize].push(Half { hub: name, dep, arr });
            let (dep, arr) = (mirrored(arr), mirrored(dep));
            ins_back[stop as usize].push(Half { hub: name, dep, arr });
        }
        for (stop, dep, arr) in back {
            outs[stop as usize].push(Half { hub: name, dep, arr });
            let (dep, arr) = (mirrored(arr), mirrored(dep));
            found.push((stop, false, name, dep, arr));
            outs_on[stop as usize].push(Half { hub: name, dep, arr });
        }
    }
    found.sort_unstable();
    found
}

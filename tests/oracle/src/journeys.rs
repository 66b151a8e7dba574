//! Journeys and the three asks.
//!
//! Three ways to the same thing, compared with each other in the tests: every
//! journey of a tiny day as its list of runs; all time pairs by boarding; and
//! earliest arrivals and latest departures by relaxation to a fixpoint.

use crate::kinds::Day;
use std::collections::BTreeSet;

/// A time pair: first departure, last arrival.
pub type Pair = (u32, u32);

/// What is asked.
#[derive(Clone, Copy, Debug, PartialEq, Eq, Hash)]
pub enum Ask {
    Early { t: u32 },
    Late { t: u32 },
    Short { t: u32, t2: u32 },
}

impl Ask {
    /// Whether a pair is one the ask allows.
    pub fn fits(self, (dep, arr): Pair) -> bool {
        match self {
            Ask::Early { t } => dep >= t,
            Ask::Late { t } => arr <= t,
            Ask::Short { t, t2 } => dep >= t && arr <= t2,
        }
    }

    /// Whether `p` is better than `q`: what decides first, then the tie.
    pub fn better(self, p: Pair, q: Pair) -> bool {
        match self {
            Ask::Early { .. } => p.1 < q.1 || (p.1 == q.1 && p.0 > q.0),
            Ask::Late { .. } => p.0 > q.0 || (p.0 == q.0 && p.1 < q.1),
            Ask::Short { .. } => p.1 - p.0 < q.1 - q.0 || (p.1 - p.0 == q.1 - q.0 && p.0 < q.0),
        }
    }

    /// The best of the pairs that fit.
    pub fn best(self, pairs: impl IntoIterator<Item = Pair>) -> Option<Pair> {
        let mut best: Option<Pair> = None;
        for pair in pairs {
            if self.fits(pair) && best.map_or(true, |b| self.better(pair, b)) {
                best = Some(pair);
            }
        }
        best
    }
}

/// Every journey of a day, as its run numbers. For tiny days only.
pub fn all_journeys(day: &Day) -> Vec<Vec<usize>> {
    fn longer(day: &Day, journey: &mut Vec<usize>, all: &mut Vec<Vec<usize>>) {
        all.push(journey.clone());
        let last = day.runs[*journey.last().unwrap()];
        for (i, next) in day.runs.iter().enumerate() {
            if next.from == last.to && next.dep >= last.arr {
                journey.push(i);
                longer(day, journey, all);
                journey.pop();
            }
        }
    }
    let mut all = Vec::new();
    for first in 0..day.runs.len() {
        longer(day, &mut vec![first], &mut all);
    }
    all
}

/// The stops a journey passes, in order, its ends included.
pub fn stops_of(day: &Day, journey: &[usize]) -> Vec<usize> {
    let mut stops = vec![day.runs[journey[0]].from];
    for run in journey {
        stops.push(day.runs[*run].to);
    }
    stops
}

/// The time pair of a journey.
pub fn pair_of(day: &Day, journey: &[usize]) -> Pair {
    (day.runs[journey[0]].dep, day.runs[journey[journey.len() - 1]].arr)
}

/// All time pairs of journeys from u to v: for each first run, every run the
/// rider can come to board, until there is none to add.
pub fn pairs(day: &Day, u: usize, v: usize) -> BTreeSet<Pair> {
    let mut found = BTreeSet::new();
    for (first, run) in day.runs.iter().enumerate() {
        if run.from != u {
            continue;
        }
        let mut boarded = vec![false; day.runs.len()];
        boarded[first] = true;
        loop {
            let mut added = false;
            for next in 0..day.runs.len() {
                let can = !boarded[next]
                    && (0..day.runs.len()).any(|i| {
                        boarded[i]
                            && day.runs[i].to == day.runs[next].from
                            && day.runs[i].arr <= day.runs[next].dep
                    });
                if can {
                    boarded[next] = true;
                    added = true;
                }
            }
            if !added {
                break;
            }
        }
        for last in 0..day.runs.len() {
            if boarded[last] && day.runs[last].to == v {
                found.insert((run.dep, day.runs[last].arr));
            }
        }
    }
    found
}

/// Whether q takes away p's claim to be undominated.
pub fn dominates(q: Pair, p: Pair) -> bool {
    (q.0 > p.0 && q.1 <= p.1) || (q.0 >= p.0 && q.1 < p.1)
}

/// Those pairs that no pair of the same set dominates.
pub fn undominated(pairs: &BTreeSet<Pair>) -> BTreeSet<Pair> {
    pairs.iter().copied().filter(|p| !pairs.iter().any(|q| dominates(*q, *p))).collect()
}

/// Relaxes arrivals until no run makes any stop earlier.
fn relax_forward(day: &Day, reached: &mut [Option<u32>]) {
    loop {
        let mut changed = false;
        for run in &day.runs {
            let can_board = reached[run.from].map_or(false, |m| m <= run.dep);
            if can_board && reached[run.to].map_or(true, |m| run.arr < m) {
                reached[run.to] = Some(run.arr);
                changed = true;
            }
        }
        if !changed {
            break;
        }
    }
}

/// The earliest minute at each stop for a rider who stands at u at minute t.
pub fn earliest_from(day: &Day, u: usize, t: u32) -> Vec<Option<u32>> {
    let mut reached = vec![None; day.stops];
    reached[u] = Some(t);
    relax_forward(day, &mut reached);
    reached
}

/// The least arrival at each stop over journeys from u whose first departure is
/// exactly `dep`.
pub fn least_arrivals(day: &Day, u: usize, dep: u32) -> Vec<Option<u32>> {
    let mut reached = vec![None; day.stops];
    for run in &day.runs {
        if run.from == u && run.dep == dep {
            let sooner = reached[run.to].map_or(true, |m| run.arr < m);
            if sooner {
                reached[run.to] = Some(run.arr);
            }
        }
    }
    relax_forward(day, &mut reached);
    reached
}

/// The latest departure from each stop over journeys that are at v by minute a;
/// at v itself, a.
pub fn latest_to(day: &Day, v: usize, a: u32) -> Vec<Option<u32>> {
    let mut leaves = vec![None; day.stops];
    leaves[v] = Some(a);
    loop {
        let mut changed = false;
        for run in &day.runs {
            let in_time = leaves[run.to].map_or(false, |m| run.arr <= m);
            if in_time && leaves[run.from].map_or(true, |m| run.dep > m) {
                leaves[run.from] = Some(run.dep);
                changed = true;
            }
        }
        if !changed {
            break;
        }
    }
    leaves
}

/// The minutes at which some run leaves u, rising.
pub fn departures(day: &Day, u: usize) -> BTreeSet<u32> {
    day.runs.iter().filter(|r| r.from == u).map(|r| r.dep).collect()
}

/// For each stop v, one pair a departure of u: that departure and the least
/// arrival at v. Every other pair of a journey leaves with one of these and
/// arrives no sooner, so best and undominated pairs can be sought among them.
pub fn front(day: &Day, u: usize) -> Vec<BTreeSet<Pair>> {
    let mut fronts = vec![BTreeSet::new(); day.stops];
    for dep in departures(day, u) {
        for (v, least) in least_arrivals(day, u, dep).iter().enumerate() {
            if let Some(arr) = least {
                fronts[v].insert((dep, *arr));
            }
        }
    }
    fronts
}

/// The answer to an ask over all journeys, by relaxation.
pub fn answer(day: &Day, ask: Ask, u: usize, v: usize) -> Option<Pair> {
    ask.best(front(day, u)[v].iter().copied())
}

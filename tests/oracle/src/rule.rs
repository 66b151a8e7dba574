//! The label rule, by two ways that share nothing but the definitions of
//! [`crate::journeys`]: from every journey of a tiny day, and by relaxation.

use crate::journeys::{
    all_journeys, earliest_from, front, latest_to, pair_of, stops_of, undominated, Pair,
};
use crate::kinds::{Day, Refusal, MOST_LABELS};
use crate::tables::{Label, Side, Tables};
use std::collections::{BTreeMap, BTreeSet, HashMap};

/// Labels in file order: by owner, out-labels first, by hub, by departure.
fn in_file_order(mut labels: Vec<Label>) -> Vec<Label> {
    labels.sort_by_key(|l| (l.owner, l.side == Side::In, l.hub, l.dep));
    labels
}

/// Whether some run from u to v has exactly this pair.
fn is_a_run(day: &Day, u: usize, v: usize, pair: Pair) -> bool {
    day.runs.iter().any(|r| r.from == u && r.to == v && (r.dep, r.arr) == pair)
}

/// The rule from all journeys, each as its list of runs. For tiny days only.
pub fn labels_by_enumeration(day: &Day) -> Vec<Label> {
    let mut by_ends: BTreeMap<(usize, usize), Vec<(Pair, Vec<usize>)>> = BTreeMap::new();
    for journey in all_journeys(day) {
        let stops = stops_of(day, &journey);
        let ends = (stops[0], stops[stops.len() - 1]);
        if ends.0 != ends.1 {
            by_ends.entry(ends).or_default().push((pair_of(day, &journey), stops));
        }
    }
    let mut labels = Vec::new();
    for ((u, v), journeys) in by_ends {
        let pairs: BTreeSet<Pair> = journeys.iter().map(|j| j.0).collect();
        for pair in undominated(&pairs) {
            let with_pair = || journeys.iter().filter(|j| j.0 == pair).map(|j| &j.1);
            let goes_higher = with_pair().flatten().any(|w| *w < u && *w < v);
            if goes_higher {
                continue;
            }
            let between = with_pair().flat_map(|stops| &stops[1..stops.len() - 1]).min();
            let pivot = if is_a_run(day, u, v, pair) { None } else { between.copied() };
            labels.push(Label::between(u, v, pair, pivot));
        }
    }
    in_file_order(labels)
}

/// The rule by relaxation. For an undominated pair (d, a) of u to v a stop w is
/// strictly between on some journey with the pair exactly when the earliest
/// arrival at w leaving u at or after d is no later than the latest departure
/// from w that is at v by a.
pub fn labels(day: &Day) -> Vec<Label> {
    let mut from_u: HashMap<(usize, u32), Vec<Option<u32>>> = HashMap::new();
    let mut to_v: HashMap<(usize, u32), Vec<Option<u32>>> = HashMap::new();
    let mut labels = Vec::new();
    for u in 0..day.stops {
        for (v, pairs) in front(day, u).iter().enumerate() {
            if u == v {
                continue;
            }
            for (d, a) in undominated(pairs) {
                let reached = from_u.entry((u, d)).or_insert_with(|| earliest_from(day, u, d));
                let leaves = to_v.entry((v, a)).or_insert_with(|| latest_to(day, v, a));
                let lowest = (0..day.stops).filter(|w| *w != u && *w != v).find(
                    |w| matches!((reached[*w], leaves[*w]), (Some(at), Some(on)) if at <= on),
                );
                if lowest.map_or(false, |w| w < u && w < v) {
                    continue;
                }
                let pivot = if is_a_run(day, u, v, (d, a)) { None } else { lowest };
                labels.push(Label::between(u, v, (d, a), pivot));
            }
        }
    }
    in_file_order(labels)
}

/// The rule's tables, or 22.
pub fn tables(day: &Day) -> Result<Tables, Refusal> {
    let labels = labels(day);
    if labels.len() > MOST_LABELS {
        return Err(Refusal::plain(22));
    }
    Ok(Tables { stops: day.stops, labels })
}

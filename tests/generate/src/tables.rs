//! Tables files: good but arbitrary, good and hostile, and damaged.

use crate::days::Day;
use crate::Rng;

/// One label as it stands in the file; 255 is no pivot.
#[derive(Clone, Copy, Debug, PartialEq, Eq)]
pub struct Label {
    pub hub: u8,
    pub dep: u16,
    pub arr: u16,
    pub pivot: u8,
}

/// The out-labels and the in-labels of each stop.
#[derive(Clone, Debug, Default)]
pub struct Sets {
    pub stops: Vec<[Vec<Label>; 2]>,
}

pub const OUT: usize = 0;
pub const IN: usize = 1;
pub const NO_PIVOT: u8 = 255;

impl Sets {
    pub fn new(stops: u32) -> Sets {
        Sets { stops: (0..stops).map(|_| [Vec::new(), Vec::new()]).collect() }
    }

    /// Adds the label from u to v to the set it belongs in.
    pub fn add(&mut self, u: u32, v: u32, dep: u32, arr: u32, pivot: u8) {
        let (owner, side, hub) = if v < u { (u, OUT, v) } else { (v, IN, u) };
        let label = Label { hub: hub as u8, dep: dep as u16, arr: arr as u16, pivot };
        self.stops[owner as usize][side].push(label);
    }

    pub fn count(&self) -> usize {
        self.stops.iter().flatten().map(|set| set.len()).sum()
    }

    pub fn sort(&mut self) {
        for set in self.stops.iter_mut().flatten() {
            set.sort_by_key(|l| (l.hub, l.dep, l.arr));
        }
    }

    pub fn bytes(&self) -> Vec<u8> {
        let mut bytes = vec![1, self.stops.len() as u8];
        for set in self.stops.iter().flatten() {
            bytes.extend((set.len() as u16).to_le_bytes());
        }
        for l in self.stops.iter().flatten().flatten() {
            bytes.push(l.hub);
            bytes.extend(l.dep.to_le_bytes());
            bytes.extend(l.arr.to_le_bytes());
            bytes.push(l.pivot);
        }
        bytes
    }

    /// Back from bytes whose contents and length are in order; the labels
    /// themselves may be anything.
    pub fn from_bytes(bytes: &[u8]) -> Sets {
        let n = bytes[1] as usize;
        let mut sets = Sets::new(n as u32);
        let mut at = 2 + 4 * n;
        for i in 0..2 * n {
            let count = u16::from_le_bytes([bytes[2 + 2 * i], bytes[3 + 2 * i]]);
            for _ in 0..count {
                let b = &bytes[at..at + 6];
                sets.stops[i / 2][i % 2].push(Label {
                    hub: b[0],
                    dep: u16::from_le_bytes([b[1], b[2]]),
                    arr: u16::from_le_bytes([b[3], b[4]]),
                    pivot: b[5],
                });
                at += 6;
            }
        }
        sets
    }

    /// Where label k of the file stands: owner, side, index in its set.
    pub fn place(&self, mut k: usize) -> (usize, usize, usize) {
        for (owner, two) in self.stops.iter().enumerate() {
            for (side, set) in two.iter().enumerate() {
                if k < set.len() {
                    return (owner, side, k);
                }
                k -= set.len();
            }
        }
        panic!("no label {k}");
    }

    /// Without label k, the contents mended.
    pub fn without(&self, k: usize) -> Sets {
        let mut fewer = self.clone();
        let (owner, side, i) = self.place(k);
        fewer.stops[owner][side].remove(i);
        fewer
    }
}

/// Good tables of arbitrary labels, some of which open and most of which do
/// not; and a day with runs for most of the labels without a pivot.
pub fn arbitrary(rng: &mut Rng) -> (Sets, Day) {
    let stops = rng.pick(&[1, 2, 3, 4, 5, 6, 8, 12]);
    let last = rng.pick(&[6, 12, 30, 2_879]);
    let mut sets = Sets::new(stops);
    for owner in 1..stops {
        for side in [OUT, IN] {
            for hub in 0..owner {
                if rng.one_in(3) {
                    continue;
                }
                let (mut dep, mut arr) = (rng.below(4), 0);
                for _ in 0..rng.between(1, 6) {
                    let least = (dep + 1).max(arr + 1);
                    if least > last {
                        break;
                    }
                    arr = (least + rng.below(4)).min(last);
                    let pivot = rng.between(hub, stops - 1);
                    let pivot = if pivot == hub || pivot == owner || rng.one_in(3) {
                        NO_PIVOT
                    } else {
                        pivot as u8
                    };
                    let label = Label { hub: hub as u8, dep: dep as u16, arr: arr as u16, pivot };
                    sets.stops[owner as usize][side].push(label);
                    dep += rng.between(1, 4);
                }
            }
        }
    }
    let day = runs_for(rng, &sets, 10);
    (sets, day)
}

/// One run for each label without a pivot, in file order.
pub fn a_run_each(sets: &Sets) -> Day {
    let mut runs = Vec::new();
    for (owner, two) in sets.stops.iter().enumerate() {
        for (side, set) in two.iter().enumerate() {
            for l in set.iter().filter(|l| l.pivot == NO_PIVOT) {
                let (owner, hub) = (owner as u32, l.hub as u32);
                let (from, to) = if side == OUT { (owner, hub) } else { (hub, owner) };
                runs.push([from, to, l.dep as u32, l.arr as u32, 1]);
            }
        }
    }
    Day { stops: sets.stops.len() as u32, runs }
}

/// Runs for the labels without a pivot, all but one in `miss` of them, some of
/// them twice, and in any order.
pub fn runs_for(rng: &mut Rng, sets: &Sets, miss: u32) -> Day {
    let mut day = a_run_each(sets);
    day.runs.retain(|_| !rng.one_in(miss));
    for i in 0..day.runs.len() {
        if rng.one_in(5) {
            day.runs.push(day.runs[i]);
        }
        day.runs[i][4] = rng.between(1, 65_535);
    }
    rng.shuffle(&mut day.runs);
    day.runs.truncate(4_096);
    day
}

/// Tables whose one answer opens some 2,800 levels deep, and the day whose runs
/// it opens into. All of them are good by the rules for labels.
///
/// Every level is one label that opens into one leaf and the next level. While
/// the hub h stays an end, each level needs another stop at its other end, so h
/// serves for some 250 levels; then the level opens at h + 1 and goes on with
/// that as hub. `first` says whether the deep half is the first of the two
/// while a hub lasts; else all is mirrored in time and it is the second.
pub fn deep(first: bool) -> (Sets, Day) {
    let n = 255u32;
    let mut sets = Sets::new(n);
    let mut leaves: Vec<[u32; 4]> = Vec::new();
    // The deep label reaches from the hub at `from` to `other` at `until`.
    let (mut hub, mut from, mut until, mut other) = (0u32, 0u32, 2_879u32, 254u32);
    let mut levels: Vec<[u32; 5]> = Vec::new();
    loop {
        if until - from == 1 {
            leaves.push([hub, other, from, until]);
            break;
        }
        if other > hub + 3 {
            // Open at the stop below: the last minute is a leaf.
            levels.push([hub, other, from, until, other - 1]);
            leaves.push([other - 1, other, until - 1, until]);
            other -= 1;
            until -= 1;
            continue;
        }
        // The hub has no stop left: the first minute is a leaf, and the next
        // stop is the hub.
        levels.push([hub, other, from, until, hub + 1]);
        leaves.push([hub, hub + 1, from, from + 1]);
        hub += 1;
        from += 1;
        // From here the other end may be any stop above again.
        if until - from > 1 {
            levels.push([hub, other, from, until, 254]);
            leaves.push([254, other, until - 1, until]);
            other = 254;
            until -= 1;
        }
    }
    let mirror = |u: u32, v: u32, d: u32, a: u32| {
        if first {
            (u, v, d, a)
        } else {
            (v, u, 2_879 - a, 2_879 - d)
        }
    };
    for [u, v, d, a, pivot] in &levels {
        let (u, v, d, a) = mirror(*u, *v, *d, *a);
        sets.add(u, v, d, a, *pivot as u8);
    }
    let mut runs = Vec::new();
    for [u, v, d, a] in &leaves {
        let (u, v, d, a) = mirror(*u, *v, *d, *a);
        sets.add(u, v, d, a, NO_PIVOT);
        runs.push([u, v, d, a, 1]);
    }
    sets.sort();
    (sets, Day { stops: n, runs })
}

/// The stops to ask [`deep`] tables for, and its minutes are 0 to 2,879.
pub fn deep_ends(first: bool) -> (u32, u32) {
    if first {
        (0, 254)
    } else {
        (254, 0)
    }
}

/// `count` good labels in the two sets of stops 253 and 254 alone, on three
/// hubs: all out-labels of 254, all in-labels of 253.
pub fn one_stop(count: u32) -> Sets {
    let mut sets = Sets::new(255);
    for i in 0..count {
        let (set, of_set) = (i % 2, i / 2);
        let label = Label {
            hub: (of_set / 2_048) as u8,
            dep: (of_set % 2_048) as u16,
            arr: (of_set % 2_048 + 1) as u16,
            pivot: NO_PIVOT,
        };
        if set == 0 {
            sets.stops[254][OUT].push(label);
        } else {
            sets.stops[253][IN].push(label);
        }
    }
    sets
}

/// `count` good labels that all belong to stop 254, half out, half in, on as many
/// hubs as they need.
pub fn one_owner(count: u32) -> Sets {
    let mut sets = Sets::new(255);
    for i in 0..count {
        let (side, of_set) = ((i % 2) as usize, i / 2);
        let label = Label {
            hub: (of_set / 2_048) as u8,
            dep: (of_set % 2_048) as u16,
            arr: (of_set % 2_048 + 500) as u16,
            pivot: NO_PIVOT,
        };
        sets.stops[254][side].push(label);
    }
    sets
}

/// Tables with exactly `count` labels, good but for their number when it passes
/// 8,192, spread over all stops of a star with hub 0.
pub fn star(count: u32) -> Sets {
    let mut sets = Sets::new(255);
    for i in 0..count {
        let owner = 1 + i % 254;
        let of_owner = i / 254;
        let (side, at) = ((of_owner % 2) as usize, of_owner / 2);
        let label = Label {
            hub: 0,
            dep: (60 * at) as u16,
            arr: (60 * at + 40 + owner % 20) as u16,
            pivot: NO_PIVOT,
        };
        sets.stops[owner as usize][side].push(label);
    }
    sets
}

/// Tables with `count` labels between any two of 255 stops, all of which leave
/// at one minute.
pub fn one_minute(count: u32) -> Sets {
    let mut sets = Sets::new(255);
    for i in 0..count {
        let from = i % 255;
        let to = (from + 1 + i / 255) % 255;
        sets.add(from, to, 600, 601 + i % 100, NO_PIVOT);
    }
    sets.sort();
    sets
}

/// Files that differ from a good one where it counts: cut or longer, each byte
/// of the head changed, contents that do not fit.
pub fn damaged_heads(bytes: &[u8], mut see: impl FnMut(&[u8])) {
    for len in 0..bytes.len() {
        see(&bytes[..len]);
    }
    for more in [1usize, 5, 6, 7, 12] {
        let mut longer = bytes.to_vec();
        longer.resize(bytes.len() + more, 0);
        see(&longer);
    }
    let head = (2 + 4 * bytes[1] as usize).min(bytes.len());
    let mut changed = bytes.to_vec();
    for at in 0..head {
        for byte in [0u8, 1, 2, 3, 5, 31, 32, 33, 127, 128, 254, 255, bytes[at].wrapping_add(1)] {
            changed[at] = byte;
            see(&changed);
        }
        changed[at] = bytes[at];
    }
}

/// Every single byte of every label changed to values at and past the edges.
pub fn damaged_labels(bytes: &[u8], mut see: impl FnMut(&[u8])) {
    let n = bytes[1];
    let mut changed = bytes.to_vec();
    for at in 2 + 4 * n as usize..bytes.len() {
        let was = bytes[at];
        for byte in [
            0,
            1,
            n.wrapping_sub(1),
            n,
            n.wrapping_add(1),
            11,
            12,
            63,
            64,
            254,
            255,
            was.wrapping_add(1),
            was.wrapping_sub(1),
        ] {
            changed[at] = byte;
            see(&changed);
        }
        changed[at] = was;
    }
}

/// Two neighbouring labels of one set exchanged, or one written twice: the
/// order is broken at the first or the last label of the set.
pub fn disordered(sets: &Sets, mut see: impl FnMut(&[u8])) {
    for owner in 0..sets.stops.len() {
        for side in [OUT, IN] {
            let len = sets.stops[owner][side].len();
            for i in 1..len {
                let mut changed = sets.clone();
                changed.stops[owner][side].swap(i - 1, i);
                see(&changed.bytes());
            }
            for i in [0, len.saturating_sub(1)] {
                if i < len {
                    let mut changed = sets.clone();
                    let again = changed.stops[owner][side][i];
                    changed.stops[owner][side].insert(i, again);
                    see(&changed.bytes());
                }
            }
        }
    }
}

/// Contents whose counts add up to far more than 8,192, up to 33 million, with
/// lengths that would be right if the sum were kept in too few bits.
pub fn great_counts() -> Vec<Vec<u8>> {
    let mut all = Vec::new();
    let head = |n: u8, counts: &dyn Fn(usize) -> u16| {
        let mut bytes = vec![1, n];
        for i in 0..2 * n as usize {
            bytes.extend(counts(i).to_le_bytes());
        }
        bytes
    };
    all.push(head(255, &|_| 65_535));
    all.push(head(255, &|_| 32_768));
    all.push(head(128, &|_| 256)); // 65,536 in all
    all.push(head(1, &|_| 32_768));
    all.push(head(2, &|i| [65_535, 1, 0, 0][i]));
    all.push(head(2, &|i| [65_535, 2, 0, 0][i]));
    for mut wrapped in all.clone() {
        let sum: u32 =
            wrapped[2..].chunks(2).map(|c| u16::from_le_bytes([c[0], c[1]]) as u32).sum();
        let len = wrapped.len() + 6 * (sum % 65_536) as usize;
        wrapped.resize(len, 0);
        all.push(wrapped);
    }
    for count in [8_191, 8_192, 8_193, 8_194] {
        all.push(star(count).bytes());
        all.push(one_stop(count).bytes());
        all.push(one_owner(count).bytes());
    }
    all
}

/// One field of one label changed to another value that may still be good: its
/// pivot, or a minute by one or two.
pub fn nudged(rng: &mut Rng, sets: &Sets) -> Sets {
    let mut changed = sets.clone();
    if sets.count() == 0 {
        return changed;
    }
    let (owner, side, i) = sets.place(rng.below(sets.count() as u32) as usize);
    let n = sets.stops.len() as u32;
    let label = &mut changed.stops[owner][side][i];
    match rng.below(4) {
        0 => label.pivot = NO_PIVOT,
        1 => label.pivot = rng.below(n) as u8,
        2 => label.dep = label.dep.wrapping_add(rng.between(0, 4) as u16).wrapping_sub(2),
        _ => label.arr = label.arr.wrapping_add(rng.between(0, 4) as u16).wrapping_sub(2),
    }
    changed
}

/// All minutes that stand in the labels.
pub fn minutes(sets: &Sets) -> Vec<u32> {
    let labels = sets.stops.iter().flatten().flatten();
    labels.flat_map(|l| [l.dep as u32, l.arr as u32]).collect()
}

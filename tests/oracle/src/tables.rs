//! Tables: the file judged, labels read back, sketches, and the asks over them.

use crate::journeys::{Ask, Pair};
use crate::kinds::{Refusal, LAST_MINUTE, MOST_LABELS};

/// Which of its owner's two sets a label stands in.
#[derive(Clone, Copy, Debug, PartialEq, Eq, PartialOrd, Ord)]
pub enum Side {
    Out,
    In,
}

/// A label: of an owner, in one of its sets, with a hub.
#[derive(Clone, Copy, Debug, PartialEq, Eq)]
pub struct Label {
    pub owner: usize,
    pub side: Side,
    pub hub: usize,
    pub dep: u32,
    pub arr: u32,
    pub pivot: Option<usize>,
}

impl Label {
    /// The label of u and v with this pair: its hub is the lower stop number.
    pub fn between(u: usize, v: usize, (dep, arr): Pair, pivot: Option<usize>) -> Label {
        if v < u {
            Label { owner: u, side: Side::Out, hub: v, dep, arr, pivot }
        } else {
            Label { owner: v, side: Side::In, hub: u, dep, arr, pivot }
        }
    }

    pub fn from(&self) -> usize {
        match self.side {
            Side::Out => self.owner,
            Side::In => self.hub,
        }
    }

    pub fn to(&self) -> usize {
        match self.side {
            Side::Out => self.hub,
            Side::In => self.owner,
        }
    }

    pub fn pair(&self) -> Pair {
        (self.dep, self.arr)
    }
}

/// Tables in file order: label k of the file is `labels[k]`.
#[derive(Clone, Debug, PartialEq, Eq)]
pub struct Tables {
    pub stops: usize,
    pub labels: Vec<Label>,
}

/// A way from u to v over the tables.
#[derive(Clone, Copy, Debug, PartialEq, Eq)]
pub enum Sketch {
    Single(Label),
    Joined(Label, Label),
}

impl Sketch {
    pub fn pair(&self) -> Pair {
        match self {
            Sketch::Single(label) => label.pair(),
            Sketch::Joined(first, second) => (first.dep, second.arr),
        }
    }
}

fn two_bytes(bytes: &[u8], at: usize) -> u32 {
    bytes[at] as u32 + 256 * bytes[at + 1] as u32
}

/// Judges a tables file: 9, 10, then 11 with the first label that is not good.
pub fn judge_tables(bytes: &[u8]) -> Result<Tables, Refusal> {
    if bytes.len() < 2 || bytes[0] != 1 || bytes[1] == 0 {
        return Err(Refusal::plain(9));
    }
    let stops = bytes[1] as usize;
    if bytes.len() < 2 + 4 * stops {
        return Err(Refusal::plain(10));
    }
    let mut sets: Vec<(usize, Side, usize)> = Vec::new();
    for stop in 0..stops {
        sets.push((stop, Side::Out, two_bytes(bytes, 2 + 4 * stop) as usize));
        sets.push((stop, Side::In, two_bytes(bytes, 4 + 4 * stop) as usize));
    }
    let count: usize = sets.iter().map(|s| s.2).sum();
    if count > MOST_LABELS || bytes.len() != 2 + 4 * stops + 6 * count {
        return Err(Refusal::plain(10));
    }
    let mut labels: Vec<Label> = Vec::new();
    for (owner, side, in_set) in sets {
        for i in 0..in_set {
            let at = 2 + 4 * stops + 6 * labels.len();
            let hub = bytes[at] as usize;
            let dep = two_bytes(bytes, at + 1);
            let arr = two_bytes(bytes, at + 3);
            let pivot = match bytes[at + 5] {
                255 => None,
                p => Some(p as usize),
            };
            let label = Label { owner, side, hub, dep, arr, pivot };
            let fields_good = hub < owner
                && dep < arr
                && arr <= LAST_MINUTE
                && pivot.map_or(true, |p| p > hub && p < stops && p != owner);
            let follows = i == 0 || {
                let before = labels[labels.len() - 1];
                before.hub < hub || (before.hub == hub && before.dep < dep && before.arr < arr)
            };
            if !fields_good || !follows {
                return Err(Refusal::at(11, labels.len()));
            }
            labels.push(label);
        }
    }
    Ok(Tables { stops, labels })
}

impl Tables {
    /// The file of these tables; its labels must stand in file order.
    pub fn bytes(&self) -> Vec<u8> {
        let count = |stop, side| {
            self.labels.iter().filter(|l| l.owner == stop && l.side == side).count() as u16
        };
        let mut bytes = vec![1, self.stops as u8];
        for stop in 0..self.stops {
            bytes.extend(count(stop, Side::Out).to_le_bytes());
            bytes.extend(count(stop, Side::In).to_le_bytes());
        }
        for label in &self.labels {
            bytes.push(label.hub as u8);
            bytes.extend((label.dep as u16).to_le_bytes());
            bytes.extend((label.arr as u16).to_le_bytes());
            bytes.push(label.pivot.map_or(255, |p| p as u8));
        }
        bytes
    }

    /// Every sketch of u to v, one by one.
    pub fn each_sketch(&self, u: usize, v: usize, mut see: impl FnMut(Sketch)) {
        for label in &self.labels {
            if label.from() == u && label.to() == v {
                see(Sketch::Single(*label));
            }
        }
        let out_of_u = |l: &&Label| l.owner == u && l.side == Side::Out;
        let in_of_v = |l: &&Label| l.owner == v && l.side == Side::In;
        let seconds: Vec<Label> = self.labels.iter().filter(in_of_v).copied().collect();
        for first in self.labels.iter().filter(out_of_u) {
            for second in &seconds {
                if first.hub == second.hub && first.arr <= second.dep {
                    see(Sketch::Joined(*first, *second));
                }
            }
        }
    }

    /// The pair of the best sketch.
    pub fn ask(&self, ask: Ask, u: usize, v: usize) -> Option<Pair> {
        let mut best: Option<Pair> = None;
        self.each_sketch(u, v, |sketch| {
            best = ask.best(best.into_iter().chain([sketch.pair()]));
        });
        best
    }

    /// Among the sketches with the best pair, the one whose rides are listed: a
    /// single label before a joined pair, then the lowest hub.
    pub fn chosen(&self, ask: Ask, u: usize, v: usize) -> Option<Sketch> {
        let best = self.ask(ask, u, v)?;
        let mut singles = Vec::new();
        let mut joined = Vec::new();
        self.each_sketch(u, v, |sketch| {
            if sketch.pair() == best {
                match sketch {
                    Sketch::Single(_) => singles.push(sketch),
                    Sketch::Joined(first, _) => joined.push((first.hub, sketch)),
                }
            }
        });
        // In good tables a pair has at most one sketch of each kind and hub.
        assert!(singles.len() <= 1);
        match singles.first() {
            Some(single) => Some(*single),
            None => joined.into_iter().min_by_key(|j| j.0).map(|j| j.1),
        }
    }

    /// The label u to p that leaves at `dep`, if there is one.
    pub fn leaving(&self, u: usize, p: usize, dep: u32) -> Option<Label> {
        self.labels.iter().copied().find(|l| l.from() == u && l.to() == p && l.dep == dep)
    }

    /// The label p to v that arrives at `arr`, if there is one.
    pub fn arriving(&self, p: usize, v: usize, arr: u32) -> Option<Label> {
        self.labels.iter().copied().find(|l| l.from() == p && l.to() == v && l.arr == arr)
    }

    /// The two labels a label with pivot p opens into, if both are there and
    /// the first arrives no later than the second leaves.
    pub fn halves(&self, label: &Label, p: usize) -> Option<(Label, Label)> {
        let first = self.leaving(label.from(), p, label.dep)?;
        let second = self.arriving(p, label.to(), label.arr)?;
        (first.arr <= second.dep).then_some((first, second))
    }
}

/// Judges what is asked of tables with n stops: 12, 13, 14, 15.
pub fn judge_ask(n: usize, ask: Ask, from: u32, to: u32) -> Result<(), Refusal> {
    if from as usize >= n || to as usize >= n {
        return Err(Refusal::plain(12));
    }
    if from == to {
        return Err(Refusal::plain(13));
    }
    let over = match ask {
        Ask::Early { t } | Ask::Late { t } => t > LAST_MINUTE,
        Ask::Short { t, t2 } => t > LAST_MINUTE || t2 > LAST_MINUTE,
    };
    if over {
        return Err(Refusal::plain(14));
    }
    if let Ask::Short { t, t2 } = ask {
        if t > t2 {
            return Err(Refusal::plain(15));
        }
    }
    Ok(())
}

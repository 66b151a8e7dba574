//! The tables file: judged once, then read by sets.

use crate::{Refusal, MINUTES, MOST_LABELS};

pub(crate) const NO_PIVOT: u8 = 255;

#[derive(Clone, Copy, Debug)]
pub(crate) struct Label {
    pub hub: u8,
    pub dep: u16,
    pub arr: u16,
    pub pivot: u8,
}

impl Label {
    #[inline]
    fn from_bytes(b: &[u8]) -> Label {
        Label {
            hub: b[0],
            dep: u16::from_le_bytes([b[1], b[2]]),
            arr: u16::from_le_bytes([b[3], b[4]]),
            pivot: b[5],
        }
    }
}

/// One set of labels, sorted by hub, departure and arrival.
#[derive(Clone, Copy)]
pub(crate) struct Set<'a>(&'a [u8]);

impl<'a> Set<'a> {
    #[inline]
    pub fn len(self) -> usize {
        self.0.len() / 6
    }

    #[inline]
    pub fn get(self, i: usize) -> Label {
        Label::from_bytes(&self.0[6 * i..6 * i + 6])
    }

    pub fn iter(self) -> impl Iterator<Item = Label> + 'a {
        self.0.chunks_exact(6).map(Label::from_bytes)
    }

    /// The first place whose label is not before what is sought.
    fn first(self, before: impl Fn(Label) -> bool) -> usize {
        let (mut low, mut high) = (0, self.len());
        while low < high {
            let mid = (low + high) / 2;
            if before(self.get(mid)) {
                low = mid + 1;
            } else {
                high = mid;
            }
        }
        low
    }

    /// The labels with this hub.
    pub fn with_hub(self, hub: u8) -> Set<'a> {
        let from = self.first(|l| l.hub < hub);
        let to = self.first(|l| l.hub <= hub);
        Set(&self.0[6 * from..6 * to])
    }

    /// The label with this hub that leaves at `dep`.
    pub fn leaving(self, hub: u8, dep: u16) -> Option<Label> {
        let at = self.first(|l| (l.hub, l.dep) < (hub, dep));
        (at < self.len()).then(|| self.get(at)).filter(|l| l.hub == hub && l.dep == dep)
    }

    /// The label with this hub that arrives at `arr`.
    pub fn arriving(self, hub: u8, arr: u16) -> Option<Label> {
        let at = self.first(|l| (l.hub, l.arr) < (hub, arr));
        (at < self.len()).then(|| self.get(at)).filter(|l| l.hub == hub && l.arr == arr)
    }
}

/// Good tables.
pub(crate) struct Tables<'a> {
    pub stops: u32,
    labels: &'a [u8],
    /// Where each set begins, counted in labels: out 0, in 0, out 1, ..
    starts: [u16; 511],
}

impl<'a> Tables<'a> {
    /// Judges a file: 9, 10, 11.
    pub fn judge(bytes: &'a [u8]) -> Result<Tables<'a>, Refusal> {
        let (1, n @ 1..) = (match bytes {
            [first, n, ..] => (*first, *n),
            _ => return Err(Refusal::plain(9)),
        }) else {
            return Err(Refusal::plain(9));
        };
        let body = 2 + 4 * n as usize;
        let Some(contents) = bytes.get(2..body) else {
            return Err(Refusal::plain(10));
        };
        let mut starts = [0; 511];
        let mut count = 0usize;
        for (set, two) in contents.chunks_exact(2).enumerate() {
            count += u16::from_le_bytes([two[0], two[1]]) as usize;
            if count > MOST_LABELS {
                return Err(Refusal::plain(10));
            }
            starts[set + 1] = count as u16;
        }
        let labels = &bytes[body..];
        if labels.len() != 6 * count {
            return Err(Refusal::plain(10));
        }
        let tables = Tables { stops: n as u32, labels, starts };
        for set in 0..2 * n as usize {
            let owner = (set / 2) as u8;
            if let Some(i) = first_bad(tables.set(set), owner, n) {
                return Err(Refusal::at(11, starts[set] as usize + i));
            }
        }
        Ok(tables)
    }

    #[inline]
    fn set(&self, set: usize) -> Set<'a> {
        let (from, to) = (self.starts[set] as usize, self.starts[set + 1] as usize);
        Set(&self.labels[6 * from..6 * to])
    }

    #[inline]
    pub fn outs(&self, stop: u8) -> Set<'a> {
        self.set(2 * stop as usize)
    }

    #[inline]
    pub fn ins(&self, stop: u8) -> Set<'a> {
        self.set(2 * stop as usize + 1)
    }

    /// The label u to v that leaves at `dep`.
    pub fn leaving(&self, u: u8, v: u8, dep: u16) -> Option<Label> {
        if v < u {
            self.outs(u).leaving(v, dep)
        } else {
            self.ins(v).leaving(u, dep)
        }
    }

    /// The label u to v that arrives at `arr`.
    pub fn arriving(&self, u: u8, v: u8, arr: u16) -> Option<Label> {
        if v < u {
            self.outs(u).arriving(v, arr)
        } else {
            self.ins(v).arriving(u, arr)
        }
    }

    /// The two labels that a label u to v with a pivot opens into, if they meet.
    pub fn halves(&self, u: u8, v: u8, label: Label) -> Option<(Label, Label)> {
        let first = self.leaving(u, label.pivot, label.dep)?;
        let second = self.arriving(label.pivot, v, label.arr)?;
        (first.arr <= second.dep).then_some((first, second))
    }
}

/// The first label of a set that is not good.
#[inline]
fn first_bad(set: Set, owner: u8, n: u8) -> Option<usize> {
    let (mut hub, mut dep, mut arr) = (-1i16, 0, 0);
    set.iter().position(|l| {
        let good = l.hub < owner
            && l.dep < l.arr
            && (l.arr as usize) < MINUTES
            && (l.pivot == NO_PIVOT || (l.pivot > l.hub && l.pivot < n && l.pivot != owner))
            && (l.hub as i16 > hub || (l.hub as i16 == hub && l.dep > dep && l.arr > arr));
        (hub, dep, arr) = (l.hub as i16, l.dep, l.arr);
        !good
    })
}

//! The three asks: judge, then one pass over two label sets.

use crate::tables::Tables;
use crate::{Refusal, MINUTES};

pub(crate) type Pair = (u16, u16);

/// What is asked.
#[derive(Clone, Copy)]
pub enum Ask {
    Early(u32),
    Late(u32),
    Short(u32, u32),
}

/// 12, 13, 14, 15.
pub(crate) fn judge(stops: u32, from: u32, to: u32, ask: Ask) -> Result<(u8, u8), Refusal> {
    if from >= stops || to >= stops {
        return Err(Refusal::plain(12));
    }
    if from == to {
        return Err(Refusal::plain(13));
    }
    let (t, t2) = match ask {
        Ask::Early(t) | Ask::Late(t) => (t, t),
        Ask::Short(t, t2) => (t, t2),
    };
    if t >= MINUTES as u32 || t2 >= MINUTES as u32 {
        return Err(Refusal::plain(14));
    }
    if t > t2 {
        return Err(Refusal::plain(15));
    }
    Ok((from as u8, to as u8))
}

/// The best sketch's pair. The ask is judged, so its minutes fit 16 bits.
pub(crate) fn best(tables: &Tables, u: u8, v: u8, ask: Ask) -> Option<Pair> {
    match ask {
        Ask::Early(t) => {
            let t = t as u16;
            join(tables, u, v, |(d, _)| d >= t, |p, q| (p.1, q.0) < (q.1, p.0))
        }
        Ask::Late(t) => {
            let t = t as u16;
            join(tables, u, v, |(_, a)| a <= t, |p, q| (q.0, p.1) < (p.0, q.1))
        }
        Ask::Short(t, t2) => {
            let (t, t2) = (t as u16, t2 as u16);
            let key = |p: Pair| (p.1 - p.0, p.0);
            join(tables, u, v, |(d, a)| d >= t && a <= t2, |p, q| key(p) < key(q))
        }
    }
}

/// Each out-label of u meets the first in-label of v with its hub that leaves at
/// or after it arrives; later ones only arrive later.
#[inline]
fn join(
    tables: &Tables,
    u: u8,
    v: u8,
    fits: impl Fn(Pair) -> bool,
    better: impl Fn(Pair, Pair) -> bool,
) -> Option<Pair> {
    let mut best = None;
    let mut offer = |pair: Pair| {
        if fits(pair) && best.map_or(true, |b| better(pair, b)) {
            best = Some(pair);
        }
    };
    let (outs, ins) = (tables.outs(u), tables.ins(v));
    let singles = if v < u { outs.with_hub(v) } else { ins.with_hub(u) };
    for label in singles.iter() {
        offer((label.dep, label.arr));
    }
    let (mut i, mut j) = (0, 0);
    while i < outs.len() && j < ins.len() {
        let (first, second) = (outs.get(i), ins.get(j));
        if first.hub < second.hub {
            i += 1;
        } else if first.hub > second.hub || second.dep < first.arr {
            j += 1;
        } else {
            offer((first.dep, second.arr));
            i += 1;
        }
    }
    best
}

fn found(bytes: &[u8], from: u32, to: u32, ask: Ask) -> Result<Pair, Refusal> {
    let tables = Tables::judge(bytes)?;
    let (u, v) = judge(tables.stops, from, to, ask)?;
    best(&tables, u, v, ask).ok_or(Refusal::plain(16))
}

pub fn ask(tables: &[u8], from: u32, to: u32, ask: Ask, answer: &mut [u32; 4]) {
    *answer = match found(tables, from, to, ask) {
        Ok((dep, arr)) => [0, dep as u32, arr as u32, 0],
        Err(refusal) => refusal.answer(),
    };
}

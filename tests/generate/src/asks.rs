//! What to ask.

use crate::Rng;

/// One ask: which of the three, its stops and its minutes. `t2` counts only for
/// the short ask.
#[derive(Clone, Copy, Debug, PartialEq, Eq)]
pub struct Ask {
    pub kind: Kind,
    pub from: u32,
    pub to: u32,
    pub t: u32,
    pub t2: u32,
}

#[derive(Clone, Copy, Debug, PartialEq, Eq)]
pub enum Kind {
    Early,
    Late,
    Short,
}

impl Ask {
    /// The ask as somebody else's kind of ask: one constructor for each of the
    /// three, of the minutes that it takes.
    pub fn said<T>(
        self,
        early: impl FnOnce(u32) -> T,
        late: impl FnOnce(u32) -> T,
        short: impl FnOnce(u32, u32) -> T,
    ) -> T {
        match self.kind {
            Kind::Early => early(self.t),
            Kind::Late => late(self.t),
            Kind::Short => short(self.t, self.t2),
        }
    }
}

pub const KINDS: [Kind; 3] = [Kind::Early, Kind::Late, Kind::Short];

/// A good ask of n stops, n at least 2, its minutes mostly near those given.
pub fn good(rng: &mut Rng, n: u32, minutes: &[u32]) -> Ask {
    let from = rng.below(n);
    let to = (from + rng.between(1, n - 1)) % n;
    let minute = |rng: &mut Rng| {
        if minutes.is_empty() || rng.one_in(6) {
            rng.pick(&[0, 1, 1_440, 2_878, 2_879])
        } else {
            (rng.pick(minutes) + rng.below(3)).saturating_sub(1).min(2_879)
        }
    };
    let (x, y) = (minute(rng), minute(rng));
    match rng.pick(&KINDS) {
        Kind::Short => Ask { kind: Kind::Short, from, to, t: x.min(y), t2: x.max(y) },
        kind => Ask { kind, from, to, t: x, t2: 0 },
    }
}

/// An ask with numbers at or past the edges, often refused, sometimes for two
/// reasons at once.
pub fn odd(rng: &mut Rng, n: u32, minutes: &[u32]) -> Ask {
    let mut ask = if n >= 2 {
        good(rng, n, minutes)
    } else {
        Ask { kind: rng.pick(&KINDS), from: 0, to: 0, t: 0, t2: 0 }
    };
    for _ in 0..rng.between(1, 2) {
        // Some would pass for a good number if only their low bits were kept.
        let (wide_from, wide_to) = (ask.from.wrapping_add(256), ask.to.wrapping_add(65_536));
        let stop = rng.pick(&[0, n - 1, n, n + 1, 255, 256, wide_from, wide_to, u32::MAX]);
        let wide = ask.t.wrapping_add(65_536);
        let minute = rng.pick(&[0, 2_878, 2_879, 2_880, 2_881, 65_535, 65_536, wide, u32::MAX]);
        match rng.below(5) {
            0 => ask.from = stop,
            1 => ask.to = stop,
            2 => ask.t = minute,
            3 => ask.t2 = minute,
            _ => ask.to = ask.from,
        }
    }
    ask
}

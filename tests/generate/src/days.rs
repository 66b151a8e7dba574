//! Timetable numbers.

use crate::Rng;

/// A stop count and five numbers a run: from, to, departure, arrival, trip.
#[derive(Clone, Debug, PartialEq, Eq)]
pub struct Day {
    pub stops: u32,
    pub runs: Vec<[u32; 5]>,
}

impl Day {
    pub fn numbers(&self) -> Vec<u32> {
        self.runs.iter().flatten().copied().collect()
    }

    pub fn run_count(&self) -> u32 {
        self.runs.len() as u32
    }
}

/// What the runs of a random day are drawn from.
#[derive(Clone, Copy, Debug)]
pub struct Shape {
    pub stops: u32,
    pub runs: u32,
    /// Minutes are from here ..
    pub first: u32,
    /// .. to here.
    pub last: u32,
    /// The longest a run takes.
    pub longest: u32,
}

/// Runs drawn freely.
pub fn random(rng: &mut Rng, shape: Shape) -> Day {
    let mut runs = Vec::new();
    for _ in 0..if shape.stops < 2 { 0 } else { shape.runs } {
        let from = rng.below(shape.stops);
        let to = (from + rng.between(1, shape.stops - 1)) % shape.stops;
        let dep = rng.between(shape.first, shape.last - 1);
        let arr = dep + rng.between(1, shape.longest.min(shape.last - dep));
        runs.push([from, to, dep, arr, rng.between(1, 65_535)]);
    }
    Day { stops: shape.stops, runs }
}

/// Up to 8 runs on few stops and few minutes: every journey can be listed.
pub fn tiny(rng: &mut Rng) -> Day {
    let last = rng.between(2, 9);
    let shape = Shape {
        stops: rng.between(2, 5),
        runs: rng.between(0, 8),
        first: 0,
        last,
        longest: rng.between(1, last),
    };
    random(rng, shape)
}

/// Few stops, few minutes, many runs, some of them repeated: nearly every
/// journey ties with another, joins fall on one minute, and rides go in rings.
pub fn ties(rng: &mut Rng) -> Day {
    let last = rng.between(3, 14);
    let shape = Shape {
        stops: rng.between(2, 7),
        runs: rng.between(1, 40),
        first: 0,
        last,
        longest: rng.between(1, 4),
    };
    let mut day = random(rng, shape);
    for _ in 0..rng.below(8) {
        let again = day.runs[rng.below(day.run_count()) as usize];
        let at = rng.below(day.run_count() + 1) as usize;
        day.runs.insert(at, again);
    }
    day
}

/// A random day of middling size.
pub fn middling(rng: &mut Rng) -> Day {
    let last = rng.pick(&[40, 300, 2_879]);
    let shape = Shape {
        stops: rng.between(2, 24),
        runs: rng.between(0, 120),
        first: 0,
        last,
        longest: rng.between(1, last / 4),
    };
    random(rng, shape)
}

/// Rides between outer stops and stop 0 and back, so that waiting at a stop and
/// riding to the hub and back again have the same time pair.
pub fn there_and_back(rng: &mut Rng) -> Day {
    let stops = rng.between(3, 6);
    let last = rng.between(6, 20);
    let mut runs = Vec::new();
    for _ in 0..rng.between(2, 24) {
        let outer = rng.between(1, stops - 1);
        let dep = rng.below(last - 1);
        let mid = rng.between(dep + 1, last - 1);
        let arr = rng.between(mid + 1, last);
        let trip = rng.between(1, 65_535);
        runs.push([outer, 0, dep, mid, trip]);
        runs.push([0, outer, mid, arr, trip]);
        if rng.one_in(2) {
            let other = 1 + (outer + rng.below(stops - 2)) % (stops - 1);
            if other != outer {
                runs.push([outer, other, arr.min(last - 1), last, trip]);
                runs.push([other, outer, 0, dep.max(1), trip]);
            }
        }
    }
    rng.shuffle(&mut runs);
    Day { stops, runs }
}

/// Any of the small kinds.
pub fn small(rng: &mut Rng) -> Day {
    match rng.below(6) {
        0 => tiny(rng),
        1 | 2 => ties(rng),
        3 => there_and_back(rng),
        4 => middling(rng),
        _ => {
            // Near the last minute, and at the ends of the stop numbers.
            let shape = Shape {
                stops: rng.pick(&[1, 2, 3, 254, 255]),
                runs: rng.between(0, 30),
                first: 2_860,
                last: 2_879,
                longest: 19,
            };
            random(rng, shape)
        }
    }
}

/// A day whose own tables list 2,879 rides, one for every minute, on 14 stops.
///
/// A label is opened at the highest-ranking stop between its ends, and what is
/// ridden between the first and the last time at that stop is lost to waiting.
/// So on every stretch the highest stop must be passed exactly once, which is
/// the order of the marks on a ruler: the stop at minute m is the higher the
/// more often 2 divides m. The twelve marks and the two ends are 14 stops.
pub fn chain() -> Day {
    let stop_at = |minute: u32| match minute {
        0 => 12,
        2_879 => 13,
        m => 11 - m.trailing_zeros(),
    };
    let runs = (0..2_879).map(|m| [stop_at(m), stop_at(m + 1), m, m + 1, 1 + m]).collect();
    Day { stops: 14, runs }
}

/// The two stops whose journey over the whole [`chain`] is asked for.
pub const CHAIN_ENDS: (u32, u32) = (12, 13);

/// A day with exactly `labels` labels by the rule. Sweeps run along a line of
/// stops whose numbers fall: every two stops of a line then have a label, the
/// stops between them ranking lower. Single runs between two further stops,
/// each later than the one before, make up the count.
pub fn with_labels(labels: u32) -> Day {
    let line = 10;
    let a_sweep = line * (line - 1) / 2;
    let mut runs = Vec::new();
    for sweep in 0..labels / a_sweep {
        for i in 0..line - 1 {
            let dep = sweep * line + i;
            runs.push([line - 1 - i, line - 2 - i, dep, dep + 1, 1 + sweep]);
        }
    }
    for single in 0..labels % a_sweep {
        runs.push([line + 1, line, single, single + 1, 1]);
    }
    Day { stops: line + 2, runs }
}

/// A day near every limit at once, 4,096 runs and 8,191 labels, on 4 stops: 1,365
/// sweeps along 0, 1, 2, 3 have six labels for three runs each, and one run more.
pub fn fullest() -> Day {
    let mut runs = Vec::new();
    for sweep in 0..1_365 {
        for i in 0..3 {
            runs.push([i, i + 1, sweep + i, sweep + i + 1, 1 + sweep]);
        }
    }
    runs.push([3, 0, 0, 1, 1]);
    Day { stops: 4, runs }
}

/// A city of 255 stops and up to 4,096 runs that keeps within 8,192 labels: 127
/// lines of two stops each run to the hub, stop 0, and back, all day.
pub fn city(rng: &mut Rng) -> Day {
    city_of(rng, 4_096)
}

/// The same city with so many runs, 512 or more: the trips of each line are then
/// fewer and further apart.
pub fn city_of(rng: &mut Rng, count: u32) -> Day {
    let trips = count / 508;
    let mut runs = Vec::new();
    for line in 0..127 {
        let (near, far) = (1 + line, 128 + line);
        for trip in 0..trips {
            let dep = 2_400 / trips * trip + rng.below(60);
            let (a, b) = (rng.between(4, 20), rng.between(4, 20));
            runs.push([far, near, dep, dep + a, 1 + line]);
            runs.push([near, 0, dep + a, dep + a + b, 1 + line]);
            let back = dep + 100 + rng.below(60);
            runs.push([0, near, back, back + b, 1 + line]);
            runs.push([near, far, back + b, back + b + a, 1 + line]);
        }
    }
    while runs.len() < count as usize {
        let dep = rng.below(2_800);
        let line = rng.below(127);
        runs.push([1 + line, 128 + line, dep, dep + rng.between(1, 30), 1 + line]);
    }
    rng.shuffle(&mut runs);
    Day { stops: 255, runs }
}

/// 4,096 runs between any of 255 stops: far more than 8,192 labels.
pub fn sprawl(rng: &mut Rng) -> Day {
    random(rng, Shape { stops: 255, runs: 4_096, first: 0, last: 2_879, longest: 60 })
}

/// 4,096 runs, all from stop 0 to stop 1.
pub fn one_pair(rng: &mut Rng) -> Day {
    let runs = (0..4_096u32)
        .map(|i| {
            let dep = i % 2_800;
            [0, 1, dep, dep + rng.between(1, 70), 1 + i]
        })
        .collect();
    Day { stops: 2, runs }
}

/// 4,096 runs on few stops within few minutes: every scan meets many ties.
pub fn many_ties(rng: &mut Rng) -> Day {
    random(rng, Shape { stops: 12, runs: 4_096, first: 0, last: 120, longest: 5 })
}

/// 4,096 runs that all leave at one minute, from and to any of 255 stops.
pub fn one_minute(rng: &mut Rng) -> Day {
    let runs = (0..4_096u32)
        .map(|i| {
            let from = rng.below(255);
            let to = (from + rng.between(1, 254)) % 255;
            [from, to, 600, 600 + rng.between(1, 90), 1 + i]
        })
        .collect();
    Day { stops: 255, runs }
}

/// 4,096 runs of one minute each, all of them from 0 to 1 and back again, so
/// that a journey can pass a stop thousands of times.
pub fn shuttle() -> Day {
    let runs = (0..4_096u32)
        .map(|i| {
            let dep = i % 2_879;
            [dep % 2, 1 - dep % 2, dep, dep + 1, 1]
        })
        .collect();
    Day { stops: 2, runs }
}

/// Numbers at and past the edges of what is judged.
pub const EDGES: [u32; 18] = [
    0,
    1,
    2,
    253,
    254,
    255,
    256,
    257,
    2_878,
    2_879,
    2_880,
    4_096,
    65_535,
    65_536,
    65_537,
    0x7FFF_FFFF,
    0x8000_0000,
    u32::MAX,
];

/// Stop counts and run counts at and past their limits.
pub const STOP_COUNTS: [u32; 9] = [0, 1, 2, 254, 255, 256, 257, 65_536, u32::MAX];
pub const RUN_COUNTS: [u32; 9] =
    [0, 1, 4_095, 4_096, 4_097, 65_536, 0x3333_3334, 0x8000_0000, u32::MAX];

/// One number of a day's list put at an edge.
pub fn damaged(rng: &mut Rng, day: &Day) -> Day {
    let mut worse = day.clone();
    if worse.runs.is_empty() {
        worse.stops = rng.pick(&STOP_COUNTS);
        return worse;
    }
    for _ in 0..rng.between(1, 2) {
        let run = rng.below(day.run_count()) as usize;
        let field = rng.below(5) as usize;
        worse.runs[run][field] = if rng.one_in(4) {
            // Near what it was: equal ends, equal minutes.
            worse.runs[run][rng.below(5) as usize]
        } else {
            rng.pick(&EDGES)
        };
    }
    worse
}

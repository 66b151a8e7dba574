//! Times: the least of several rounds, ours and plain turn by turn, in several
//! passes over all rows, since a machine can be slow for seconds on end.

use std::hint::black_box;
use std::time::{Duration, Instant};

const ROUNDS: usize = 7;
/// A round repeats a short call until about this much time has passed.
const ROUND: Duration = Duration::from_millis(15);

/// One line of the report, in seconds a call.
pub struct Row {
    pub entry: &'static str,
    pub input: String,
    pub plain: f64,
    pub ours: Option<f64>,
}

impl Row {
    pub fn ratio(&self) -> Option<f64> {
        self.ours.map(|ours| ours / self.plain)
    }

    /// The least times of two measurements of one row.
    pub fn keep_least(&mut self, again: &Row) {
        assert!(self.entry == again.entry && self.input == again.input);
        self.plain = self.plain.min(again.plain);
        self.ours = self.ours.zip(again.ours).map(|(a, b)| a.min(b));
    }

    pub fn print(&self) {
        let plain = 1e6 * self.plain;
        let (entry, input) = (self.entry, &self.input);
        match (self.ours, self.ratio()) {
            (Some(ours), Some(ratio)) => {
                let ours = 1e6 * ours;
                println!("{entry:<14} {input:<44} {ours:>12.2} {plain:>12.2} {ratio:>7.2}");
            }
            _ => println!("{entry:<14} {input:<44} {:>12} {plain:>12.2} {:>7}", "-", "-"),
        }
    }
}

/// How often a call is repeated in a round.
fn repeats(call: &mut dyn FnMut()) -> u32 {
    let start = Instant::now();
    call();
    let once = start.elapsed().max(Duration::from_nanos(20));
    (ROUND.as_nanos() / once.as_nanos()).clamp(1, 100_000) as u32
}

fn round(call: &mut dyn FnMut(), times: u32) -> f64 {
    let start = Instant::now();
    for _ in 0..times {
        call();
        black_box(());
    }
    start.elapsed().as_secs_f64() / times as f64
}

/// Measures plain and, where it is linked, ours.
pub fn row(
    entry: &'static str,
    input: String,
    plain: &mut dyn FnMut(),
    ours: Option<&mut dyn FnMut()>,
) -> Row {
    let mut best = Row { entry, input, plain: f64::MAX, ours: None };
    let plain_times = repeats(plain);
    let mut ours = ours.map(|call| {
        let times = repeats(call);
        (call, times)
    });
    for _ in 0..ROUNDS {
        best.plain = best.plain.min(round(plain, plain_times));
        if let Some((call, times)) = &mut ours {
            let time = round(*call, *times);
            best.ours = Some(best.ours.map_or(time, |known: f64| known.min(time)));
        }
    }
    best.print();
    best
}

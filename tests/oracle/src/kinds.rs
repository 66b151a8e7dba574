//! Runs, days, refusals, and the judging of given numbers.

/// Most stops of a timetable.
pub const MOST_STOPS: usize = 255;
/// Most runs of a timetable.
pub const MOST_RUNS: usize = 4_096;
/// Most labels of all sets of a tables file together.
pub const MOST_LABELS: usize = 8_192;
/// The last minute.
pub const LAST_MINUTE: u32 = 2_879;
/// The greatest trip number; the least is 1.
pub const LAST_TRIP: u32 = 65_535;
/// Most bytes of a code; the least is 1.
pub const MOST_CODE: usize = 64;
/// Most bytes of a timetable text.
pub const MOST_TEXT: usize = 1_048_576;
/// Most bytes of input the program holds.
pub const MOST_INPUT: usize = 65_536;
/// Room the reader needs for run numbers.
pub const RUNS_ROOM: usize = 20_480;
/// Room the reader needs for the starts and lengths of codes.
pub const CODES_ROOM: usize = 510;

/// One run: from a stop to another at its minutes.
#[derive(Clone, Copy, Debug, PartialEq, Eq)]
pub struct Run {
    pub from: usize,
    pub to: usize,
    pub dep: u32,
    pub arr: u32,
    pub trip: u32,
}

/// One service day: its stops are `0 .. stops`, its runs are numbered in order.
#[derive(Clone, Debug, PartialEq, Eq)]
pub struct Day {
    pub stops: usize,
    pub runs: Vec<Run>,
}

impl Day {
    /// The five numbers of each run, run by run.
    pub fn numbers(&self) -> Vec<u32> {
        self.runs.iter().flat_map(|r| [r.from as u32, r.to as u32, r.dep, r.arr, r.trip]).collect()
    }
}

/// A refusal: its number, its place, and for 20 alone the stop.
#[derive(Clone, Copy, Debug, PartialEq, Eq)]
pub struct Refusal {
    pub number: u32,
    pub place: u32,
    pub stop: u32,
}

impl Refusal {
    /// A refusal whose place is 0.
    pub fn plain(number: u32) -> Refusal {
        Refusal::at(number, 0)
    }

    /// A refusal at a line, a run, a label.
    pub fn at(number: u32, place: usize) -> Refusal {
        Refusal { number, place: place as u32, stop: 0 }
    }

    /// A gap at a run and a stop.
    pub fn gap(run: usize, stop: usize) -> Refusal {
        Refusal { number: 20, place: run as u32, stop: stop as u32 }
    }

    /// The four numbers given back over the C boundary.
    pub fn answer(self) -> [u32; 4] {
        [self.number, self.place, self.stop, 0]
    }
}

/// Given numbers: 8, then 17 for the list or the working room, then run by run
/// 5, 6, 7. `room_is_enough` says whether the working room lent is.
pub fn judge_numbers(
    stops: u32,
    run_count: u32,
    numbers: &[u32],
    room_is_enough: bool,
) -> Result<Day, Refusal> {
    if stops == 0 || stops as usize > MOST_STOPS || run_count as usize > MOST_RUNS {
        return Err(Refusal::plain(8));
    }
    let run_count = run_count as usize;
    if numbers.len() < 5 * run_count || !room_is_enough {
        return Err(Refusal::plain(17));
    }
    let mut runs = Vec::new();
    for i in 0..run_count {
        let from = numbers[5 * i];
        let to = numbers[5 * i + 1];
        let dep = numbers[5 * i + 2];
        let arr = numbers[5 * i + 3];
        let trip = numbers[5 * i + 4];
        if from >= stops || to >= stops {
            return Err(Refusal::at(5, i));
        }
        if from == to {
            return Err(Refusal::at(6, i));
        }
        if !minutes_and_trip_in_range(dep, arr, trip) {
            return Err(Refusal::at(7, i));
        }
        runs.push(Run { from: from as usize, to: to as usize, dep, arr, trip });
    }
    Ok(Day { stops: stops as usize, runs })
}

/// What refusal 7 is about: minutes up to 2,879, trips 1 to 65,535, DEP < ARR.
pub fn minutes_and_trip_in_range(dep: u32, arr: u32, trip: u32) -> bool {
    dep <= LAST_MINUTE && arr <= LAST_MINUTE && 1 <= trip && trip <= LAST_TRIP && dep < arr
}

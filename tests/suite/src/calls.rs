//! One call to the subject, everything it leaves compared with the oracle.

use crate::lent::Lent;
use crate::{count_call, Asks, Builds, Checks, Program, Reads, Rides};
use generate::asks::Ask;
use generate::days::{self, Day};
use generate::{example, Rng};
use oracle::calls::{self as right, Numbers, Room};
use oracle::journeys;

/// A day's numbers as they are given to a call: the list may be cut or longer.
#[derive(Clone, Debug)]
pub struct Given {
    pub stops: u32,
    pub run_count: u32,
    pub runs: Vec<u32>,
}

impl Given {
    pub fn new(day: &Day) -> Given {
        Given { stops: day.stops, run_count: day.run_count(), runs: day.numbers() }
    }

    /// A day's numbers with some of them damaged, or the counts or the list.
    pub fn damaged(rng: &mut Rng, day: &Day) -> Given {
        let mut given = Given::new(&days::damaged(rng, day));
        match rng.below(8) {
            0 => given.stops = rng.pick(&days::STOP_COUNTS),
            1 => given.run_count = rng.pick(&days::RUN_COUNTS),
            2 => {
                let len = rng.below(given.runs.len() as u32 + 1) as usize;
                given.runs.truncate(len);
            }
            3 => given.runs.extend([0, u32::MAX, 300, 3, 2, 1]),
            _ => {}
        }
        given
    }

    /// T's numbers, and T's numbers with one fault each: those that are refused
    /// by themselves, and those that only do not go with T's tables.
    pub fn with_each_fault() -> Vec<Given> {
        let faults: [fn(&mut Given); 14] = [
            |_| {},
            |g| g.stops = 0,
            |g| g.stops = 256,
            |g| g.run_count = 4_097,
            |g| g.runs.truncate(29),
            |g| g.runs[25] = 4,
            |g| g.runs[26] = 4,
            |g| g.runs[26] = 0,
            |g| g.runs[27] = 2_880,
            |g| g.runs[29] = 0,
            |g| g.stops = 5,
            |g| g.stops = 255,
            |g| g.run_count = 5,
            |g| g.run_count = 0,
        ];
        let faulty = |fault: fn(&mut Given)| {
            let mut given = Given::new(&example::day());
            fault(&mut given);
            given
        };
        faults.into_iter().map(faulty).collect()
    }

    fn numbers(&self) -> Numbers<'_> {
        Numbers { stops: self.stops, run_count: self.run_count, runs: &self.runs }
    }

    fn shown(&self) -> String {
        let some = &self.runs[..self.runs.len().min(60)];
        format!(
            "{} stops, {} runs in {} numbers {some:?}",
            self.stops,
            self.run_count,
            self.runs.len()
        )
    }
}

pub fn ask_of(ask: Ask) -> journeys::Ask {
    use journeys::Ask::*;
    ask.said(|t| Early { t }, |t| Late { t }, |t, t2| Short { t, t2 })
}

fn shown_bytes(bytes: &[u8]) -> String {
    let some = &bytes[..bytes.len().min(240)];
    format!("{} bytes {some:02x?}", bytes.len())
}

/// The lent answer as the array it is.
fn four(answer: &mut Lent<u32>) -> &mut [u32; 4] {
    answer.part().try_into().unwrap()
}

/// `kiosk_read` with these lengths of room; gives back the answer.
pub fn read<S: Reads>(text: &[u8], runs_room: usize, codes_room: usize) -> [u32; 4] {
    count_call();
    let (mut runs, mut codes) = (Lent::new(runs_room), Lent::new(codes_room));
    let mut answer = Lent::new(4);
    S::read(text, runs.part(), codes.part(), four(&mut answer));
    let (right_answer, right_runs, right_codes) = right::read(text, runs_room, codes_room);
    let context = || {
        let some = String::from_utf8_lossy(&text[..text.len().min(500)]);
        format!("read of {} bytes {some:?}", text.len())
    };
    answer.must_hold("answer", &right_answer, &context);
    runs.must_hold("runs", &right_runs, &context);
    codes.must_hold("codes", &right_codes, &context);
    right_answer
}

/// `kiosk_build` with these lengths of tables and working room.
pub fn build<S: Builds>(given: &Given, tables_len: usize, room: usize) -> [u32; 4] {
    let room = Room { lent: room, needs: S::build_room() };
    let right = right::build(given.numbers(), tables_len, room);
    build_expecting::<S>(given, room.lent, right)
}

/// The same where the right answer and tables are known already.
pub fn build_expecting<S: Builds>(
    given: &Given,
    room: usize,
    (right_answer, right_tables): ([u32; 4], Vec<u8>),
) -> [u32; 4] {
    count_call();
    let (mut tables, mut work) = (Lent::new(right_tables.len()), Lent::new(room));
    let mut answer = Lent::new(4);
    S::build(given.numbers(), tables.part(), work.part(), four(&mut answer));
    let context =
        || format!("build of {}; tables {}, room {room}", given.shown(), right_tables.len());
    answer.must_hold("answer", &right_answer, &context);
    tables.must_hold("tables", &right_tables, &context);
    work.must_be_zero("working room", &context);
    right_answer
}

/// `kiosk_check` with this much working room.
pub fn check<S: Checks>(tables: &[u8], given: &Given, room: usize) -> [u32; 4] {
    count_call();
    let mut work = Lent::new(room);
    let mut answer = Lent::new(4);
    S::check(tables, given.numbers(), work.part(), four(&mut answer));
    let right = right::check(tables, given.numbers(), Room { lent: room, needs: S::check_room() });
    let context = || format!("check of {}; {}; room {room}", shown_bytes(tables), given.shown());
    answer.must_hold("answer", &right, &context);
    work.must_be_zero("working room", &context);
    right
}

/// `kiosk_early`, `kiosk_late` or `kiosk_short`.
pub fn ask<S: Asks>(tables: &[u8], ask: Ask) -> [u32; 4] {
    count_call();
    let mut answer = Lent::new(4);
    S::ask(tables, ask, four(&mut answer));
    let right = right::ask(tables, ask_of(ask), ask.from, ask.to);
    let context = || format!("{ask:?} of {}", shown_bytes(tables));
    answer.must_hold("answer", &right, &context);
    right
}

/// `kiosk_early_rides` or a sister of it, with these lengths of list and room.
pub fn ask_rides<S: Rides>(
    tables: &[u8],
    given: &Given,
    ask: Ask,
    list_len: usize,
    room: usize,
) -> ([u32; 4], Vec<u32>) {
    count_call();
    let (mut list, mut work) = (Lent::new(list_len), Lent::new(room));
    let mut answer = Lent::new(4);
    S::ask_rides(tables, given.numbers(), ask, list.part(), work.part(), four(&mut answer));
    let room_of = Room { lent: room, needs: S::rides_room() };
    let (right_answer, right_list) =
        right::ask_rides(tables, given.numbers(), ask_of(ask), ask.from, ask.to, list_len, room_of);
    let context = || {
        format!(
            "{ask:?} with rides of {}; {}; list {list_len}, room {room}",
            shown_bytes(tables),
            given.shown()
        )
    };
    answer.must_hold("answer", &right_answer, &context);
    list.must_hold("list", &right_list, &context);
    work.must_be_zero("working room", &context);
    (right_answer, right_list)
}

/// The program, its whole output compared.
pub fn journey<S: Program>(input: &[u8]) -> Vec<u8> {
    let right = oracle::journey::output(input);
    journey_expecting::<S>(input, &right);
    right
}

/// The same where the right output is known already.
pub fn journey_expecting<S: Program>(input: &[u8], right: &[u8]) {
    count_call();
    let printed = S::journey(input);
    if printed != right {
        let at = (0..printed.len().min(right.len()))
            .find(|i| printed[*i] != right[*i])
            .unwrap_or(printed.len().min(right.len()));
        let near = |bytes: &[u8]| {
            let part = &bytes[at.saturating_sub(40).min(bytes.len())..bytes.len().min(at + 40)];
            String::from_utf8_lossy(part).into_owned()
        };
        panic!(
            "journey: output of {} bytes, expected {}; first different at {at}: {:?}, expected {:?}; input {:?}",
            printed.len(),
            right.len(),
            near(&printed),
            near(right),
            String::from_utf8_lossy(&input[..input.len().min(2_000)])
        );
    }
}

//! The programs for people: what `tables_build`, `tables_check` and `tables_ask`
//! say of a timetable text, a tables file and ask lines.

use crate::kinds::{Refusal, MOST_INPUT, MOST_LABELS, MOST_STOPS};
use crate::tables::{judge_tables, Label, Tables};
use crate::text::{self, Timetable};
use crate::{journey, rule, verdict};

/// Most bytes of a tables file.
pub const MOST_TABLES: usize = 2 + 4 * MOST_STOPS + 6 * MOST_LABELS;

/// What each refusal means: number 1 first.
const WORDS: [&str; 22] = [
    "the first line is not \"timetable 1\"",
    "the line is missing or unfinished, or has no form that may stand here",
    "the stop code is empty, too long, or holds a character that no code has",
    "an earlier stop has this code",
    "no stop has this code",
    "the run ends at the stop where it starts",
    "a number is out of range, or the run does not arrive after it leaves",
    "there are more stops or runs, or a longer text, than the limits allow",
    "the file holds no tables: it is too short, begins otherwise, or has no stops",
    "the tables are cut short or too long, or have more labels than the limit",
    "the tables hold a label that is not good, or not in its order",
    "no stop has this number",
    "both stops are the same",
    "the minute is later than the last one of a day",
    "the first minute is later than the second",
    "there is no journey",
    "the lent room is too short",
    "a run or a label of the journey is missing",
    "the tables hold a label that the timetable does not support",
    "the tables miss a journey that begins with this run and ends at this stop",
    "the tables are for another number of stops than the timetable's",
    "the timetable needs more labels than the limit",
];

/// A refusal, its place and its meaning.
fn refused(refusal: Refusal) -> Vec<u8> {
    let Refusal { number, place, stop } = refusal;
    let place = match number {
        1..=8 if place > 0 => format!(" at line {place} of the timetable"),
        11 | 19 => format!(" at label {place}"),
        20 => format!(" at run {place}, stop {stop}"),
        _ => String::new(),
    };
    format!("refused {number}{place}: {}\n", WORDS[number as usize - 1]).into_bytes()
}

/// What is said first of these bytes where there are more than there may be.
pub fn long(name: &str, bytes: &[u8], most: usize) -> Vec<u8> {
    if bytes.len() > most {
        format!("{name} has more than {most} bytes\n").into_bytes()
    } else {
        Vec::new()
    }
}

/// What a refusal of the check names.
fn spelled(text: &[u8], timetable: &Timetable, tables: &Tables, refusal: Refusal) -> Vec<u8> {
    let code = |stop: usize| String::from_utf8_lossy(timetable.code(text, stop)).into_owned();
    match refusal.number {
        19 => {
            let label: &Label = &tables.labels[refusal.place as usize];
            let change = label.pivot.map_or(String::new(), |p| format!(", change at {}", code(p)));
            let (k, from, to) = (refusal.place, code(label.from()), code(label.to()));
            let (dep, arr) = label.pair();
            format!("label {k}: {from} to {to}, leaves {dep}, arrives {arr}{change}\n").into_bytes()
        }
        20 => {
            let run = timetable.runs[refusal.place as usize];
            let (i, from, to) = (refusal.place, code(run.from), code(run.to));
            let (j, stop) = (refusal.stop, code(refusal.stop as usize));
            format!("run {i}: {from} {to} {} {} {}\nstop {j}: {stop}\n", run.dep, run.arr, run.trip)
                .into_bytes()
        }
        _ => Vec::new(),
    }
}

/// Label `k` of tables whose labels are not all good, by its numbers.
fn spelled_bad(text: &[u8], timetable: &Timetable, bytes: &[u8], k: usize) -> Vec<u8> {
    let two = |at: usize| bytes[at] as usize + 256 * bytes[at + 1] as usize;
    let (mut set, mut end) = (0, two(2));
    while end <= k {
        set += 1;
        end += two(2 + 2 * set);
    }
    let owner = set / 2;
    let side = if set % 2 == 0 { "an out-label" } else { "an in-label" };
    let at = 2 + 4 * bytes[1] as usize + 6 * k;
    let (hub, dep, arr) = (bytes[at], two(at + 1), two(at + 3));
    let pivot = match bytes[at + 5] {
        255 => "no pivot".to_string(),
        pivot => format!("pivot {pivot}"),
    };
    let mut said = format!(
        "label {k}: {side} of stop {owner}, hub {hub}, leaves {dep}, arrives {arr}, {pivot}\n"
    )
    .into_bytes();
    if owner < timetable.codes.len() {
        said.extend(format!("stop {owner}: ").into_bytes());
        said.extend(timetable.code(text, owner));
        said.push(b'\n');
    }
    said
}

/// The timetable and the tables, or what is said where the check refuses them.
fn admit(text: &[u8], tables: &[u8]) -> Result<(Timetable, Tables), Vec<u8>> {
    let judged = judge_tables(tables).map_err(|refusal| {
        let mut said = refused(refusal);
        if let (11, Ok(timetable)) = (refusal.number, text::read(text)) {
            said.extend(spelled_bad(text, &timetable, tables, refusal.place as usize));
        }
        said
    })?;
    let timetable = text::read(text).map_err(refused)?;
    if judged.stops != timetable.codes.len() {
        return Err(refused(Refusal::plain(21)));
    }
    match verdict::check(&judged, &timetable.day()) {
        Ok(()) => Ok((timetable, judged)),
        Err(refusal) => {
            let mut said = refused(refusal);
            said.extend(spelled(text, &timetable, &judged, refusal));
            Err(said)
        }
    }
}

/// What `tables_check` says.
pub fn checked(text: &[u8], tables: &[u8]) -> Vec<u8> {
    match admit(text, tables) {
        Ok(_) => b"accepted\n".to_vec(),
        Err(said) => said,
    }
}

/// What `tables_build` says, and the file that it leaves, if any.
pub fn built(text: &[u8]) -> (Vec<u8>, Option<Vec<u8>>) {
    let made = text::read(text).and_then(|timetable| {
        let tables = rule::tables(&timetable.day())?;
        Ok((timetable, tables))
    });
    match made {
        Err(refusal) => (refused(refusal), None),
        Ok((timetable, tables)) => {
            let bytes = tables.bytes();
            let (stops, runs) = (timetable.codes.len(), timetable.runs.len());
            let (labels, long) = (tables.labels.len(), bytes.len());
            let said =
                format!("written: {stops} stops, {runs} runs, {labels} labels, {long} bytes\n");
            (said.into_bytes(), Some(bytes))
        }
    }
}

/// What `tables_ask` prints for these ask lines.
pub fn asked(text: &[u8], tables: &[u8], asks: &[u8]) -> Vec<u8> {
    match admit(text, tables) {
        Err(said) => said,
        Ok(_) if asks.len() > MOST_INPUT => {
            [long("standard input", asks, MOST_INPUT), refused(Refusal::plain(8))].concat()
        }
        Ok((timetable, tables)) => journey::answers(text, &timetable, &tables, asks),
    }
}

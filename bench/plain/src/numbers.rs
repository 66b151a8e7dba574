//! Given numbers.

use crate::{Refusal, MINUTES, MOST_RUNS, MOST_STOPS};

/// Judges timetable numbers: 8, 17, then run by run 5, 6, 7. Gives back the
/// numbers of the runs and nothing beyond them.
pub(crate) fn judge(
    stops: u32,
    run_count: u32,
    runs: &[u32],
    room_is_enough: bool,
) -> Result<&[u32], Refusal> {
    if stops == 0 || stops > MOST_STOPS as u32 || run_count > MOST_RUNS as u32 {
        return Err(Refusal::plain(8));
    }
    let Some(runs) = runs.get(..5 * run_count as usize).filter(|_| room_is_enough) else {
        return Err(Refusal::plain(17));
    };
    for (i, run) in runs.chunks_exact(5).enumerate() {
        if run[0] >= stops || run[1] >= stops {
            return Err(Refusal::at(5, i));
        }
        if run[0] == run[1] {
            return Err(Refusal::at(6, i));
        }
        if run[2] >= run[3] || run[3] >= MINUTES as u32 || run[4] == 0 || run[4] > 65_535 {
            return Err(Refusal::at(7, i));
        }
    }
    Ok(runs)
}

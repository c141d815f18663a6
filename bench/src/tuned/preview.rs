//! What a pick would do after a schedule, and refusals 1 to 9.

use super::plan::checked;
use super::refusal;
use super::run::{schedule_right, Last, Run, Step};

fn previewed(plan: &[u8], schedule: &[u8], pick: u64) -> Result<[u8; 8], u64> {
    let plan = checked(plan)?;
    if schedule.len() > 4095 {
        return Err(refusal(8, 0));
    }
    schedule_right(schedule)?;
    if pick > 7 {
        return Err(refusal(9, schedule.len()));
    }
    let mut run = Run::new(plan, Last::default());
    run.go_on(schedule);
    if run.stop != Step::Moved {
        return Ok([5, run.stop as u8, 0, 0, 0, 0, 0, 0]);
    }
    let before = run.moves;
    run.go_on(&[pick as u8]);
    let [_, high, middle, low] = run.sink.bits.to_be_bytes();
    Ok(match run.stop {
        Step::Race => [3, 1, 0, 0, high, middle, low, 0],
        Step::Moved if run.moves == before => {
            let [state, named, field] = run.state(pick as usize);
            [0, state, named, field, 0, 0, 0, 0]
        }
        Step::Moved if run.sink.bits == 0 => [1, 0, 0, 0, 0, 0, 0, 0],
        Step::Moved => [2, 0, 0, 0, high, middle, low, 0],
        stop => [4, stop as u8, 0, 0, 0, 0, 0, 0],
    })
}

pub fn preview(plan: &[u8], schedule: &[u8], pick: u64, out: &mut [u8; 8]) -> u64 {
    match previewed(plan, schedule, pick) {
        Ok(bytes) => {
            *out = bytes;
            0
        }
        Err(refused) => refused,
    }
}

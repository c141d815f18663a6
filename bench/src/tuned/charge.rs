//! The charge for a run, and refusals 1 to 9.

use super::plan::checked;
use super::run::{schedule_right, Last, Run, Step};

fn charged(plan: &[u8], schedule: &[u8], option: u64) -> Result<u64, u64> {
    let plan = checked(plan)?;
    schedule_right(schedule)?;
    let mut run = Run::new(plan, Last::default());
    run.go_on(schedule);
    if !matches!(run.stop, Step::Moved | Step::Race) {
        return Ok(0);
    }
    let sum = 1200 + 35 * run.moves.div_ceil(100) as u64;
    Ok(if option > 0 { (115 * sum).div_ceil(100) } else { sum })
}

pub fn charge(plan: &[u8], schedule: &[u8], option: u64) -> u64 {
    charged(plan, schedule, option).unwrap_or_else(|refused| refused)
}

//! The charge for a run, and refusals 1 to 9.

use super::{run::play, Refusal};

/// The cents of a run of the schedule on the plan.
pub fn charge(plan: &[u8], schedule: &[u8], option: bool) -> Result<usize, Refusal> {
    let outcome = play(plan, schedule, &mut [0; 12288])?;
    if outcome.word > 1 {
        return Ok(0);
    }
    let sum = 1200 + 35 * outcome.moves.div_ceil(100);
    Ok(if option { (115 * sum).div_ceil(100) } else { sum })
}

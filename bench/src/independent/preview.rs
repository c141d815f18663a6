//! What a pick would do after a schedule, and refusals 1 to 9.

use super::{run::play, Refusal, State};

pub enum Preview {
    Passed(State),
    Moved,
    Recorded([u8; 3]),
    Race([u8; 3]),
    NoRoom(u8),
    Stopped(u8),
}

/// By one run of the schedule with the pick behind it.
pub fn preview(plan: &[u8], schedule: &[u8], pick: u64) -> Result<Preview, Refusal> {
    let mut picks = Vec::with_capacity(schedule.len() + 1);
    picks.extend_from_slice(schedule);
    picks.push(pick.min(255) as u8);
    let mut log = [0; 12288];
    let outcome = play(plan, &picks, &mut log)?;
    let last = || log[3 * outcome.records - 3..3 * outcome.records].try_into().unwrap();
    Ok(match outcome.word {
        word if outcome.picks < schedule.len() => Preview::Stopped(word),
        0 if outcome.moves == outcome.before.0 => Preview::Passed(outcome.states[pick as usize]),
        0 if outcome.records == outcome.before.1 => Preview::Moved,
        0 => Preview::Recorded(last()),
        1 => Preview::Race(last()),
        word => Preview::NoRoom(word),
    })
}

//! All interleavings of a short plan, and refusals 1 to 9 and 18 to 20.

use super::plan::{check, Plan};
use super::run::{run, Outcome};
use super::{Refusal, State};

const MOST: u64 = 64;

fn replay(plan: &Plan, picks: &[u8]) -> Outcome {
    run(plan, picks, &mut [0; 3 * MOST as usize])
}

/// The lowest thread from this one on that can move or stop the run after these picks.
fn able(outcome: &Outcome, from: usize) -> Option<u8> {
    let can = |t: &usize| matches!(outcome.states[*t], State::Ready | State::Lacking(..));
    if outcome.word > 0 {
        return None;
    }
    (from..8).find(can).map(|t| t as u8)
}

fn listed(plan: &Plan, n: usize, schedule: &[u8]) -> bool {
    if schedule.len() > n {
        return false;
    }
    let outcome = replay(plan, schedule);
    let met = outcome.moves + usize::from(outcome.word > 0);
    met == schedule.len() && (met == n || able(&outcome, 0).is_none())
}

/// On from the first `from` picks of the area, always by the lowest thread; how many picks that makes.
fn go_on(plan: &Plan, n: usize, area: &mut [u8], from: usize) -> usize {
    for at in from..n {
        match able(&replay(plan, &area[..at]), 0) {
            Some(pick) => area[at] = pick,
            None => return at,
        }
    }
    n
}

pub fn first_interleaving(plan: &[u8], n: u64, area: &mut [u8]) -> Result<usize, Refusal> {
    let plan = check(plan)?;
    if n > MOST {
        return Err((18, 0));
    }
    if area.len() < n as usize {
        return Err((20, 0));
    }
    Ok(go_on(&plan, n as usize, area, 0))
}

/// None where the list is over.
pub fn next_interleaving(plan: &[u8], n: u64, schedule: &[u8], area: &mut [u8]) -> Result<Option<usize>, Refusal> {
    let plan = check(plan)?;
    if schedule.len() > 4096 {
        return Err((8, 0));
    }
    if let Some(i) = schedule.iter().position(|&n| n > 7) {
        return Err((9, i));
    }
    if n > MOST {
        return Err((18, 0));
    }
    let n = n as usize;
    if !listed(&plan, n, schedule) {
        return Err((19, 0));
    }
    if area.len() < n {
        return Err((20, 0));
    }
    for at in (0..schedule.len()).rev() {
        if let Some(pick) = able(&replay(&plan, &schedule[..at]), usize::from(schedule[at]) + 1) {
            area[..at].copy_from_slice(&schedule[..at]);
            area[at] = pick;
            return Ok(Some(go_on(&plan, n, area, at + 1)));
        }
    }
    Ok(None)
}

//! All interleavings of a short plan, and refusals 1 to 9 and 18 to 20: the first in one run, in which a pick that would be passed over changes
//! nothing, the following one in two.

use super::plan::checked;
use super::refusal;
use super::run::{schedule_right, Last, Run, Step};

const MOST: u64 = 64;

/// On from `at` picks, always by the lowest thread, to at most n; how many picks that makes.
#[inline(always)]
fn lowest(run: &mut Run<Last>, n: usize, area: &mut [u8], at: usize) -> usize {
    for at in at..n {
        match run.lowest() {
            Some(pick) => area[at] = pick,
            None => return at,
        }
        if run.stop != Step::Moved {
            return at + 1;
        }
    }
    n
}

fn first(plan: &[u8], n: u64, area: &mut [u8]) -> Result<u64, u64> {
    let plan = checked(plan)?;
    if n > MOST {
        return Err(refusal(18, 0));
    }
    if area.len() < n as usize {
        return Err(refusal(20, 0));
    }
    let mut run = Run::new(plan, Last::default());
    Ok(lowest(&mut run, n as usize, area, 0) as u64)
}

pub fn first_interleaving(plan: &[u8], n: u64, area: &mut [u8]) -> u64 {
    first(plan, n, area).unwrap_or_else(|refused| refused)
}

/// Where the schedule can be followed last, and by which thread; none where it is not listed.
#[inline(always)]
fn followed(run: &mut Run<Last>, n: usize, schedule: &[u8]) -> Option<Option<(usize, u8)>> {
    let mut last = None;
    if schedule.len() > n {
        return None;
    }
    for (at, &pick) in schedule.iter().enumerate() {
        if let Some(other) = run.able(usize::from(pick) + 1) {
            last = Some((at, other));
        }
        run.go_on(&[pick]);
        if run.stop != Step::Moved {
            return (at + 1 == schedule.len()).then_some(last);
        }
        if run.moves <= at {
            return None;
        }
    }
    (schedule.len() == n || run.able(0).is_none()).then_some(last)
}

fn next(plan: &[u8], n: u64, schedule: &[u8], area: &mut [u8]) -> Result<u64, u64> {
    let plan = checked(plan)?;
    schedule_right(schedule)?;
    if n > MOST {
        return Err(refusal(18, 0));
    }
    let mut run = Run::new(plan, Last::default());
    let Some(last) = followed(&mut run, n as usize, schedule) else { return Err(refusal(19, 0)) };
    if area.len() < n as usize {
        return Err(refusal(20, 0));
    }
    let Some((at, pick)) = last else { return Ok(1 << 32) };
    run.restart();
    run.go_on(&schedule[..at]);
    run.go_on(&[pick]);
    area[..at].copy_from_slice(&schedule[..at]);
    area[at] = pick;
    if run.stop != Step::Moved {
        return Ok(at as u64 + 1);
    }
    Ok(lowest(&mut run, n as usize, area, at + 1) as u64)
}

pub fn next_interleaving(plan: &[u8], n: u64, schedule: &[u8], area: &mut [u8]) -> u64 {
    next(plan, n, schedule, area).unwrap_or_else(|refused| refused)
}

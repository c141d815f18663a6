//! Ruqzhemil: a verified checker of plans for relay test sets.
//!
//! [`check`] a plan, [`play`] a schedule on it and [`judge`] the log; [`preview`] a pick before it is taken; bring both threads of a race to their accesses
//! ([`witness`]); write a plan in the one way that all equal plans share ([`canonical`]), or as text ([`show`]), and [`read`] a text as a plan; list the [`interleavings`] of a short plan;
//! say how many moves a plan can need ([`bound`]); [`charge`] for a run; write a log as a [`comtrade`] data file. Each takes any bytes;
//! `include/ruqzhemil.h` says what the answers mean, and the proofs of the static library below show that they are right. Later versions may have more
//! refusals, kinds, stops, states and previews than are named here: `Other` has their number.

#[path = "../../include/ruqzhemil.rs"]
pub mod raw;

mod interleavings;
mod log;
mod outcome;
mod plan_text;
mod preview;
mod refusal;
#[cfg(test)]
mod tests;

pub use interleavings::{first_interleaving, interleavings, next_interleaving, Interleavings};
pub use log::{Kind, Record, records};
pub use outcome::{Outcome, Stop, ThreadState};
pub use plan_text::{read, read_in, show, show_in, NoPlan};
pub use preview::Preview;
pub use refusal::{Reason, Refusal};

/// The version of this package's numbers, and of the archive: major * 65536 + minor * 256 + patch.
pub const VERSION: u32 = 0x010300;
/// Bytes of any plan that passes, at most.
pub const MOST_PLAN_BYTES: usize = 5192;
/// Picks of any schedule that passes, at most.
pub const MOST_PICKS: usize = 4096;
/// Bytes of any log, at most: an area of this size is enough for every play.
pub const MOST_LOG_BYTES: usize = 12288;
/// Bytes of the printing program's text of any run, at most.
pub const MOST_TEXT_BYTES: usize = 131072;
/// Bytes of the text of any plan, at most: an area of this size is enough for every plan.
pub const MOST_SHOWN_BYTES: usize = 574501;
/// Bytes of the COMTRADE data file of any log, at most: an area of this size is enough for every log.
pub const MOST_FILE_BYTES: usize = 317269;
/// Moves that [`bound`] answers, at most.
pub const MOST_TOTAL: usize = 65535;
/// Picks of a listed schedule, at most: an area of this size is enough for every one.
pub const MOST_BOUND: usize = 64;
/// Bytes of a record.
pub const RECORD_BYTES: usize = 3;
/// Bytes of an outcome.
pub const OUT_BYTES: usize = raw::OUT_BYTES;
/// Bytes of a preview.
pub const PREVIEW_BYTES: usize = raw::PREVIEW_BYTES;
/// Threads of a run, at most.
pub const THREADS: usize = 8;
/// Objects of a run, at most, null included.
pub const OBJECTS: usize = 32;

/// What a returned number says: the value of an answer or of the function's other answer.
enum Answer {
    Value(u32),
    Other(u32),
}

fn answer(number: u64) -> Result<Answer, Refusal> {
    let value = number as u32;
    match number >> 32 {
        0 => Ok(Answer::Value(value)),
        1 => Ok(Answer::Other(value)),
        _ => Err(Refusal { number: (value >> 16) as u16, place: value as u16 }),
    }
}

/// The version of the archive that is linked.
pub fn version() -> u32 {
    answer(raw::version()).map_or(0, |said| match said {
        Answer::Value(number) | Answer::Other(number) => number,
    })
}

/// Checks a plan.
pub fn check(plan: &[u8]) -> Result<(), Refusal> {
    answer(raw::check(plan)).map(|_| ())
}

/// Plays a schedule, one byte to a pick, on a plan. After a run `log` begins with its records and keeps its other bytes; a refusal leaves it as it was. A
/// schedule of n picks needs an area of 3 * n bytes.
pub fn play(plan: &[u8], schedule: &[u8], log: &mut [u8]) -> Result<Outcome, Refusal> {
    let mut out = [0; OUT_BYTES];
    answer(raw::play(plan, schedule, log, &mut out)).map(|_| Outcome::of(&out))
}

/// The version of a plan that passes the check, for the judge: 1, or 0, in which volatile fields order nothing.
pub fn plan_version(plan: &[u8]) -> u64 {
    plan.first().map_or(0, |byte| u64::from(byte >> 4))
}

/// The index of the first unordered access, if the log has one, by the version of its plan ([`plan_version`]).
pub fn judge(version: u64, log: &[u8]) -> Result<Option<usize>, Refusal> {
    answer(raw::judge(version, log)).map(|said| match said {
        Answer::Value(_) => None,
        Answer::Other(index) => Some(index as usize),
    })
}

/// What the pick would do after the schedule: what playing the schedule with the pick added does. Nothing changes. The pick counts as the schedule's last for
/// refusals 8 and 9.
pub fn preview(plan: &[u8], schedule: &[u8], pick: u64) -> Result<Preview, Refusal> {
    let mut out = [0; PREVIEW_BYTES];
    answer(raw::preview(plan, schedule, pick, &mut out)).map(|_| Preview::of(&out))
}

/// Writes a plan in the one way in which all plans of the same version, volatile mask, parameter counts and trees are written; it plays as its original. `area`
/// begins with it and keeps its other bytes; the answer is its length, which is the plan's. A refusal leaves `area` as it was.
pub fn canonical(plan: &[u8], area: &mut [u8]) -> Result<usize, Refusal> {
    answer(raw::canonical(plan, area)).map(|said| match said {
        Answer::Value(length) | Answer::Other(length) => length as usize,
    })
}

/// From a run that stops for a missing key, a schedule after which both threads stand at their accesses. `area` begins with it and keeps its other bytes; the
/// answer is its length. A refusal leaves `area` as it was.
pub fn witness(plan: &[u8], schedule: &[u8], area: &mut [u8]) -> Result<usize, Refusal> {
    answer(raw::witness(plan, schedule, area)).map(|said| match said {
        Answer::Value(length) | Answer::Other(length) => length as usize,
    })
}

/// How many moves a plan can need at most: no schedule makes more, forked threads included.
pub fn bound(plan: &[u8]) -> Result<usize, Refusal> {
    answer(raw::bound(plan)).map(|said| match said {
        Answer::Value(moves) | Answer::Other(moves) => moves as usize,
    })
}

/// What a run of the schedule on the plan is charged, in cents, with the one-millisecond option or without; 0 for a run that stops for room.
pub fn charge(plan: &[u8], schedule: &[u8], option: bool) -> Result<usize, Refusal> {
    answer(raw::charge(plan, schedule, u64::from(option))).map(|said| match said {
        Answer::Value(cents) | Answer::Other(cents) => cents as usize,
    })
}

/// Writes a log as an ASCII data file of IEEE C37.111-1999, with a digital value to each object that is 1 while its monitor is held. `area` begins with the file,
/// whose length is the answer, and keeps its other bytes; a refusal leaves it as it was.
pub fn comtrade(log: &[u8], area: &mut [u8]) -> Result<usize, Refusal> {
    answer(raw::comtrade(log, area)).map(|said| match said {
        Answer::Value(length) | Answer::Other(length) => length as usize,
    })
}

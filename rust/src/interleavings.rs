//! Every way in which the threads of a short plan can take turns: schedules of at most n picks, none passed over and none after a stop, that cannot be
//! extended, in dictionary order by thread number.

use crate::{answer, raw, Answer, Refusal, MOST_BOUND};

/// Writes the first schedule of the list. `area` begins with it and keeps its other bytes; the answer is its length. A refusal leaves `area` as it was.
pub fn first_interleaving(plan: &[u8], n: u64, area: &mut [u8]) -> Result<usize, Refusal> {
    answer(raw::first_interleaving(plan, n, area)).map(|said| match said {
        Answer::Value(length) | Answer::Other(length) => length as usize,
    })
}

/// Writes the schedule that follows a listed one, in the same way; `None` where the list is over.
pub fn next_interleaving(plan: &[u8], n: u64, schedule: &[u8], area: &mut [u8]) -> Result<Option<usize>, Refusal> {
    answer(raw::next_interleaving(plan, n, schedule, area)).map(|said| match said {
        Answer::Value(length) => Some(length as usize),
        Answer::Other(_) => None,
    })
}

/// The list, from its first schedule to its last.
#[derive(Clone, Debug)]
pub struct Interleavings<'a> {
    plan: &'a [u8],
    n: u64,
    next: Option<Vec<u8>>,
}

/// All of them, in their order; it is never empty.
pub fn interleavings(plan: &[u8], n: u64) -> Result<Interleavings<'_>, Refusal> {
    let mut area = [0; MOST_BOUND];
    let length = first_interleaving(plan, n, &mut area)?;
    Ok(Interleavings { plan, n, next: Some(area[..length].to_vec()) })
}

impl Iterator for Interleavings<'_> {
    type Item = Vec<u8>;

    fn next(&mut self) -> Option<Vec<u8>> {
        let schedule = self.next.take()?;
        let mut area = [0; MOST_BOUND];
        let length = next_interleaving(self.plan, self.n, &schedule, &mut area).expect("a listed schedule");
        self.next = length.map(|length| area[..length].to_vec());
        Some(schedule)
    }
}

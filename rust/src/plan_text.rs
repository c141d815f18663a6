//! Plans as text: docs/FORMAT.md, "A plan as text".

use std::fmt;

use crate::{answer, raw, Answer, Refusal, MOST_PLAN_BYTES, MOST_SHOWN_BYTES};

/// A plan as text, in document 01's notation.
pub fn show(plan: &[u8]) -> Result<String, Refusal> {
    let mut area = vec![0; MOST_SHOWN_BYTES];
    let length = show_in(plan, &mut area)?;
    area.truncate(length);
    Ok(String::from_utf8_lossy(&area).into_owned())
}

/// The same into an area, which begins with the text and keeps its other bytes; the answer is its length. A refusal leaves `area` as it was.
pub fn show_in(plan: &[u8], area: &mut [u8]) -> Result<usize, Refusal> {
    answer(raw::show(plan, area)).map(|said| match said {
        Answer::Value(length) | Answer::Other(length) => length as usize,
    })
}

/// A text that is no plan: the line and the column in bytes, both from 1 and 65,535 where they are more, of the token where reading stops, or of the first
/// token of a procedure that uses a slot that nothing binds.
#[derive(Clone, Copy, Debug, PartialEq, Eq, Hash)]
pub struct NoPlan {
    pub line: u16,
    pub column: u16,
}

impl fmt::Display for NoPlan {
    fn fmt(&self, f: &mut fmt::Formatter) -> fmt::Result {
        write!(f, "no plan: line {}, column {}", self.line, self.column)
    }
}

impl std::error::Error for NoPlan {}

/// The plan of a text, written in the way of [`canonical`](crate::canonical); it passes the check.
pub fn read(text: &[u8]) -> Result<Vec<u8>, NoPlan> {
    let mut area = vec![0; MOST_PLAN_BYTES];
    let length = read_in(text, &mut area).expect("an area for every plan")?;
    area.truncate(length);
    Ok(area)
}

/// The same into an area, which begins with the plan and keeps its other bytes; the answer is its length. A text that is no plan and a refusal leave `area` as
/// it was.
pub fn read_in(text: &[u8], area: &mut [u8]) -> Result<Result<usize, NoPlan>, Refusal> {
    answer(raw::read(text, area)).map(|said| match said {
        Answer::Value(length) => Ok(length as usize),
        Answer::Other(place) => Err(NoPlan { line: (place >> 16) as u16, column: place as u16 }),
    })
}

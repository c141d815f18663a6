//! The outcome of a run.

use crate::{OUT_BYTES, THREADS};
use std::fmt;

/// How a run ended.
#[derive(Clone, Copy, Debug, PartialEq, Eq, Hash)]
#[non_exhaustive]
pub enum Stop {
    /// The schedule is at its end.
    End,
    /// A thread lacks the key of a plain field: nothing orders its access after the last write. The last record names it.
    Race,
    NoThread,
    NoObject,
    NoKey,
    NoDepth,
    Other(u8),
}

impl Stop {
    pub fn of(number: u8) -> Stop {
        match number {
            0 => Stop::End,
            1 => Stop::Race,
            2 => Stop::NoThread,
            3 => Stop::NoObject,
            4 => Stop::NoKey,
            5 => Stop::NoDepth,
            number => Stop::Other(number),
        }
    }
}

/// The word of a stop, as the printing program writes it.
impl fmt::Display for Stop {
    fn fmt(&self, f: &mut fmt::Formatter) -> fmt::Result {
        f.write_str(match self {
            Stop::End => "end",
            Stop::Race => "race",
            Stop::NoThread => "no-thread",
            Stop::NoObject => "no-object",
            Stop::NoKey => "no-key",
            Stop::NoDepth => "no-depth",
            Stop::Other(_) => "unknown",
        })
    }
}

/// What a thread's next pick would meet.
#[derive(Clone, Copy, Debug, PartialEq, Eq, Hash)]
#[non_exhaustive]
pub enum ThreadState {
    Absent,
    Finished {
        value: u8,
    },
    /// It can move, or only lacks room.
    Ready,
    WaitsMonitor {
        object: u8,
    },
    WaitsJoin {
        object: u8,
    },
    StuckField {
        object: u8,
        field: u8,
    },
    StuckThread {
        object: u8,
    },
    Lacking {
        object: u8,
        field: u8,
    },
    /// It waits to be notified on the object.
    WaitsNotify {
        object: u8,
    },
    /// It does not hold the object's monitor, which its wait or notify needs.
    StuckMonitor {
        object: u8,
    },
    Other(u8),
}

impl ThreadState {
    /// Of a thread's bytes.
    pub fn of(state: u8, named: u8, field: u8) -> ThreadState {
        let object = named;
        match state {
            0 => ThreadState::Absent,
            1 => ThreadState::Finished { value: named },
            2 => ThreadState::Ready,
            3 => ThreadState::WaitsMonitor { object },
            4 => ThreadState::WaitsJoin { object },
            5 => ThreadState::StuckField { object, field },
            6 => ThreadState::StuckThread { object },
            7 => ThreadState::Lacking { object, field },
            8 => ThreadState::WaitsNotify { object },
            9 => ThreadState::StuckMonitor { object },
            number => ThreadState::Other(number),
        }
    }
}

/// Counts are of picks dealt with before the end or stop, of moves made and of records written.
#[derive(Clone, Copy, Debug, PartialEq, Eq, Hash)]
pub struct Outcome {
    pub stop: Stop,
    pub picks: usize,
    pub moves: usize,
    pub records: usize,
    pub threads: [ThreadState; THREADS],
    /// How many keys were new to each thread in its acquires, volatile reads and joins.
    pub learnt: [u8; THREADS],
}

impl Outcome {
    pub(crate) fn of(out: &[u8; OUT_BYTES]) -> Outcome {
        let two = |at: usize| usize::from(out[at]) << 8 | usize::from(out[at + 1]);
        let thread = |t: usize| ThreadState::of(out[8 + 4 * t], out[9 + 4 * t], out[10 + 4 * t]);
        Outcome { stop: Stop::of(out[0]), picks: two(1), moves: two(3), records: two(5), threads: std::array::from_fn(thread), learnt: std::array::from_fn(|t| out[11 + 4 * t]) }
    }

    /// The run's records, which the log area begins with.
    pub fn log<'a>(&self, area: &'a [u8]) -> &'a [u8] {
        &area[..crate::RECORD_BYTES * self.records]
    }
}

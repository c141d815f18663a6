//! What a pick would do after a schedule.

use crate::{records, Record, Stop, ThreadState, PREVIEW_BYTES};

#[derive(Clone, Copy, Debug, PartialEq, Eq, Hash)]
#[non_exhaustive]
pub enum Preview {
    /// It would be passed over, for the state of its thread.
    Passed(ThreadState),
    /// It would move, without a record.
    Moved,
    /// It would move, with this record.
    Recorded(Record),
    /// The run would stop for want of a key, with this record as its last.
    Race(Record),
    /// The run would stop for room, of this kind.
    NoRoom(Stop),
    /// The schedule itself has stopped, so.
    Stopped(Stop),
    Other(u8),
}

impl Preview {
    /// Of a preview's bytes.
    pub(crate) fn of(out: &[u8; PREVIEW_BYTES]) -> Preview {
        let record = || records(&out[4..7]).next().expect("three bytes");
        match out[0] {
            0 => Preview::Passed(ThreadState::of(out[1], out[2], out[3])),
            1 => Preview::Moved,
            2 => Preview::Recorded(record()),
            3 => Preview::Race(record()),
            4 => Preview::NoRoom(Stop::of(out[1])),
            5 => Preview::Stopped(Stop::of(out[1])),
            number => Preview::Other(number),
        }
    }
}

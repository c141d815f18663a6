//! A log's records: 24 bits each, most significant bit first: kind 4, thread 3, object 5, field 5, value 5, spare 2.

use std::fmt;

#[derive(Clone, Copy, Debug, PartialEq, Eq, Hash)]
#[non_exhaustive]
pub enum Kind {
    New,
    Read,
    Write,
    VolatileRead,
    VolatileWrite,
    Acquire,
    Release,
    Fork,
    Join,
    LacksRead,
    LacksWrite,
    Other(u8),
}

impl Kind {
    pub fn of(number: u8) -> Kind {
        match number {
            1 => Kind::New,
            2 => Kind::Read,
            3 => Kind::Write,
            4 => Kind::VolatileRead,
            5 => Kind::VolatileWrite,
            6 => Kind::Acquire,
            7 => Kind::Release,
            8 => Kind::Fork,
            9 => Kind::Join,
            10 => Kind::LacksRead,
            11 => Kind::LacksWrite,
            number => Kind::Other(number),
        }
    }
}

/// The word of a kind, as the printing program writes it.
impl fmt::Display for Kind {
    fn fmt(&self, f: &mut fmt::Formatter) -> fmt::Result {
        f.write_str(match self {
            Kind::New => "new",
            Kind::Read => "read",
            Kind::Write => "write",
            Kind::VolatileRead => "readv",
            Kind::VolatileWrite => "writev",
            Kind::Acquire => "acquire",
            Kind::Release => "release",
            Kind::Fork => "fork",
            Kind::Join => "join",
            Kind::LacksRead => "lacks-read",
            Kind::LacksWrite => "lacks-write",
            Kind::Other(_) => "unknown",
        })
    }
}

/// A record's columns; those without a use are 0. Of a fork and a join the object stands for the thread, and the field is the thread's number.
#[derive(Clone, Copy, Debug, PartialEq, Eq, Hash)]
pub struct Record {
    pub kind: Kind,
    pub thread: u8,
    pub object: u8,
    pub field: u8,
    pub value: u8,
}

/// The records of a log.
pub fn records(log: &[u8]) -> impl Iterator<Item = Record> {
    log.chunks_exact(crate::RECORD_BYTES).map(|bytes| {
        let bits = u32::from(bytes[0]) << 16 | u32::from(bytes[1]) << 8 | u32::from(bytes[2]);
        Record {
            kind: Kind::of((bits >> 20) as u8),
            thread: (bits >> 17 & 7) as u8,
            object: (bits >> 12 & 31) as u8,
            field: (bits >> 7 & 31) as u8,
            value: (bits >> 2 & 31) as u8,
        }
    })
}

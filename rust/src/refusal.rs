//! Refusals: document 01's number and place.

use std::fmt;

/// A refused input. The place is the lowest procedure, term, pick or record that is wrong, or 0, as the reason says.
#[derive(Clone, Copy, Debug, PartialEq, Eq, Hash)]
pub struct Refusal {
    pub number: u16,
    pub place: u16,
}

#[derive(Clone, Copy, Debug, PartialEq, Eq, Hash)]
#[non_exhaustive]
pub enum Reason {
    PlanLength,
    Header,
    Procedure,
    Term,
    Sort,
    Naming,
    Slot,
    ScheduleLength,
    Pick,
    LogArea,
    LogLength,
    Record,
    PlanArea,
    Version,
    LeftOut,
    NoRace,
    ScheduleArea,
    Bound,
    NotListed,
    BoundArea,
    Cycle,
    While,
    Total,
    FileArea,
    TextArea,
    ReadArea,
    Other(u16),
}

impl Refusal {
    pub fn reason(&self) -> Reason {
        match self.number {
            1 => Reason::PlanLength,
            2 => Reason::Header,
            3 => Reason::Procedure,
            4 => Reason::Term,
            5 => Reason::Sort,
            6 => Reason::Naming,
            7 => Reason::Slot,
            8 => Reason::ScheduleLength,
            9 => Reason::Pick,
            10 => Reason::LogArea,
            11 => Reason::LogLength,
            12 => Reason::Record,
            13 => Reason::PlanArea,
            14 => Reason::Version,
            15 => Reason::LeftOut,
            16 => Reason::NoRace,
            17 => Reason::ScheduleArea,
            18 => Reason::Bound,
            19 => Reason::NotListed,
            20 => Reason::BoundArea,
            21 => Reason::Cycle,
            22 => Reason::While,
            23 => Reason::Total,
            24 => Reason::FileArea,
            25 => Reason::TextArea,
            26 => Reason::ReadArea,
            number => Reason::Other(number),
        }
    }
}

impl fmt::Display for Reason {
    fn fmt(&self, f: &mut fmt::Formatter) -> fmt::Result {
        f.write_str(match self {
            Reason::PlanLength => "the plan's length is not that of its counts, or under 8 bytes",
            Reason::Header => "the plan's header or volatile mask",
            Reason::Procedure => "a procedure's parameters, or its root is not below the term count",
            Reason::Term => "a term's tag, slot, field, procedure, child or spare bits",
            Reason::Sort => "a root or child of the wrong sort, or a call with the wrong number of arguments",
            Reason::Naming => "a term that is not named exactly once",
            Reason::Slot => "a procedure that uses a slot that nothing binds",
            Reason::ScheduleLength => "a schedule of over 4,096 picks",
            Reason::Pick => "a pick over 7",
            Reason::LogArea => "a log area under 3 times the picks",
            Reason::LogLength => "a log whose length is no multiple of 3, or over 12,288",
            Reason::Record => "a record with a wrong kind, column or spare bit, or lacking its key and not last",
            Reason::PlanArea => "an area shorter than the plan",
            Reason::Version => "a version other than 0 or 1 given to the judge",
            Reason::LeftOut => "a plan of version 0, or with a wait, which are left out",
            Reason::NoRace => "a run without a missing key",
            Reason::ScheduleArea => "an area shorter than the schedule to be written",
            Reason::Bound => "a bound over 64",
            Reason::NotListed => "a schedule that is not listed",
            Reason::BoundArea => "an area shorter than the bound",
            Reason::Cycle => "calls that form a cycle",
            Reason::While => "a while in a plan whose moves are asked for",
            Reason::Total => "a total of over 65,535 moves",
            Reason::FileArea => "an area too short for the whole data file",
            Reason::TextArea => "an area shorter than the plan's text",
            Reason::ReadArea => "an area shorter than the plan of the text",
            Reason::Other(_) => "a refusal that this package does not know",
        })
    }
}

impl fmt::Display for Refusal {
    fn fmt(&self, f: &mut fmt::Formatter) -> fmt::Result {
        write!(f, "refused {} {}: {}", self.number, self.place, self.reason())
    }
}

impl std::error::Error for Refusal {}

//! The independent implementation's answers as the numbers and bytes that include/ruqzhemil.h gives.

use crate::independent::{self, Outcome, Preview, Refusal, State};
use crate::library::{OUT_BYTES, PREVIEW_BYTES};

fn number(refusal: Refusal) -> u64 {
    (2 << 32) + u64::from(refusal.0) * 65536 + refusal.1 as u64
}

pub fn check(plan: &[u8]) -> u64 {
    independent::check(plan).map_or_else(number, |_| 0)
}

pub fn play(plan: &[u8], schedule: &[u8], log: &mut [u8], out: &mut [u8; OUT_BYTES]) -> u64 {
    match independent::play(plan, schedule, log) {
        Ok(outcome) => {
            *out = bytes(&outcome);
            0
        }
        Err(refusal) => number(refusal),
    }
}

pub fn judge(version: u64, log: &[u8]) -> u64 {
    match independent::judge(version, log) {
        Ok(None) => 0,
        Ok(Some(index)) => (1 << 32) + index as u64,
        Err(refusal) => number(refusal),
    }
}

pub fn preview(plan: &[u8], schedule: &[u8], pick: u64, out: &mut [u8; PREVIEW_BYTES]) -> u64 {
    match independent::preview(plan, schedule, pick) {
        Ok(preview) => {
            *out = preview_bytes(preview);
            0
        }
        Err(refusal) => number(refusal),
    }
}

pub fn canonical(plan: &[u8], area: &mut [u8]) -> u64 {
    independent::canonical(plan, area).map_or_else(number, |length| length as u64)
}

pub fn show(plan: &[u8], area: &mut [u8]) -> u64 {
    independent::show(plan, area).map_or_else(number, |length| length as u64)
}

pub fn read(text: &[u8], area: &mut [u8]) -> u64 {
    match independent::read(text, area) {
        Ok(Ok(length)) => length as u64,
        Ok(Err((line, column))) => (1 << 32) + (line.min(65535) << 16) as u64 + column.min(65535) as u64,
        Err(refusal) => number(refusal),
    }
}

pub fn bound(plan: &[u8]) -> u64 {
    independent::bound(plan).map_or_else(number, |total| total as u64)
}

pub fn witness(plan: &[u8], schedule: &[u8], area: &mut [u8]) -> u64 {
    independent::witness(plan, schedule, area).map_or_else(number, |length| length as u64)
}

pub fn first_interleaving(plan: &[u8], n: u64, area: &mut [u8]) -> u64 {
    independent::first_interleaving(plan, n, area).map_or_else(number, |length| length as u64)
}

pub fn next_interleaving(plan: &[u8], n: u64, schedule: &[u8], area: &mut [u8]) -> u64 {
    match independent::next_interleaving(plan, n, schedule, area) {
        Ok(Some(length)) => length as u64,
        Ok(None) => 1 << 32,
        Err(refusal) => number(refusal),
    }
}

pub fn charge(plan: &[u8], schedule: &[u8], option: u64) -> u64 {
    independent::charge(plan, schedule, option != 0).map_or_else(number, |cents| cents as u64)
}

pub fn comtrade(log: &[u8], area: &mut [u8]) -> u64 {
    independent::comtrade(log, area).map_or_else(number, |length| length as u64)
}

fn bytes(outcome: &Outcome) -> [u8; OUT_BYTES] {
    let mut out = [0; OUT_BYTES];
    out[0] = outcome.word;
    out[1..3].copy_from_slice(&(outcome.picks as u16).to_be_bytes());
    out[3..5].copy_from_slice(&(outcome.moves as u16).to_be_bytes());
    out[5..7].copy_from_slice(&(outcome.records as u16).to_be_bytes());
    for (t, state) in outcome.states.into_iter().enumerate() {
        out[8 + 4 * t..11 + 4 * t].copy_from_slice(&thread_bytes(state));
        out[11 + 4 * t] = outcome.totals[t];
    }
    out
}

fn preview_bytes(preview: Preview) -> [u8; PREVIEW_BYTES] {
    match preview {
        Preview::Passed(state) => {
            let [state, named, field] = thread_bytes(state);
            [0, state, named, field, 0, 0, 0, 0]
        }
        Preview::Moved => [1, 0, 0, 0, 0, 0, 0, 0],
        Preview::Recorded([high, middle, low]) => [2, 0, 0, 0, high, middle, low, 0],
        Preview::Race([high, middle, low]) => [3, 1, 0, 0, high, middle, low, 0],
        Preview::NoRoom(stop) => [4, stop, 0, 0, 0, 0, 0, 0],
        Preview::Stopped(stop) => [5, stop, 0, 0, 0, 0, 0, 0],
    }
}

fn thread_bytes(state: State) -> [u8; 3] {
    match state {
        State::Absent => [0, 0, 0],
        State::Finished(value) => [1, value, 0],
        State::Ready => [2, 0, 0],
        State::WaitMonitor(object) => [3, object, 0],
        State::WaitJoin(object) => [4, object, 0],
        State::StuckField(object, field) => [5, object, field],
        State::StuckThread(object) => [6, object, 0],
        State::Lacking(object, field) => [7, object, field],
        State::WaitNotify(object) => [8, object, 0],
        State::StuckMonitor(object) => [9, object, 0],
    }
}

//! From a race, the two accesses side by side, and refusals 1 to 9 and 15 to 17.

use super::plan::check;
use super::run::run_seen;
use super::Refusal;

/// A move: its record, or a record of its thread alone.
#[derive(Clone, Copy, Default)]
struct Move {
    kind: u8,
    thread: usize,
    object: usize,
    field: usize,
}

fn unpacked(bytes: &[u8]) -> Move {
    let bits = u32::from_be_bytes([0, bytes[0], bytes[1], bytes[2]]);
    Move {
        kind: (bits >> 20) as u8,
        thread: (bits >> 17 & 7) as usize,
        object: (bits >> 12 & 31) as usize,
        field: (bits >> 7 & 31) as usize,
    }
}

/// What leads on to a move that is kept: the moves of these threads, the releases of these monitors, the writes of these volatile fields.
#[derive(Default)]
struct Wanted {
    threads: [bool; 8],
    monitors: [bool; 32],
    fields: [[bool; 32]; 32],
}

impl Wanted {
    fn has(&self, m: &Move) -> bool {
        self.threads[m.thread]
            || match m.kind {
                5 => self.fields[m.object][m.field],
                7 => self.monitors[m.object],
                8 => self.threads[m.field],
                _ => false,
            }
    }

    fn add(&mut self, m: &Move) {
        self.threads[m.thread] = true;
        match m.kind {
            4 => self.fields[m.object][m.field] = true,
            6 => self.monitors[m.object] = true,
            9 => self.threads[m.field] = true,
            _ => {}
        }
    }
}

/// The length of the schedule.
pub fn witness(bytes: &[u8], schedule: &[u8], area: &mut [u8]) -> Result<usize, Refusal> {
    let plan = check(bytes)?;
    if schedule.len() > 4096 {
        return Err((8, 0));
    }
    if let Some(i) = schedule.iter().position(|&n| n > 7) {
        return Err((9, i));
    }
    let count = (bytes.len() - 8) / 5; // at least as many as there are terms
    if plan.version == 0 || plan.terms[..count.min(1024)].iter().any(|t| t.tag == 18) {
        return Err((15, 0));
    }
    let (mut log, mut seen) = ([0; 12288], Vec::with_capacity(schedule.len()));
    let outcome = run_seen(&plan, schedule, &mut log, |thread, records| seen.push((thread, records)));
    if outcome.word != 1 {
        return Err((16, 0));
    }
    let record = |i: usize| unpacked(&log[3 * i..3 * i + 3]);
    let mut before = 0;
    let moves: Vec<Move> = seen
        .iter()
        .map(|&(thread, records)| {
            let logged = records > before;
            before = records;
            if logged {
                record(records - 1)
            } else {
                Move { thread, ..Move::default() }
            }
        })
        .collect();
    let failing = record(outcome.records - 1);
    let last = moves.iter().rposition(|m| (m.kind, m.object, m.field) == (3, failing.object, failing.field)).expect("a write");
    let mut wanted = Wanted::default();
    wanted.add(&failing);
    let mut kept = vec![false; moves.len()];
    for (i, m) in moves.iter().enumerate().rev() {
        if i == last || wanted.has(m) {
            kept[i] = i != last;
            wanted.add(m);
        }
    }
    let length = kept.iter().filter(|k| **k).count();
    if area.len() < length {
        return Err((17, 0));
    }
    let (mut numbers, mut next, mut at) = ([0u8; 8], 1, 0);
    for (m, _) in moves.iter().zip(&kept).filter(|(_, k)| **k) {
        area[at] = numbers[m.thread];
        at += 1;
        if m.kind == 8 {
            numbers[m.field] = next;
            next += 1;
        }
    }
    Ok(length)
}

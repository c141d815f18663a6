//! From a race, the two accesses side by side, and refusals 1 to 9 and 15 to 17.

use super::plan::checked;
use super::refusal;
use super::run::{schedule_right, Run, Sink, Step};
use std::mem::MaybeUninit;

/// Every move: its record's bits, or those of its thread alone.
struct Moves {
    bits: [MaybeUninit<u32>; 4096],
    count: usize,
}

impl Sink for Moves {
    #[inline(always)]
    fn record(&mut self, bits: u32) {
        self.bits[self.count & 4095].write(bits);
        self.count += 1;
    }
    #[inline(always)]
    fn silent(&mut self, thread: usize) {
        self.record((thread as u32) << 17);
    }
}

impl Moves {
    fn all(&self) -> &[u32] {
        // SAFETY: so many were written.
        unsafe { std::slice::from_raw_parts(self.bits.as_ptr().cast(), self.count) }
    }
}

const fn kind(bits: u32) -> u32 {
    bits >> 20
}
const fn thread(bits: u32) -> u32 {
    bits >> 17 & 7
}
const fn object(bits: u32) -> u32 {
    bits >> 12 & 31
}
const fn field(bits: u32) -> u32 {
    bits >> 7 & 31
}

/// What leads on to a move that is kept, a bit to each: the moves of these threads, the releases of these monitors, the writes of these volatile fields.
struct Wanted {
    threads: u32,
    monitors: u32,
    fields: [u32; 32],
}

impl Wanted {
    #[inline(always)]
    fn has(&self, bits: u32) -> bool {
        let led = match kind(bits) {
            5 => self.fields[object(bits) as usize] >> field(bits),
            7 => self.monitors >> object(bits),
            8 => self.threads >> field(bits),
            _ => 0,
        };
        (self.threads >> thread(bits) | led) & 1 == 1
    }

    #[inline(always)]
    fn add(&mut self, bits: u32) {
        self.threads |= 1 << thread(bits);
        match kind(bits) {
            4 => self.fields[object(bits) as usize] |= 1 << field(bits),
            6 => self.monitors |= 1 << object(bits),
            9 => self.threads |= 1 << field(bits),
            _ => {}
        }
    }
}

/// The kept moves, in their order, at the end of the room for them.
#[inline(always)]
fn kept<'a>(moves: &[u32], failing: u32, last: usize, room: &'a mut [MaybeUninit<u32>; 4096]) -> &'a [u32] {
    let mut wanted = Wanted { threads: 0, monitors: 0, fields: [0; 32] };
    let mut from = room.len();
    wanted.add(failing);
    for (i, &bits) in moves.iter().enumerate().rev() {
        if i == last {
            wanted.add(bits);
        } else if wanted.has(bits) {
            wanted.add(bits);
            from -= 1;
            room[from].write(bits);
        }
    }
    // SAFETY: all from there on were written.
    unsafe { std::slice::from_raw_parts(room.as_ptr().add(from).cast(), room.len() - from) }
}

fn witnessed(plan: &[u8], schedule: &[u8], area: &mut [u8]) -> Result<u64, u64> {
    let plan = checked(plan)?;
    schedule_right(schedule)?;
    if plan.version == 0 || (0..plan.terms).fold(false, |waits, t| waits | (plan.tag(t) == 18)) {
        return Err(refusal(15, 0));
    }
    let mut run = Run::new(plan, Moves { bits: [const { MaybeUninit::uninit() }; 4096], count: 0 });
    run.go_on(schedule);
    if run.stop != Step::Race {
        return Err(refusal(16, 0));
    }
    let (&failing, moves) = run.sink.all().split_last().expect("an access");
    let write = 3 << 20 | failing & 1023 << 7;
    let last = moves.iter().rposition(|bits| bits & (15 << 20 | 1023 << 7) == write).expect("a write");
    let mut room = [const { MaybeUninit::uninit() }; 4096];
    let kept = kept(moves, failing, last, &mut room);
    if area.len() < kept.len() {
        return Err(refusal(17, 0));
    }
    let (mut numbers, mut next) = ([0u8; 32], 1);
    for (place, &bits) in area.iter_mut().zip(kept) {
        *place = numbers[thread(bits) as usize];
        if kind(bits) == 8 {
            numbers[field(bits) as usize] = next;
            next += 1;
        }
    }
    Ok(kept.len() as u64)
}

pub fn witness(plan: &[u8], schedule: &[u8], area: &mut [u8]) -> u64 {
    witnessed(plan, schedule, area).unwrap_or_else(|refused| refused)
}

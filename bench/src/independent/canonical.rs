//! The one way to write a plan, and refusals 1 to 7 and 13.

use super::{plan::check, Refusal};

/// Of each tag, how many bits stand behind each of its children.
fn children(tag: u64) -> &'static [u32] {
    match tag {
        3 | 9 | 10 | 13 | 18..=20 => &[25],
        4 => &[25, 10],
        5 => &[21, 11],
        6 => &[25, 15, 5],
        7 | 11 | 14 | 15 | 16 => &[25, 15],
        8 => &[20],
        _ => &[],
    }
}

struct Writer<'a> {
    plan: &'a [u8],
    base: usize,
    area: &'a mut [u8],
    next: usize,
}

impl Writer<'_> {
    /// The term and all below it, in their order; the number that it gets.
    fn put(&mut self, term: usize) -> u64 {
        let at = self.base + 5 * term;
        let mut word = self.plan[at..at + 5].iter().fold(0, |n, b| n << 8 | u64::from(*b));
        let number = self.next;
        self.next += 1;
        for shift in children(word >> 35) {
            let child = self.put((word >> shift & 1023) as usize);
            word = word & !(1023 << shift) | child << shift;
        }
        let at = self.base + 5 * number;
        self.area[at..at + 5].copy_from_slice(&word.to_be_bytes()[3..]);
        number as u64
    }
}

/// The length of the written plan.
pub fn canonical(plan: &[u8], area: &mut [u8]) -> Result<usize, Refusal> {
    check(plan)?;
    if area.len() < plan.len() {
        return Err((13, 0));
    }
    let procedures = usize::from(plan[0] & 15) << 2 | usize::from(plan[1] >> 6);
    area[..8].copy_from_slice(&plan[..8]);
    let mut writer = Writer { plan, base: 8 + 2 * procedures, area, next: 0 };
    for at in (0..procedures).map(|p| 8 + 2 * p) {
        let word = u16::from_be_bytes([plan[at], plan[at + 1]]);
        let root = writer.put(usize::from(word & 4095)) as u16;
        writer.area[at..at + 2].copy_from_slice(&(word & 0xf000 | root).to_be_bytes());
    }
    Ok(plan.len())
}

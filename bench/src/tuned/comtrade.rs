//! A log as a COMTRADE data file, and refusals 11, 12 and 24: a line's numbers are counted on as digits, its end is copied whole.

use super::{judge::refused, refusal};

/// The values of 32 monitors, and the line's end.
const END: [u8; 66] = {
    let (mut text, mut o) = ([b','; 66], 0);
    while o < 32 {
        text[2 * o + 1] = b'0';
        o += 1;
    }
    (text[64], text[65]) = (b'\r', b'\n');
    text
};

/// How many digits the numbers 1 to n have, n at most 9,999.
fn digits_to(n: usize) -> usize {
    n + n.saturating_sub(9) + n.saturating_sub(99) + n.saturating_sub(999)
}

/// How long the file of so many records is: each line but the first has three zeros behind its number before.
fn length(records: usize) -> usize {
    match records {
        0 => 1,
        n => 1 + 67 * n + digits_to(n) + 1 + digits_to(n - 1) + 3 * (n - 1),
    }
}

/// A number of at most four digits: its digits, the first lowest, and how many.
#[derive(Clone, Copy)]
struct Decimal {
    text: u32,
    count: usize,
}

impl Decimal {
    #[inline(always)]
    fn of(n: u32) -> Decimal {
        let count = 1 + usize::from(n > 9) + usize::from(n > 99) + usize::from(n > 999);
        let text = 0x3030_3030 + (n / 1000 | n / 100 % 10 << 8 | n / 10 % 10 << 16 | n % 10 << 24);
        Decimal { text: text >> (8 * (4 - count)), count }
    }
}

/// Writes bytes at a place, and goes on behind so many of them.
///
/// # Safety
/// All the bytes are in the area.
#[inline(always)]
unsafe fn put<T>(at: &mut *mut u8, bytes: T, count: usize) {
    at.cast::<T>().write_unaligned(bytes);
    *at = at.add(count);
}

fn filed(log: &[u8], area: &mut [u8]) -> Result<u64, u64> {
    refused(log)?;
    let length = length(log.len() / 3);
    let area = area.get_mut(..length).ok_or(refusal(24, 0))?;
    let (mut end, mut at) = (END, area.as_mut_ptr());
    let mut now = Decimal { text: 0, count: 0 };
    for (i, record) in log.chunks_exact(3).enumerate() {
        let o = usize::from(record[0] & 1) << 4 | usize::from(record[1] >> 4);
        match record[0] >> 4 {
            6 => end[2 * o + 1] = b'1',
            7 => end[2 * o + 1] = b'0',
            _ => {}
        }
        let next = Decimal::of(i as u32 + 1);
        // SAFETY: the line's end comes behind, in the area, and is longer than what is written past a number.
        unsafe {
            put(&mut at, next.text, next.count);
            put(&mut at, b',', 1);
            put(&mut at, now.text, now.count);
            put(&mut at, *b"000", if i == 0 { 1 } else { 3 });
            put(&mut at, end, 66);
        }
        now = next;
    }
    area[length - 1] = 0x1a;
    Ok(length as u64)
}

pub fn comtrade(log: &[u8], area: &mut [u8]) -> u64 {
    filed(log, area).unwrap_or_else(|refused| refused)
}

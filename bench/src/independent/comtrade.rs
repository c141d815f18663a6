//! A log as a COMTRADE data file, and refusals 11, 12 and 24.

use super::{judge, Refusal};

const fn end_of_line() -> [u8; 66] {
    let mut text = [b','; 66];
    let mut o = 0;
    while o < 32 {
        text[2 * o + 1] = b'0';
        o += 1;
    }
    (text[64], text[65]) = (b'\r', b'\n');
    text
}

fn digits(mut n: usize) -> usize {
    let mut count = 1;
    while n > 9 {
        (n, count) = (n / 10, count + 1);
    }
    count
}

/// How long the file of so many records is.
fn length(records: usize) -> usize {
    1 + (0..records).map(|i| 67 + digits(i + 1) + digits(1000 * i)).sum::<usize>()
}

/// The digits of a number from `at` on, and the place after them.
fn put(area: &mut [u8], at: usize, mut n: usize) -> usize {
    let end = at + digits(n);
    for place in area[at..end].iter_mut().rev() {
        *place = b'0' + (n % 10) as u8;
        n /= 10;
    }
    end
}

/// The length of the file, which begins the area.
pub fn comtrade(log: &[u8], area: &mut [u8]) -> Result<usize, Refusal> {
    judge::refused(log)?;
    let length = length(log.len() / 3);
    let area = area.get_mut(..length).ok_or((24, 0))?;
    let mut end = end_of_line();
    let mut at = 0;
    for (i, r) in log.chunks_exact(3).enumerate() {
        let o = usize::from(r[0] & 1) << 4 | usize::from(r[1] >> 4);
        match r[0] >> 4 {
            6 => end[2 * o + 1] = b'1',
            7 => end[2 * o + 1] = b'0',
            _ => {}
        }
        at = put(area, at, i + 1);
        area[at] = b',';
        at = put(area, at + 1, 1000 * i);
        area[at..at + 66].copy_from_slice(&end);
        at += 66;
    }
    area[at] = 0x1a;
    Ok(length)
}

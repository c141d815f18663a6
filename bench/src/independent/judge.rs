//! The judge of a log, and refusals 14, 11 and 12.

use super::Refusal;

/// Refusals 11 and 12.
pub fn refused(log: &[u8]) -> Result<(), Refusal> {
    if log.len() % 3 != 0 || log.len() > 12288 {
        return Err((11, 0));
    }
    let n = log.len() / 3;
    for i in 0..n {
        let w = u32::from_be_bytes([0, log[3 * i], log[3 * i + 1], log[3 * i + 2]]);
        let (k, f, v, s) = (w >> 20, w >> 7 & 31, w >> 2 & 31, w & 3);
        let bad = k == 0
            || k > 11
            || s != 0
            || (k >= 10 && i + 1 < n)
            || (matches!(k, 2..=5 | 10 | 11) && f == 0)
            || (matches!(k, 8 | 9) && f > 7)
            || (matches!(k, 1 | 6 | 7) && f != 0)
            || (matches!(k, 1 | 6 | 7 | 8 | 10) && v != 0);
        if bad {
            return Err((12, i));
        }
    }
    Ok(())
}

pub fn judge(version: u64, log: &[u8]) -> Result<Option<usize>, Refusal> {
    if version > 1 {
        return Err((14, 0));
    }
    refused(log)?;
    let n = log.len() / 3;
    let mut clock = [[0u16; 8]; 8];
    let mut rel = [[0u16; 8]; 32];
    let mut vol = vec![[0u16; 8]; 1024];
    let mut last = vec![(0u8, 0u16); 1024];
    let mut reads = vec![[0u16; 8]; 1024];
    fn max(a: &mut [u16; 8], b: &[u16; 8]) {
        for i in 0..8 {
            a[i] = a[i].max(b[i]);
        }
    }
    for i in 0..n {
        let w = u32::from_be_bytes([0, log[3 * i], log[3 * i + 1], log[3 * i + 2]]);
        let (k, t, o, f) = (w >> 20, (w >> 17 & 7) as usize, (w >> 12 & 31) as usize, (w >> 7 & 31) as usize);
        let mut c = clock[t];
        match k {
            6 => max(&mut c, &rel[o]),
            4 if version == 1 => max(&mut c, &vol[o * 32 + f]),
            9 => {
                let q = clock[f];
                max(&mut c, &q)
            }
            2 | 3 | 10 | 11 => {
                let (wt, wc) = last[o * 32 + f];
                let unread = |u: usize| reads[o * 32 + f][u] > c[u];
                if wc > c[wt as usize] || (matches!(k, 3 | 11) && (0..8).any(unread)) {
                    return Ok(Some(i));
                }
            }
            _ => {}
        }
        c[t] += 1;
        clock[t] = c;
        match k {
            7 => max(&mut rel[o], &c),
            5 => max(&mut vol[o * 32 + f], &c),
            8 => max(&mut clock[f], &c),
            2 => reads[o * 32 + f][t] = c[t],
            3 => last[o * 32 + f] = (t as u8, c[t]),
            _ => {}
        }
    }
    Ok(None)
}

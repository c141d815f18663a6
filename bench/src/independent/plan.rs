//! A plan, unpacked, and refusals 1 to 7.

use super::Refusal;

#[derive(Clone, Copy, Default)]
pub(super) struct Term {
    pub tag: u8,
    pub small: u8,
    pub kids: [u16; 3],
    pub mask: u32,
}

// the sorts of terms
const EXPR: u8 = 0;
const COND: u8 = 1;
const LIST: u8 = 2;
fn sort(tag: u8) -> u8 {
    if tag <= 11 || tag >= 18 {
        EXPR
    } else if tag <= 15 {
        COND
    } else {
        LIST
    }
}
fn kids(tag: u8) -> &'static [u8] {
    match tag {
        3 | 9 | 10 | 18..=20 => &[EXPR],
        4 | 5 | 11 | 15 => &[EXPR, EXPR],
        6 => &[COND, EXPR, EXPR],
        7 => &[COND, EXPR],
        8 => &[LIST],
        13 => &[COND],
        14 => &[COND, COND],
        16 => &[EXPR, LIST],
        _ => &[],
    }
}

pub struct Plan {
    pub(super) version: u32,
    pub(super) mask: u32,
    params: [u8; 32],
    pub(super) roots: [u16; 32],
    pub(super) terms: Box<[Term; 1024]>,
}

fn word40(p: &[u8]) -> u64 {
    (p[0] as u64) << 32 | u32::from_be_bytes([p[1], p[2], p[3], p[4]]) as u64
}

pub fn check(plan: &[u8]) -> Result<Plan, Refusal> {
    if plan.len() < 8 {
        return Err((1, 0));
    }
    let h = u32::from_be_bytes([plan[0], plan[1], plan[2], plan[3]]);
    let (version, procs, nterms, spare) = (h >> 28, (h >> 22 & 63) as usize, (h >> 10 & 4095) as usize, h & 1023);
    if plan.len() != 8 + 2 * procs + 5 * nterms {
        return Err((1, 0));
    }
    let mask = u32::from_be_bytes([plan[4], plan[5], plan[6], plan[7]]);
    if version > 1 || procs < 1 || procs > 32 || nterms < 1 || nterms > 1024 || spare != 0 || mask >> 31 == 0 {
        return Err((2, 0));
    }
    let mut out = Plan { version, mask, params: [0; 32], roots: [0; 32], terms: Box::new([Term::default(); 1024]) };
    for p in 0..procs {
        let w = u16::from_be_bytes([plan[8 + 2 * p], plan[9 + 2 * p]]);
        let (params, root) = ((w >> 12) as u8, w & 4095);
        if params > 8 || (p == 0 && params != 0) || root as usize >= nterms {
            return Err((3, p));
        }
        out.params[p] = params;
        out.roots[p] = root;
    }
    let base = 8 + 2 * procs;
    for i in 0..nterms {
        let w = word40(&plan[base + 5 * i..base + 5 * i + 5]);
        let tag = (w >> 35) as u8;
        let mut t = Term { tag, ..Term::default() };
        let bits = |lo: u32, n: u32| -> u64 { w >> lo & ((1 << n) - 1) };
        let (ok, used) = match tag {
            0 | 12 | 17 => (true, 5),
            1 => {
                t.small = bits(31, 4) as u8;
                (t.small < 8, 9)
            }
            2 => {
                t.mask = bits(3, 32) as u32;
                (t.mask >> 31 == 0 && t.mask.count_ones() <= 8, 37)
            }
            3 => {
                t.kids[0] = bits(25, 10) as u16;
                t.small = bits(20, 5) as u8;
                (t.small != 0, 20)
            }
            4 => {
                t.kids[0] = bits(25, 10) as u16;
                t.small = bits(20, 5) as u8;
                t.kids[1] = bits(10, 10) as u16;
                (t.small != 0, 30)
            }
            5 => {
                t.small = bits(31, 4) as u8;
                t.kids[0] = bits(21, 10) as u16;
                t.kids[1] = bits(11, 10) as u16;
                (t.small < 8 || t.small == 15, 29)
            }
            6 => {
                for k in 0..3 {
                    t.kids[k] = bits(25 - 10 * k as u32, 10) as u16;
                }
                (true, 35)
            }
            7 | 11 | 14 | 15 | 16 => {
                for k in 0..2 {
                    t.kids[k] = bits(25 - 10 * k as u32, 10) as u16;
                }
                (true, 25)
            }
            8 => {
                t.small = bits(30, 5) as u8;
                t.kids[0] = bits(20, 10) as u16;
                ((t.small as usize) < procs, 20)
            }
            9 | 10 | 13 | 18..=20 => {
                t.kids[0] = bits(25, 10) as u16;
                (true, 15)
            }
            _ => (false, 5),
        };
        if !ok || w & ((1u64 << (40 - used)) - 1) != 0 {
            return Err((4, i));
        }
        for k in 0..kids(tag).len() {
            if t.kids[k] as usize <= i || t.kids[k] as usize >= nterms {
                return Err((4, i));
            }
        }
        out.terms[i] = t;
    }
    let terms = &out.terms;
    let mut wrong = usize::MAX;
    for p in 0..procs {
        let r = out.roots[p] as usize;
        if sort(terms[r].tag) != EXPR {
            wrong = wrong.min(r);
        }
    }
    let mut named = [0u8; 1024];
    for p in 0..procs {
        let r = out.roots[p] as usize;
        named[r] = named[r].saturating_add(1);
    }
    for i in 0..nterms {
        let t = &terms[i];
        for (k, s) in kids(t.tag).iter().enumerate() {
            let c = t.kids[k] as usize;
            if sort(terms[c].tag) != *s {
                wrong = wrong.min(c);
            }
            named[c] = named[c].saturating_add(1);
        }
        if t.tag == 8 {
            let (mut n, mut l) = (0, t.kids[0] as usize);
            while terms[l].tag == 16 {
                n += 1;
                l = terms[l].kids[1] as usize;
            }
            if n != out.params[t.small as usize] as usize {
                wrong = wrong.min(i);
            }
        }
    }
    if wrong != usize::MAX {
        return Err((5, wrong));
    }
    for i in 0..nterms {
        if named[i] != 1 {
            return Err((6, i));
        }
    }
    let mut free = [0u8; 1024];
    for i in (0..nterms).rev() {
        let t = &terms[i];
        let mut u = if t.tag == 1 { 1u8 << t.small } else { 0 };
        for k in 0..kids(t.tag).len() {
            let mut b = free[t.kids[k] as usize];
            if t.tag == 5 && k == 1 && t.small < 8 {
                b &= !(1 << t.small);
            }
            u |= b;
        }
        free[i] = u;
    }
    for p in 0..procs {
        if free[out.roots[p] as usize] as u32 & !((1u32 << out.params[p]) - 1) != 0 {
            return Err((7, p));
        }
    }
    Ok(out)
}

// ---- play

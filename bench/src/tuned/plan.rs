//! A plan's terms as words, and refusals 1 to 7. A plan that is right is seen in one pass, in which each term notes what its children must be;
//! only for one that is not, the number and the place are looked for.

use super::layout::{Row, EXPRESSION, LIST, NOTHING, ROWS, SLOTS};
use super::refusal;

/// A checked plan.
#[derive(Clone, Copy)]
pub struct Plan<'a> {
    bytes: &'a [u8],
    pub version: u32,
    pub mask: u32,
    pub procedures: usize,
    pub terms: usize,
    base: usize,
}

impl<'a> Plan<'a> {
    /// The header alone.
    fn header(bytes: &'a [u8]) -> Result<Plan<'a>, u64> {
        let Some(first) = bytes.first_chunk::<8>() else { return Err(refusal(1, 0)) };
        let (header, mask) = ((u64::from_be_bytes(*first) >> 32) as u32, u64::from_be_bytes(*first) as u32);
        let (procedures, terms) = ((header >> 22 & 63) as usize, (header >> 10 & 4095) as usize);
        let plan = Plan { bytes, version: header >> 28, mask, procedures, terms, base: 8 + 2 * procedures };
        if bytes.len() != plan.base + 5 * terms {
            return Err(refusal(1, 0));
        }
        let right = plan.version < 2 && procedures.wrapping_sub(1) < 32 && terms.wrapping_sub(1) < 1024;
        if right && header & 1023 == 0 && mask >> 31 == 1 {
            Ok(plan)
        } else {
            Err(refusal(2, 0))
        }
    }

    /// Where the terms begin.
    pub fn base(&self) -> usize {
        self.base
    }

    /// The 40 bits of a term below the count, under others.
    #[inline(always)]
    pub fn word(&self, term: usize) -> u64 {
        // SAFETY: the terms begin behind at least ten bytes, and the plan is as long as its header says.
        let bytes = unsafe { self.bytes.as_ptr().add(self.base + 5 * term - 3).cast::<[u8; 8]>().read() };
        u64::from_be_bytes(bytes)
    }

    #[inline(always)]
    pub fn tag(&self, term: usize) -> usize {
        usize::from(self.bytes[self.base + 5 * term] >> 3)
    }

    /// Parameters and root of a procedure below the count.
    #[inline(always)]
    pub fn procedure(&self, p: usize) -> (usize, usize) {
        let word = u16::from_be_bytes([self.bytes[8 + 2 * p], self.bytes[9 + 2 * p]]);
        (usize::from(word >> 12), usize::from(word & 4095))
    }
}

/// What the places of the terms ask of them, as far as their parents have been seen; and the lengths of the procedures' lists.
struct Asked {
    notes: [u16; 1024],
    lists: [u16; 32],
}

/// What has been found wrong, each kind of fault in some bits of its own.
#[derive(Default)]
struct Wrong {
    bits: u64,
    fields: u32,
    small: u32,
    place: u16,
}

impl Wrong {
    /// Of a term by itself.
    #[inline(always)]
    fn alone(&mut self, row: &Row, word: u64, small: u32) {
        self.bits |= word & row.zero;
        // sixteen and more for over eight fields
        self.fields |= (word & row.fields).count_ones() + 7;
        self.small |= small & row.forbidden;
    }

    fn none(&self) -> bool {
        self.bits == 0 && self.fields < 16 && self.small == 0 && self.place == 0
    }
}

impl Asked {
    /// The next term: all that is asked of it is known, since its parent comes before it. A child that is not there is term 0, which has been seen.
    #[inline(always)]
    fn see(&mut self, wrong: &mut Wrong, row: &Row, term: usize, word: u64) {
        let (note, small) = (self.notes[term], row.small(word));
        let slot = 1u32 << (small & 31);
        wrong.alone(row, word, slot);
        let slot = slot as u16;
        wrong.place |= (note ^ row.sort) & row.counts | slot & !note & row.uses;
        let bound = note & SLOTS;
        let first = self.lists[small & 31] & row.calls | row.wants[0] | bound;
        // of a list the rest is one shorter; one that is too long loses its sort
        let second = (note & row.keeps).wrapping_sub(row.one) | row.wants[1] | slot & row.binds;
        for (k, note) in [first, second, bound | row.wants[2]].into_iter().enumerate() {
            // SAFETY: a child's number has ten bits.
            unsafe { *self.notes.get_unchecked_mut(row.child(word, k)) = note };
        }
    }

    /// Whether the procedure is right by itself.
    #[inline(always)]
    fn procedure(&mut self, plan: &Plan, p: usize) -> bool {
        let (parameters, root) = plan.procedure(p);
        self.lists[p] = (parameters as u16) << 8;
        self.notes[root & 1023] = EXPRESSION | ((1u32 << parameters) - 1) as u16 & SLOTS;
        parameters <= if p == 0 { 0 } else { 8 } && root < plan.terms
    }
}

/// Whether refusals 3 to 7 have nothing. There are as many names as terms, and each term was named when it was seen: so each is named once, by a term
/// before it.
#[inline(always)]
fn right(plan: &Plan) -> bool {
    let mut asked = Asked { notes: [0; 1024], lists: [NOTHING; 32] };
    let procedures = (0..plan.procedures).fold(true, |right, p| asked.procedure(plan, p) & right);
    let (mut wrong, mut names) = (Wrong::default(), plan.procedures);
    for term in 0..plan.terms {
        let word = plan.word(term);
        let row = ROWS.at(word);
        asked.see(&mut wrong, row, term, word);
        names += usize::from(row.children);
    }
    procedures && wrong.none() && names == plan.terms
}

/// The checked plan.
#[inline(always)]
pub fn checked(bytes: &[u8]) -> Result<Plan<'_>, u64> {
    let plan = Plan::header(bytes)?;
    if right(&plan) {
        Ok(plan)
    } else {
        Err(found(&plan))
    }
}

pub fn check(plan: &[u8]) -> u64 {
    checked(plan).map_or_else(|refused| refused, |_| 0)
}

/// The lowest for which the test holds, as a refusal of this number.
fn lowest(number: u64, count: usize, test: impl FnMut(&usize) -> bool) -> Result<(), u64> {
    (0..count).find(test).map_or(Ok(()), |place| Err(refusal(number, place)))
}

/// The refusal of a plan that has one of 3 to 7.
#[cold]
fn found(plan: &Plan) -> u64 {
    let refused =
        procedures(plan).and_then(|()| alone(plan)).and_then(|()| sorts(plan)).and_then(|()| names(plan)).and_then(|()| slots(plan));
    refused.expect_err("something was wrong")
}

fn children(plan: &Plan, term: usize) -> impl Iterator<Item = (usize, u16)> {
    let (word, row) = (plan.word(term), &ROWS[plan.tag(term)]);
    (0..usize::from(row.children)).map(move |k| (row.child(word, k), if row.wants[k] == 0 { LIST } else { row.wants[k] }))
}

fn procedures(plan: &Plan) -> Result<(), u64> {
    lowest(3, plan.procedures, |&p| {
        let (parameters, root) = plan.procedure(p);
        parameters > 8 || p == 0 && parameters > 0 || root >= plan.terms
    })
}

fn alone(plan: &Plan) -> Result<(), u64> {
    lowest(4, plan.terms, |&t| {
        let (word, row) = (plan.word(t), &ROWS[plan.tag(t)]);
        let no_procedure = plan.tag(t) == 8 && row.small(word) >= plan.procedures;
        let mut wrong = Wrong::default();
        wrong.alone(row, word, 1 << row.small(word));
        !wrong.none() || no_procedure || children(plan, t).any(|(k, _)| k <= t || k >= plan.terms)
    })
}

fn list_length(plan: &Plan, call: usize) -> usize {
    let (mut list, mut length) = (ROWS[8].child(plan.word(call), 0), 0);
    while plan.tag(list) == 16 {
        (list, length) = (ROWS[16].child(plan.word(list), 1), length + 1);
    }
    length
}

fn sorts(plan: &Plan) -> Result<(), u64> {
    let mut wrong = [false; 1024];
    let sort = |t: usize| ROWS[plan.tag(t)].sort;
    for p in 0..plan.procedures {
        let root = plan.procedure(p).1;
        wrong[root] |= sort(root) != EXPRESSION;
    }
    for t in 0..plan.terms {
        children(plan, t).for_each(|(k, want)| wrong[k] |= sort(k) != want);
        if plan.tag(t) == 8 {
            wrong[t] |= list_length(plan, t) != plan.procedure(ROWS[8].small(plan.word(t))).0;
        }
    }
    lowest(5, plan.terms, |&t| wrong[t])
}

fn names(plan: &Plan) -> Result<(), u64> {
    let mut named = [0; 1024];
    (0..plan.procedures).for_each(|p| named[plan.procedure(p).1] += 1);
    (0..plan.terms).for_each(|t| children(plan, t).for_each(|(k, _)| named[k] += 1));
    lowest(6, plan.terms, |&t| named[t] != 1)
}

fn slots(plan: &Plan) -> Result<(), u64> {
    let mut free = [0u32; 1024];
    for t in (0..plan.terms).rev() {
        let slot = 1 << ROWS[plan.tag(t)].small(plan.word(t));
        free[t] = if plan.tag(t) == 1 { slot } else { 0 };
        for (k, (child, _)) in children(plan, t).enumerate() {
            free[t] |= if plan.tag(t) == 5 && k == 1 { free[child] & !slot } else { free[child] };
        }
    }
    lowest(7, plan.procedures, |&p| {
        let (parameters, root) = plan.procedure(p);
        free[root] >> parameters != 0
    })
}

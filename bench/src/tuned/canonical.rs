//! The one way to write a plan, and refusals 1 to 7 and 13: a term's first child gets the number behind its own, and the others theirs when they are
//! come to; then the term is written.

use super::layout::{row, with_row, Row};
use super::plan::{checked, Plan};
use super::refusal;
use std::mem::MaybeUninit;

/// A term whose other children are yet to be written: its word so far and its number, the next child and where it stands, and an if's third child, or 0.
#[derive(Clone, Copy)]
struct Later {
    word: u64,
    number: u16,
    child: u16,
    third: u16,
    shift: u8,
}

struct Writer<'a> {
    plan: &'a Plan<'a>,
    terms: &'a mut [u8],
    later: [MaybeUninit<Later>; 1024],
    height: usize,
    next: u16,
}

impl Writer<'_> {
    #[inline(always)]
    fn put(&mut self, number: u16, word: u64) {
        let bytes: &mut [u8; 5] = (&mut self.terms[5 * usize::from(number)..][..5]).try_into().expect("five bytes");
        bytes.copy_from_slice(&word.to_be_bytes()[3..]);
    }

    #[inline(always)]
    fn leave(&mut self, later: Later) {
        self.later[self.height & 1023].write(later);
        self.height += 1;
    }

    /// One term; its first child, if it has one.
    #[inline(always)]
    fn see(&mut self, row: &Row, word: u64) -> Option<usize> {
        let number = self.next;
        self.next += 1;
        let word_so_far = row.with_child(word, 0, self.next) & !(row.child[1] | row.child[2]);
        if row.children < 2 {
            self.put(number, word_so_far);
        } else {
            let [child, third] = [1, 2].map(|k| row.child(word, k) as u16);
            self.leave(Later { word: word_so_far, number, child, third, shift: row.child[1].trailing_zeros() as u8 });
        }
        (row.children > 0).then(|| row.child(word, 0))
    }

    /// The term and all below it whose first children lead to each other.
    #[inline(always)]
    fn down(&mut self, mut term: usize) {
        loop {
            let word = self.plan.word(term);
            let first = with_row!(word, |row| self.see(row, word));
            let Some(child) = first else { return };
            term = child;
        }
    }

    /// The tree of a root.
    #[inline(always)]
    fn tree(&mut self, root: usize) {
        self.down(root);
        while self.height > 0 {
            self.height -= 1;
            // SAFETY: what is below the height was written.
            let later = unsafe { self.later[self.height & 1023].assume_init() };
            let word = later.word | u64::from(self.next) << later.shift;
            if later.third == 0 {
                self.put(later.number, word);
            } else {
                self.leave(Later { word, child: later.third, third: 0, shift: 5, ..later });
            }
            self.down(usize::from(later.child));
        }
    }
}

fn written(bytes: &[u8], area: &mut [u8]) -> Result<u64, u64> {
    let plan = checked(bytes)?;
    let area = area.get_mut(..bytes.len()).ok_or(refusal(13, 0))?;
    let (head, terms) = area.split_at_mut(plan.base());
    head[..8].copy_from_slice(&bytes[..8]);
    let mut writer = Writer { plan: &plan, terms, later: [const { MaybeUninit::uninit() }; 1024], height: 0, next: 0 };
    for p in 0..plan.procedures {
        let (parameters, root) = plan.procedure(p);
        head[8 + 2 * p..10 + 2 * p].copy_from_slice(&((parameters << 12) as u16 | writer.next).to_be_bytes());
        writer.tree(root);
    }
    Ok(bytes.len() as u64)
}

pub fn canonical(plan: &[u8], area: &mut [u8]) -> u64 {
    written(plan, area).unwrap_or_else(|refused| refused)
}

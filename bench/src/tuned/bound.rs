//! How many moves a plan can need, and refusals 1 to 7 and 21 to 23: a walk of each procedure's tree, whose leaves are seen in place.

use super::layout::{row, Row};
use super::plan::{checked, Plan};
use super::refusal;

const MOST: u32 = 65535;

/// Bits of the tags whose terms cost nothing and have no parts, and of those whose terms cost two beside their parts.
const FREE: u32 = 1 << 0 | 1 << 1 | 1 << 12 | 1 << 17;
const DEAR: u32 = 1 << 11 | 1 << 18;

/// Of a procedure's body nothing is known, it is under way, or its cost.
#[derive(Clone, Copy)]
enum Body {
    Unseen,
    Begun,
    Costs(u32),
}

struct Costs<'a> {
    plan: &'a Plan<'a>,
    bodies: [Body; 32],
    cyclic: bool,
    whiles: bool,
}

impl Costs<'_> {
    fn body(&mut self, p: usize) -> u32 {
        match self.bodies[p & 31] {
            Body::Costs(cost) => cost,
            Body::Begun => {
                self.cyclic = true;
                0
            }
            Body::Unseen => {
                self.bodies[p & 31] = Body::Begun;
                let cost = self.term(self.plan.procedure(p).1).min(MOST + 1);
                self.bodies[p & 31] = Body::Costs(cost);
                cost
            }
        }
    }

    /// A term's cost, without a call where it has no parts.
    #[inline(always)]
    fn term(&mut self, term: usize) -> u32 {
        let word = self.plan.word(term);
        let tag = word >> 35 & 31;
        if FREE >> tag & 1 == 1 {
            return 0;
        }
        self.parts(word, tag as u32)
    }

    /// The cost of a term with its parts; the last part takes its place.
    fn parts(&mut self, mut word: u64, mut tag: u32) -> u32 {
        let mut sum = 0;
        loop {
            sum += 1 + (DEAR >> tag & 1);
            let last = match tag {
                2 => return sum,
                6 => return sum + self.branches(word),
                8 => {
                    sum += self.body(const { row(8) }.small(word));
                    const { row(8) }.child(word, 0)
                }
                3 | 9 | 10 | 13 | 18..=20 => const { row(3) }.child(word, 0),
                4 => self.first(&mut sum, const { &row(4) }, word),
                5 => self.first(&mut sum, const { &row(5) }, word),
                16 => {
                    sum -= 1;
                    self.first(&mut sum, const { &row(16) }, word)
                }
                _ => {
                    self.whiles |= tag == 7;
                    self.first(&mut sum, const { &row(7) }, word)
                }
            };
            word = self.plan.word(last);
            tag = (word >> 35) as u32 & 31;
            if FREE >> tag & 1 == 1 {
                return sum;
            }
        }
    }

    /// Adds the cost of the first of two parts; the second.
    #[inline(always)]
    fn first(&mut self, sum: &mut u32, row: &Row, word: u64) -> usize {
        *sum += self.term(row.child(word, 0));
        row.child(word, 1)
    }

    fn branches(&mut self, word: u64) -> u32 {
        let [condition, yes, no] = [0, 1, 2].map(|k| self.term(const { row(6) }.child(word, k)));
        condition + yes.max(no)
    }
}

fn total(bytes: &[u8]) -> Result<u64, u64> {
    let plan = checked(bytes)?;
    let mut costs = Costs { plan: &plan, bodies: [Body::Unseen; 32], cyclic: false, whiles: false };
    for p in 0..plan.procedures {
        costs.body(p);
    }
    let total = costs.body(0) + 1;
    match () {
        _ if costs.cyclic => Err(refusal(21, 0)),
        _ if costs.whiles => Err(refusal(22, 0)),
        _ if total > MOST => Err(refusal(23, 0)),
        _ => Ok(u64::from(total)),
    }
}

pub fn bound(plan: &[u8]) -> u64 {
    total(plan).unwrap_or_else(|refused| refused)
}

//! How many moves a plan can need, and refusals 1 to 7 and 21 to 23.

use super::plan::{check, Plan};
use super::Refusal;

const MOST: usize = 65535;

/// What is known of a procedure's body.
#[derive(Clone, Copy)]
enum Body {
    Unseen,
    Begun,
    Costs(usize),
}

struct Costs<'a> {
    plan: &'a Plan,
    bodies: [Body; 32],
    cyclic: bool,
    whiles: bool,
}

impl Costs<'_> {
    /// What a procedure's body costs, or one more than the most.
    fn body(&mut self, procedure: usize) -> usize {
        match self.bodies[procedure] {
            Body::Costs(cost) => cost,
            Body::Begun => {
                self.cyclic = true;
                0
            }
            Body::Unseen => {
                self.bodies[procedure] = Body::Begun;
                let cost = self.term(self.plan.roots[procedure]).min(MOST + 1);
                self.bodies[procedure] = Body::Costs(cost);
                cost
            }
        }
    }

    fn term(&mut self, at: u16) -> usize {
        let term = self.plan.terms[at as usize];
        let [a, b, c] = term.kids;
        match term.tag {
            0 | 1 | 12 | 17 => 0,
            2 => 1,
            6 => self.term(a) + self.term(b).max(self.term(c)) + 1,
            7 => {
                self.whiles = true;
                self.term(a) + self.term(b) + 1
            }
            8 => self.term(a) + self.body(term.small as usize) + 1,
            11 => self.term(a) + self.term(b) + 2,
            16 => self.term(a) + self.term(b),
            18 => self.term(a) + 2,
            3 | 9 | 10 | 13 | 19 | 20 => self.term(a) + 1,
            _ => self.term(a) + self.term(b) + 1,
        }
    }
}

/// The total.
pub fn bound(plan: &[u8]) -> Result<usize, Refusal> {
    let procedures = plan.get(..2).map_or(0, |p| usize::from(p[0] & 15) << 2 | usize::from(p[1] >> 6));
    let plan = check(plan)?;
    let mut costs = Costs { plan: &plan, bodies: [Body::Unseen; 32], cyclic: false, whiles: false };
    (0..procedures).for_each(|procedure| {
        costs.body(procedure);
    });
    let total = costs.body(0) + 1;
    match () {
        _ if costs.cyclic => Err((21, 0)),
        _ if costs.whiles => Err((22, 0)),
        _ if total > MOST => Err((23, 0)),
        _ => Ok(total),
    }
}

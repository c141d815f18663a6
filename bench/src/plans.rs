//! Programs as trees, and their packed plans (document 01, "The plan, bit by bit").

use crate::random::Random;

/// An expression, a condition or a list of arguments: its tag, its small operand (slot, field, procedure or mask), and its children.
#[derive(Clone)]
pub struct Tree {
    pub tag: u8,
    pub small: u32,
    pub kids: Vec<Tree>,
}

fn tree(tag: u8, small: u32, kids: Vec<Tree>) -> Tree {
    Tree { tag, small, kids }
}

pub fn null() -> Tree {
    tree(0, 0, vec![])
}
pub fn var(slot: u32) -> Tree {
    tree(1, slot, vec![])
}
pub fn new(fields: &[u32]) -> Tree {
    tree(2, fields.iter().fold(0, |mask, f| mask | 1 << (31 - f)), vec![])
}
pub fn read(object: Tree, field: u32) -> Tree {
    tree(3, field, vec![object])
}
pub fn write(object: Tree, field: u32, value: Tree) -> Tree {
    tree(4, field, vec![object, value])
}
pub fn bind(slot: u32, bound: Tree, body: Tree) -> Tree {
    tree(5, slot, vec![bound, body])
}
pub fn sequence(first: Tree, then: Tree) -> Tree {
    bind(15, first, then)
}
pub fn branch(condition: Tree, yes: Tree, no: Tree) -> Tree {
    tree(6, 0, vec![condition, yes, no])
}
pub fn repeat(condition: Tree, body: Tree) -> Tree {
    tree(7, 0, vec![condition, body])
}
pub fn call(procedure: u32, arguments: Vec<Tree>) -> Tree {
    let list = arguments.into_iter().rev().fold(tree(17, 0, vec![]), |rest, a| tree(16, 0, vec![a, rest]));
    tree(8, procedure, vec![list])
}
pub fn fork(body: Tree) -> Tree {
    tree(9, 0, vec![body])
}
pub fn join(object: Tree) -> Tree {
    tree(10, 0, vec![object])
}
pub fn synch(object: Tree, body: Tree) -> Tree {
    tree(11, 0, vec![object, body])
}
/// A wait, a notify or a notify all.
pub fn signal(which: u8, object: Tree) -> Tree {
    tree(18 + which, 0, vec![object])
}
pub fn yes() -> Tree {
    tree(12, 0, vec![])
}
pub fn not(condition: Tree) -> Tree {
    tree(13, 0, vec![condition])
}
pub fn and(left: Tree, right: Tree) -> Tree {
    tree(14, 0, vec![left, right])
}
pub fn equal(left: Tree, right: Tree) -> Tree {
    tree(15, 0, vec![left, right])
}

/// A procedure's parameters and body.
pub type Procedure = (usize, Tree);

/// Where a term's small operand and its children stand, by tag: the bits to their right.
fn layout(tag: u8) -> (u32, &'static [u32]) {
    match tag {
        1 => (31, &[]),
        2 => (3, &[]),
        3 => (20, &[25]),
        4 => (20, &[25, 10]),
        5 => (31, &[21, 11]),
        6 => (0, &[25, 15, 5]),
        8 => (30, &[20]),
        9 | 10 | 13 | 18..=20 => (0, &[25]),
        7 | 11 | 14 | 15 | 16 => (0, &[25, 15]),
        _ => (0, &[]),
    }
}

/// The order in which terms are numbered; each gives a parent a lower number than its children.
#[derive(Clone, Copy)]
pub enum Order {
    Deep,
    Broad,
    Mixed,
}

/// The 40 bits of each term and the root of each procedure. `random` is asked only where the order is mixed.
fn numbered(procedures: &[Procedure], order: Order, random: &mut Random) -> (Vec<u64>, Vec<usize>) {
    let mut words: Vec<u64> = vec![];
    let mut roots = vec![0; procedures.len()];
    // what is still to be numbered, with the parent's term and the bits where its number goes, or the procedure whose root it is
    let mut left: Vec<(&Tree, Option<usize>, u32)> = procedures.iter().enumerate().rev().map(|(p, x)| (&x.1, None, p as u32)).collect();
    while !left.is_empty() {
        let at = match order {
            Order::Deep => left.len() - 1,
            Order::Broad => 0,
            Order::Mixed => random.below(left.len()),
        };
        let (x, parent, place) = left.remove(at);
        let number = words.len();
        match parent {
            None => roots[place as usize] = number,
            Some(t) => words[t] |= (number as u64 & 1023) << place,
        }
        let (small, kids) = layout(x.tag);
        words.push(u64::from(x.tag) << 35 | u64::from(x.small) << small);
        left.extend(x.kids.iter().zip(kids).rev().map(|(k, bits)| (k, Some(number), *bits)));
    }
    (words, roots)
}

/// The packed plan. `random` is asked only where the order is mixed.
pub fn pack(mask: u32, procedures: &[Procedure], order: Order, random: &mut Random) -> Vec<u8> {
    let (words, roots) = numbered(procedures, order, random);
    let header = 1 << 28 | (procedures.len() as u32 & 63) << 22 | (words.len() as u32 & 4095) << 10;
    let mut plan = header.to_be_bytes().to_vec();
    plan.extend(mask.to_be_bytes());
    plan.extend(
        procedures
            .iter()
            .zip(roots)
            .flat_map(|((parameters, _), root)| ((*parameters as u16 & 15) << 12 | root as u16 & 4095).to_be_bytes()),
    );
    plan.extend(words.iter().flat_map(|word| word.to_be_bytes().into_iter().skip(3)));
    plan
}

/// The same plan, of version 0.
pub fn version_0(mut plan: Vec<u8>) -> Vec<u8> {
    plan[0] &= 15;
    plan
}

/// The same plan with a notify in place of each wait.
pub fn without_waits(mut plan: Vec<u8>) -> Vec<u8> {
    let procedures = usize::from(plan[0] & 15) << 2 | usize::from(plan[1] >> 6);
    for at in (8 + 2 * procedures..plan.len()).step_by(5) {
        if plan[at] >> 3 == 18 {
            plan[at] = 19 << 3 | plan[at] & 7;
        }
    }
    plan
}

/// The packed plan, numbered depth first.
pub fn packed(mask: u32, procedures: &[Procedure]) -> Vec<u8> {
    pack(mask, procedures, Order::Deep, &mut Random::new(0))
}

//! Random programs, schedules and logs, and damage to them.

use crate::independent::WORDS;
use crate::plans::{self, *};
use crate::random::Random;

pub const MONITOR: u32 = 1 << 31;
const FIELDS: [u32; 5] = [1, 2, 3, 4, 31];

fn volatile(random: &mut Random) -> u32 {
    FIELDS.iter().fold(MONITOR, |mask, f| if random.percent(30) { mask | 1 << (31 - f) } else { mask })
}

/// A chain of procedures, each of which calls the next twice, so that the last one counts many times.
pub fn doubling(random: &mut Random) -> Vec<u8> {
    let last = random.pick(&[3, 13, 14, 15, 31]);
    let twice = |p: u32| sequence(call(p + 1, vec![]), call(p + 1, vec![]));
    let bodies: Vec<_> = (0..last).map(|p| (0, twice(p))).chain([(0, null())]).collect();
    packed(MONITOR, &bodies)
}

/// Programs of every form, whose threads share objects.
struct Any<'a> {
    random: &'a mut Random,
    parameters: Vec<usize>,
    budget: i32,
}

impl Any<'_> {
    fn field(&mut self) -> u32 {
        self.random.pick(&FIELDS)
    }

    fn fields(&mut self) -> Vec<u32> {
        if self.random.percent(50) {
            return FIELDS.to_vec();
        }
        (1..9).filter(|_| self.random.percent(40)).collect()
    }

    /// A slot that is bound, or null. Slots are a mask.
    fn leaf(&mut self, slots: u32) -> Tree {
        let bound: Vec<u32> = (0..8).filter(|s| slots >> s & 1 == 1).collect();
        if bound.is_empty() || self.random.percent(15) {
            return null();
        }
        var(self.random.pick(&bound))
    }

    fn operand(&mut self, slots: u32, depth: usize) -> Tree {
        if self.random.percent(80) {
            self.leaf(slots)
        } else {
            self.expression(slots, depth)
        }
    }

    fn expression(&mut self, slots: u32, depth: usize) -> Tree {
        self.budget -= 1;
        if self.budget <= 0 || depth > 40 {
            return self.leaf(slots);
        }
        let deep = depth + 1;
        match self.random.below(100) {
            0..=6 => self.leaf(slots),
            7..=12 => plans::new(&self.fields()),
            13..=24 => read(self.operand(slots, deep), self.field()),
            25..=38 => write(self.operand(slots, deep), self.field(), self.expression(slots, deep)),
            39..=52 => self.binding(slots, deep),
            53..=66 => sequence(self.expression(slots, deep), self.expression(slots, deep)),
            67..=72 => branch(self.condition(slots, deep), self.expression(slots, deep), self.expression(slots, deep)),
            73..=75 => repeat(self.condition(slots, deep), self.expression(slots, deep)),
            76..=80 => self.calling(slots, deep),
            81..=88 => fork(self.expression(slots, deep)),
            89..=91 => join(self.operand(slots, deep)),
            92..=94 => signal(self.random.below(3) as u8, self.operand(slots, deep)),
            _ => synch(self.operand(slots, deep), self.expression(slots, deep)),
        }
    }

    fn binding(&mut self, slots: u32, deep: usize) -> Tree {
        let slot = self.random.below(8) as u32;
        let bound = if self.random.percent(50) { plans::new(&FIELDS) } else { self.expression(slots, deep) };
        bind(slot, bound, self.expression(slots | 1 << slot, deep))
    }

    fn calling(&mut self, slots: u32, deep: usize) -> Tree {
        let procedure = self.random.below(self.parameters.len());
        let arguments = (0..self.parameters[procedure]).map(|_| self.operand(slots, deep)).collect();
        call(procedure as u32, arguments)
    }

    fn condition(&mut self, slots: u32, depth: usize) -> Tree {
        self.budget -= 1;
        let deep = depth + 1;
        match if self.budget <= 0 { 0 } else { self.random.below(17) } {
            0..=1 => yes(),
            2..=5 => not(self.condition(slots, deep)),
            6..=8 => and(self.condition(slots, deep), self.condition(slots, deep)),
            _ => equal(self.expression(slots, deep), self.expression(slots, deep)),
        }
    }
}

/// A program of every form, of about so many terms.
pub fn any(random: &mut Random, size: usize) -> Vec<u8> {
    let count = random.pick(&[1, 1, 2, 3, 5, 32]);
    let parameters: Vec<usize> = (0..count).map(|p| if p == 0 { 0 } else { random.below(9) }).collect();
    let mask = volatile(random);
    let share = (size / count.min(5)) as i32 + 2;
    let mut procedures = vec![];
    for p in 0..count {
        let mut any = Any { random, parameters: parameters.clone(), budget: share };
        let slots = (1u32 << parameters[p]) - 1;
        let body = if p == 0 && any.random.percent(80) {
            bind(0, plans::new(&FIELDS), bind(1, plans::new(&FIELDS), any.expression(3, 2)))
        } else {
            any.expression(slots, 0)
        };
        procedures.push((parameters[p], body));
    }
    let order = random.pick(&[Order::Deep, Order::Deep, Order::Broad, Order::Mixed]);
    pack(mask, &procedures, order, random)
}

/// One action of a thread that shares objects 0 and 1 with others.
fn action(random: &mut Random, depth: usize) -> Tree {
    let object = var(random.below(2) as u32);
    let other = var(random.below(2) as u32);
    let field = random.pick(&[1, 3]);
    match random.below(if depth < 3 { 12 } else { 6 }) {
        0..=1 => write(object, field, other),
        2..=3 => read(object, field),
        4 => write(object, 2, other),
        5 => read(object, 2),
        6..=7 => synch(object, actions(random, depth + 1)),
        10 => synch(object.clone(), sequence(signal(0, object), actions(random, depth + 1))),
        11 => synch(object.clone(), sequence(signal(1 + random.below(2) as u8, object), actions(random, depth + 1))),
        8 => repeat(equal(read(object, 2), null()), actions(random, depth + 1)),
        _ => branch(equal(object, other), action(random, depth + 1), action(random, depth + 1)),
    }
}

fn actions(random: &mut Random, depth: usize) -> Tree {
    let more = random.below(4);
    (0..more).fold(action(random, depth), |then, _| sequence(action(random, depth), then))
}

/// Actions, after some of the joins of the threads in slots 2 and on.
fn joins(random: &mut Random, threads: usize) -> Tree {
    let body = actions(random, 0);
    (0..threads).fold(body, |then, t| if random.percent(40) { sequence(join(var(2 + t as u32)), then) } else { then })
}

/// Threads, up to eight and now and then more, that work on two shared objects and little else: many orderings, races and long logs.
pub fn shared(random: &mut Random) -> Vec<u8> {
    let threads = random.below(9);
    let joined = joins(random, threads.min(6));
    let body = (0..threads).fold(joined, |then, t| bind(if t < 6 { 2 + t as u32 } else { 15 }, fork(actions(random, 0)), then));
    let main = bind(0, plans::new(&[1, 2, 3]), bind(1, plans::new(&[1, 2, 3]), body));
    packed(MONITOR | 1 << 29 | if random.percent(30) { 1 << 28 } else { 0 }, &[(0, main)])
}

/// The same of version 1 and without a wait: what the witness takes.
pub fn racing(random: &mut Random) -> Vec<u8> {
    plans::without_waits(shared(random))
}

/// Programs that run out of threads, objects, keys or depth, or come close.
pub fn room(random: &mut Random) -> Vec<u8> {
    let object = || plans::new(&[1, 2]);
    let main = match random.below(5) {
        0 => repeat(yes(), fork(repeat(yes(), null()))),
        1 => repeat(yes(), object()),
        2 => bind(0, object(), repeat(yes(), write(var(0), 1, var(0)))),
        3 => bind(0, object(), call(1, vec![var(0)])),
        _ => {
            let depth = 28 + random.below(8);
            bind(0, object(), (0..depth).fold(read(var(0), 2), |inner, _| write(var(0), 2, inner)))
        }
    };
    let again = write(var(0), 2, call(1, vec![read(var(0), 2)]));
    packed(MONITOR | 1 << 29, &[(0, main), (1, again)])
}

/// The plan, now and then for the first controllers: of version 0.
pub fn either_version(random: &mut Random, plan: Vec<u8>) -> Vec<u8> {
    if random.percent(35) {
        plans::version_0(plan)
    } else {
        plan
    }
}

/// A version to tell the judge, mostly one that there is.
pub fn version(random: &mut Random) -> u64 {
    match random.below(20) {
        0 => 2,
        1 => 1 << random.below(64),
        n => n as u64 % 2,
    }
}

/// A plan with a bit or more turned, a piece cut off or put on, or a field of it replaced.
pub fn damaged(random: &mut Random, mut plan: Vec<u8>) -> Vec<u8> {
    match random.below(6) {
        0 => plan.truncate(random.below(plan.len() + 1)),
        1 => {
            let more = 1 + random.below(9);
            plan.extend(random.bytes(more));
        }
        2..=3 => {
            for _ in 0..=random.below(3) {
                let bit = random.below(8 * plan.len());
                plan[bit / 8] ^= 128 >> (bit % 8);
            }
        }
        4 => {
            let at = random.below(plan.len());
            plan[at] = random.byte();
        }
        _ => bend(random, &mut plan),
    }
    plan
}

/// One term takes another's place, its tag, or another small number.
fn bend(random: &mut Random, plan: &mut [u8]) {
    let base = 8 + 2 * (usize::from(plan[0] & 15) << 2 | usize::from(plan[1] >> 6));
    let terms = (plan.len().max(base) - base) / 5;
    if terms == 0 {
        return;
    }
    let (at, from) = (base + 5 * random.below(terms), base + 5 * random.below(terms));
    match random.below(3) {
        0 => plan.copy_within(from..from + 5, at),
        1 => plan[at] = plan[at] & 7 | (random.below(21) as u8) << 3,
        _ => plan[at + 1 + random.below(3)] ^= 1 << random.below(8),
    }
}

pub fn schedule(random: &mut Random) -> Vec<u8> {
    let length = match random.below(100) {
        0..=4 => 0,
        5..=54 => random.below(60),
        55..=89 => random.below(600),
        90..=96 => 1024 + random.below(2048),
        97..=98 => 4096,
        _ => 4097,
    };
    let threads = random.pick(&[1, 2, 2, 3, 4, 8]);
    let run = random.pick(&[1, 1, 4, 20]);
    let mut thread = 0;
    let mut picks: Vec<u8> = vec![];
    for _ in 0..length {
        if random.below(run) == 0 {
            thread = random.below(threads) as u8;
        }
        picks.push(thread);
    }
    if length > 0 && random.percent(3) {
        picks[random.below(length)] = 8 + random.below(248) as u8;
    }
    picks
}

/// A log area for so many picks: just enough, more, or too short, filled with anything.
pub fn area(random: &mut Random, picks: usize) -> Vec<u8> {
    let length = match random.below(100) {
        0..=49 => 3 * picks,
        50..=95 => 3 * picks + random.below(40),
        96..=97 => (3 * picks).saturating_sub(1),
        _ => random.below(3 * picks + 1),
    };
    random.bytes(length)
}

/// An area for the data file of a log of so many bytes: mostly long enough, filled with anything.
pub fn file_area(random: &mut Random, bytes: usize) -> Vec<u8> {
    let enough = 80 * (bytes / 3) + 1;
    let length = if random.percent(90) { enough } else { random.below(enough) };
    random.bytes(length)
}

/// A record of a log that no run need have written.
fn record(random: &mut Random, last: bool) -> u32 {
    let kind = if last && random.percent(20) { 10 + random.below(2) } else { 1 + random.below(9) } as u32;
    let (thread, object) = (random.below(4) as u32, random.below(3) as u32);
    let (field, value) = match kind {
        1 | 6 | 7 => (0, 0),
        8 => (random.below(4) as u32, 0),
        9 => (random.below(4) as u32, random.below(32) as u32),
        10 => (1 + random.below(3) as u32, 0),
        _ => (1 + random.below(3) as u32, random.below(32) as u32),
    };
    kind << 20 | thread << 17 | object << 12 | field << 7 | value << 2
}

/// A log: well formed, damaged, or any bytes.
pub fn log(random: &mut Random) -> Vec<u8> {
    let count = match random.below(100) {
        0..=79 => random.below(30),
        80..=97 => random.below(400),
        _ => 4090 + random.below(12),
    };
    if random.percent(3) {
        return random.bytes(count);
    }
    let mut log: Vec<u8> = vec![];
    for i in 0..count {
        log.extend(&record(random, i + 1 == count).to_be_bytes()[1..]);
    }
    damaged_log(random, log)
}

/// A log, mostly as it is.
pub fn damaged_log(random: &mut Random, mut log: Vec<u8>) -> Vec<u8> {
    if log.is_empty() || random.percent(70) {
        return log;
    }
    match random.below(4) {
        0 => log.truncate(random.below(log.len())),
        1 => log.truncate(random.below(log.len()) / 3 * 3),
        2 => {
            let (from, to) = (random.below(log.len() / 3) * 3, random.below(log.len() / 3) * 3);
            log.copy_within(from..from + 3, to);
        }
        _ => {
            let bit = random.below(8 * log.len());
            log[bit / 8] ^= 128 >> (bit % 8);
        }
    }
    log
}

/// Pieces that can be put into a text besides its words, most of them tokens.
const PIECES: [&str; 22] =
    ["(", ")", ",", ".", "=", ":=", "-", "0", "1", "2", "7", "8", "9", "31", "32", "v0", "v7", "v8", "# c\n", ":", "\n", "new1"];

/// A word or another piece.
fn piece(random: &mut Random) -> &'static str {
    let index = random.below(WORDS.len() + PIECES.len());
    WORDS.get(index).unwrap_or_else(|| &PIECES[index - WORDS.len()])
}

/// A text with a few pieces put in, taken out or put in the place of others; it may be a plan's still.
pub fn changed_text(random: &mut Random, text: &[u8]) -> Vec<u8> {
    let mut words: Vec<Vec<u8>> = text.split_inclusive(|byte| !byte.is_ascii_alphanumeric()).map(<[u8]>::to_vec).collect();
    for _ in 0..1 + random.below(3) {
        let at = random.below(words.len() + 1);
        let piece = format!(" {} ", piece(random)).into_bytes();
        match random.below(4) {
            0 => words.insert(at, piece),
            1 if at < words.len() => words[at] = piece,
            2 if at < words.len() => drop(words.remove(at)),
            _ => words.insert(at, random.pick(&[" ", "\t", "\r\n", "#\n", " ( ", " ) "]).into()),
        }
    }
    words.concat()
}

//! The run of a schedule, and refusals 8 to 10.

use super::plan::{check, Plan};
use super::Refusal;

type Keys = [u64; 4];
/// The keys of both, and how many were new to the first.
fn join(a: &mut Keys, b: &Keys) -> u8 {
    let mut new = 0;
    for i in 0..4 {
        new += (b[i] & !a[i]).count_ones() as u8;
        a[i] |= b[i];
    }
    new
}
fn holds(a: &Keys, k: u8) -> bool {
    a[(k >> 6) as usize] >> (k & 63) & 1 == 1
}

#[derive(Clone, Copy, PartialEq, Eq, Debug)]
pub enum State {
    Absent,
    Finished(u8),
    Ready,
    WaitMonitor(u8),
    WaitJoin(u8),
    StuckField(u8, u8),
    StuckThread(u8),
    Lacking(u8, u8),
    WaitNotify(u8),
    StuckMonitor(u8),
}

// A frame is a construct with its operand under way: stage counts the operands already evaluated.
#[derive(Clone, Copy, Default)]
struct Frame {
    term: u16,
    list: u16,
    stage: u8,
    obj: u8,
    env: u64,
    args: u64,
}
const HOLD: u8 = 255;
const WHILE_IF: u8 = 254;
const AWAIT: u8 = 251;

#[derive(Clone, Copy)]
struct Thread {
    obj: u8,
    depth: u8,
    done: bool,
    value: u8,
    redex: Frame,
    op: u8,
    a: u8,
    b: u8,
    frames: [Frame; 34],
    keys: Keys,
    learnt: u8,
    // the object that it waits on or waited on last, and its place among those that are not notified
    on: u8,
    place: u8,
}
impl Default for Thread {
    fn default() -> Self {
        Thread {
            obj: 0,
            depth: 0,
            done: false,
            value: 0,
            redex: Frame::default(),
            op: 0,
            a: 0,
            b: 0,
            frames: [Frame::default(); 34],
            keys: [0; 4],
            learnt: 0,
            on: 0,
            place: 0,
        }
    }
}

pub struct Outcome {
    pub word: u8,
    pub picks: usize,
    pub moves: usize,
    pub records: usize,
    pub states: [State; 8],
    pub totals: [u8; 8],
    /// Moves and records before the last pick that was met.
    pub before: (usize, usize),
}

struct Run<'a> {
    plan: &'a Plan,
    threads: [Thread; 8],
    nthreads: usize,
    nobjects: usize,
    next_key: usize,
    masks: [u32; 32],
    values: [[u8; 32]; 32],
    plain: [[u8; 32]; 32],
    vol: Box<[[Keys; 32]; 32]>,
    mon: [Keys; 32],
    owner: [u8; 32],
    thread_of: [u8; 32],
}

fn slot(env: u64, s: u8) -> u8 {
    (env >> (8 * s)) as u8
}
fn bind(env: u64, s: u8, v: u8) -> u64 {
    if s > 7 {
        env
    } else {
        env & !(255 << (8 * s)) | (v as u64) << (8 * s)
    }
}

enum Land {
    Ok,
    Deep,
}

impl<'a> Run<'a> {
    fn is_value(&self, term: u16, env: u64) -> Option<u8> {
        let t = &self.plan.terms[term as usize];
        match t.tag {
            0 => Some(0),
            1 => Some(slot(env, t.small)),
            12 => Some(1),
            13 if self.plan.terms[t.kids[0] as usize].tag == 12 => Some(0),
            _ => None,
        }
    }
    // the thread's expression becomes `term` under env at its current depth
    fn descend(&self, t: &mut Thread, mut term: u16, mut env: u64) -> Land {
        loop {
            if let Some(v) = self.is_value(term, env) {
                return self.give(t, v);
            }
            let x = &self.plan.terms[term as usize];
            let mut f = Frame { term, list: 0, stage: 0, obj: 0, env, args: 0 };
            match x.tag {
                2 | 7 | 9 => {
                    return self.ready(t, f, x.tag, 0, 0);
                }
                8 => {
                    f.list = x.kids[0];
                    match self.arguments(&mut f) {
                        None => return self.ready(t, f, 8, 0, 0),
                        Some(next) => {
                            t.frames[t.depth as usize] = f;
                            t.depth += 1;
                            term = next;
                        }
                    }
                }
                5 => {
                    if let Some(v) = self.is_value(x.kids[0], env) {
                        return self.ready(t, f, 5, v, 0);
                    }
                    t.frames[t.depth as usize] = f;
                    t.depth += 1;
                    term = x.kids[0];
                }
                4 | 15 => {
                    if let Some(v) = self.is_value(x.kids[0], env) {
                        f.stage = 1;
                        f.obj = v;
                        if let Some(w) = self.is_value(x.kids[1], env) {
                            return self.ready(t, f, x.tag, v, w);
                        }
                        t.frames[t.depth as usize] = f;
                        t.depth += 1;
                        term = x.kids[1];
                    } else {
                        t.frames[t.depth as usize] = f;
                        t.depth += 1;
                        term = x.kids[0];
                    }
                }
                3 | 6 | 10 | 11 | 13 | 14 | 18..=20 => {
                    if let Some(v) = self.is_value(x.kids[0], env) {
                        return self.ready(t, f, x.tag, v, 0);
                    }
                    t.frames[t.depth as usize] = f;
                    t.depth += 1;
                    term = x.kids[0];
                }
                _ => unreachable!(),
            }
            if t.depth > 32 && self.is_value(term, env).is_none() {
                return Land::Deep;
            }
            env = f.env;
        }
    }
    fn ready(&self, t: &mut Thread, f: Frame, op: u8, a: u8, b: u8) -> Land {
        t.redex = f;
        t.op = op;
        t.a = a;
        t.b = b;
        if t.depth > 32 {
            Land::Deep
        } else {
            Land::Ok
        }
    }
    fn arguments(&self, f: &mut Frame) -> Option<u16> {
        loop {
            let l = &self.plan.terms[f.list as usize];
            if l.tag == 17 {
                return None;
            }
            match self.is_value(l.kids[0], f.env) {
                Some(v) => {
                    f.args = bind(f.args, f.stage, v);
                    f.stage += 1;
                    f.list = l.kids[1];
                }
                None => return Some(l.kids[0]),
            }
        }
    }
    // a value arrives at the place of the part that moved
    fn give(&self, t: &mut Thread, v: u8) -> Land {
        if t.depth == 0 {
            t.done = true;
            t.value = v;
            return Land::Ok;
        }
        t.depth -= 1;
        let mut f = t.frames[t.depth as usize];
        if f.stage == HOLD {
            return self.ready(t, f, HOLD, f.obj, v);
        }
        if f.stage == WHILE_IF {
            return self.ready(t, f, WHILE_IF, v, 0);
        }
        let x = &self.plan.terms[f.term as usize];
        match x.tag {
            8 => {
                f.args = bind(f.args, f.stage, v);
                f.stage += 1;
                f.list = self.plan.terms[f.list as usize].kids[1];
                match self.arguments(&mut f) {
                    None => self.ready(t, f, 8, 0, 0),
                    Some(next) => {
                        t.frames[t.depth as usize] = f;
                        t.depth += 1;
                        self.descend(t, next, f.env)
                    }
                }
            }
            4 | 15 if f.stage == 0 => {
                f.stage = 1;
                f.obj = v;
                if let Some(w) = self.is_value(x.kids[1], f.env) {
                    return self.ready(t, f, x.tag, v, w);
                }
                t.frames[t.depth as usize] = f;
                t.depth += 1;
                self.descend(t, x.kids[1], f.env)
            }
            4 | 15 => self.ready(t, f, x.tag, f.obj, v),
            13 if v == 1 => self.give(t, 0), // `not true` is the value false: no move
            7 => self.sequence(t, f),        // the let of a while's turn: its operand is a value
            _ => self.ready(t, f, x.tag, v, 0),
        }
    }
    fn sequence(&self, t: &mut Thread, f: Frame) -> Land {
        self.ready(t, f, 253, 0, 0)
    }

    fn status(&self, n: usize) -> State {
        if n >= self.nthreads {
            return State::Absent;
        }
        let t = &self.threads[n];
        if t.done {
            return State::Finished(t.value);
        }
        match t.op {
            3 | 4 => {
                let f = self.plan.terms[t.redex.term as usize].small;
                let o = t.a;
                if self.masks[o as usize] >> (31 - f) & 1 == 0 {
                    return State::StuckField(o, f);
                }
                if self.plan.mask >> (31 - f) & 1 == 0 && !holds(&t.keys, self.plain[o as usize][f as usize]) {
                    return State::Lacking(o, f);
                }
            }
            11 => {
                let o = t.a as usize;
                if self.mon[o] == [0; 4] && self.owner[o] as usize != n {
                    return State::WaitMonitor(t.a);
                }
            }
            18..=20 => {
                let o = t.a as usize;
                if self.mon[o] != [0; 4] || self.owner[o] as usize != n {
                    return State::StuckMonitor(t.a);
                }
            }
            AWAIT => {
                if t.place > 0 {
                    return State::WaitNotify(t.a);
                }
                if self.mon[t.a as usize] == [0; 4] {
                    return State::WaitMonitor(t.a);
                }
            }
            10 => {
                let q = self.thread_of[t.a as usize];
                if q == 255 {
                    return State::StuckThread(t.a);
                }
                if !self.threads[q as usize].done {
                    return State::WaitJoin(t.a);
                }
            }
            _ => {}
        }
        State::Ready
    }
}

fn put(log: &mut [u8], at: usize, kind: u32, t: usize, o: u8, f: u8, v: u8) {
    let w = kind << 20 | (t as u32) << 17 | (o as u32) << 12 | (f as u32) << 7 | (v as u32) << 2;
    let b = w.to_be_bytes();
    log[3 * at..3 * at + 3].copy_from_slice(&b[1..]);
}

pub fn play(plan: &[u8], schedule: &[u8], log: &mut [u8]) -> Result<Outcome, Refusal> {
    let plan = check(plan)?;
    if schedule.len() > 4096 {
        return Err((8, 0));
    }
    if let Some(i) = schedule.iter().position(|&n| n > 7) {
        return Err((9, i));
    }
    if log.len() < 3 * schedule.len() {
        return Err((10, 0));
    }
    Ok(run(&plan, schedule, log))
}

/// A schedule that nothing refuses.
pub(super) fn run(plan: &Plan, schedule: &[u8], log: &mut [u8]) -> Outcome {
    run_seen(plan, schedule, log, |_, _| ())
}

/// The same; of each move its thread and how many records there are after it are seen.
pub(super) fn run_seen(plan: &Plan, schedule: &[u8], log: &mut [u8], mut seen: impl FnMut(usize, usize)) -> Outcome {
    let mut r = Run {
        plan,
        threads: [Thread::default(); 8],
        nthreads: 1,
        nobjects: 1,
        next_key: 1,
        masks: [0; 32],
        values: [[0; 32]; 32],
        plain: [[0; 32]; 32],
        vol: Box::new([[[1, 0, 0, 0]; 32]; 32]),
        mon: [[1, 0, 0, 0]; 32],
        owner: [0; 32],
        thread_of: [255; 32],
    };
    r.thread_of[0] = 0;
    r.threads[0].keys = [1, 0, 0, 0];
    r.threads[0].op = 252; // about to call main
    let (mut word, mut picks, mut moves, mut rec) = (0u8, 0, 0, 0);
    let mut before = (0, 0);
    for &p in schedule {
        before = (moves, rec);
        let n = p as usize;
        match r.status(n) {
            State::Absent
            | State::Finished(_)
            | State::WaitMonitor(_)
            | State::WaitJoin(_)
            | State::StuckField(..)
            | State::StuckThread(_)
            | State::WaitNotify(_)
            | State::StuckMonitor(_) => {
                picks += 1;
                continue;
            }
            State::Lacking(o, f) => {
                let t = &r.threads[n];
                if t.op == 3 {
                    put(log, rec, 10, n, o, f, 0)
                } else {
                    put(log, rec, 11, n, o, f, t.b)
                }
                rec += 1;
                word = 1;
                break;
            }
            State::Ready => {}
        }
        let t = &r.threads[n];
        let (op, a, b, x) = (t.op, t.a, t.b, t.redex);
        let small = r.plan.terms[x.term as usize].small;
        let volatile = r.plan.mask >> (31 - (small & 31)) & 1 == 1;
        if op == 9 && r.nthreads == 8 {
            word = 2;
            break;
        }
        if (op == 9 || op == 2) && r.nobjects == 32 {
            word = 3;
            break;
        }
        if op == 4 && !volatile && r.next_key == 256 {
            word = 4;
            break;
        }
        let mut t = *t;
        let term = r.plan.terms[x.term as usize];
        let (o, f) = (a as usize, small as usize);
        let mut forked = Thread::default();
        let land = match op {
            252 => r.descend(&mut t, r.plan.roots[0], 0),
            8 => r.descend(&mut t, r.plan.roots[small as usize], x.args),
            5 => r.descend(&mut t, term.kids[1], bind(x.env, small, a)),
            253 => r.descend(&mut t, x.term, x.env),
            6 => r.descend(&mut t, if a == 1 { term.kids[1] } else { term.kids[2] }, x.env),
            7 => {
                // the if of a while: its condition is evaluated first
                let fr = Frame { stage: WHILE_IF, ..x };
                match r.is_value(term.kids[0], x.env) {
                    Some(v) => r.ready(&mut t, fr, WHILE_IF, v, 0),
                    None => {
                        t.frames[t.depth as usize] = fr;
                        t.depth += 1;
                        if t.depth > 32 {
                            Land::Deep
                        } else {
                            r.descend(&mut t, term.kids[0], x.env)
                        }
                    }
                }
            }
            WHILE_IF => {
                if a == 1 {
                    // e; while
                    let fr = Frame { stage: 0, ..x };
                    match r.is_value(term.kids[1], x.env) {
                        Some(_) => r.sequence(&mut t, fr),
                        None => {
                            t.frames[t.depth as usize] = fr;
                            t.depth += 1;
                            if t.depth > 32 {
                                Land::Deep
                            } else {
                                r.descend(&mut t, term.kids[1], x.env)
                            }
                        }
                    }
                } else {
                    r.give(&mut t, 0)
                }
            }
            13 => r.give(&mut t, 1),
            14 => {
                if a == 1 {
                    r.descend(&mut t, term.kids[1], x.env)
                } else {
                    r.give(&mut t, 0)
                }
            }
            15 => r.give(&mut t, (a == b) as u8),
            2 => r.give(&mut t, r.nobjects as u8),
            3 => {
                if volatile && r.plan.version == 1 {
                    t.learnt += join(&mut t.keys, &r.vol[o][f]);
                }
                r.give(&mut t, r.values[o][f])
            }
            4 => r.give(&mut t, b),
            9 => {
                forked.obj = r.nobjects as u8;
                forked.keys = t.keys;
                match r.descend(&mut forked, term.kids[0], x.env) {
                    Land::Ok => r.give(&mut t, r.nobjects as u8),
                    Land::Deep => Land::Deep,
                }
            }
            10 => {
                let q = r.threads[r.thread_of[o] as usize];
                t.learnt += join(&mut t.keys, &q.keys);
                r.give(&mut t, q.value)
            }
            11 => {
                if r.mon[o] == [0; 4] {
                    r.descend(&mut t, term.kids[1], x.env)
                } else {
                    t.learnt += join(&mut t.keys, &r.mon[o]);
                    let fr = Frame { stage: HOLD, obj: a, ..x };
                    match r.is_value(term.kids[1], x.env) {
                        Some(v) => r.ready(&mut t, fr, HOLD, a, v),
                        None => {
                            t.frames[t.depth as usize] = fr;
                            t.depth += 1;
                            if t.depth > 32 {
                                Land::Deep
                            } else {
                                r.descend(&mut t, term.kids[1], x.env)
                            }
                        }
                    }
                }
            }
            HOLD => r.give(&mut t, b),
            18 => r.ready(&mut t, x, AWAIT, a, 0),
            19 | 20 => r.give(&mut t, 0),
            AWAIT => {
                t.learnt += join(&mut t.keys, &r.mon[o]);
                r.give(&mut t, 0)
            }
            _ => unreachable!(),
        };
        if let Land::Deep = land {
            word = 5;
            break;
        }
        match op {
            2 => {
                r.masks[r.nobjects] = term.mask;
                put(log, rec, 1, n, r.nobjects as u8, 0, 0);
                rec += 1;
                r.nobjects += 1;
            }
            3 => {
                put(log, rec, if volatile { 4 } else { 2 }, n, a, small, r.values[o][f]);
                rec += 1;
            }
            4 => {
                if volatile {
                    if r.plan.version == 1 {
                        join(&mut r.vol[o][f], &t.keys);
                    }
                } else {
                    r.plain[o][f] = r.next_key as u8;
                    t.keys[r.next_key >> 6] |= 1 << (r.next_key & 63);
                    r.next_key += 1;
                }
                r.values[o][f] = b;
                put(log, rec, if volatile { 5 } else { 3 }, n, a, small, b);
                rec += 1;
            }
            9 => {
                r.thread_of[r.nobjects] = r.nthreads as u8;
                r.threads[r.nthreads] = forked;
                put(log, rec, 8, n, r.nobjects as u8, r.nthreads as u8, 0);
                rec += 1;
                r.nobjects += 1;
                r.nthreads += 1;
            }
            10 => {
                let q = r.thread_of[o];
                put(log, rec, 9, n, a, q, r.threads[q as usize].value);
                rec += 1;
            }
            11 => {
                if r.mon[o] != [0; 4] {
                    r.mon[o] = [0; 4];
                    r.owner[o] = n as u8;
                    put(log, rec, 6, n, a, 0, 0);
                    rec += 1;
                }
            }
            HOLD => {
                r.mon[o] = t.keys;
                put(log, rec, 7, n, a, 0, 0);
                rec += 1;
            }
            18 => {
                let queued = r.threads.iter().filter(|q| q.on == a && q.place > 0).count() as u8;
                (t.on, t.place) = (a, queued + 1);
                r.mon[o] = t.keys;
                put(log, rec, 7, n, a, 0, 0);
                rec += 1;
            }
            19 | 20 => {
                for q in r.threads.iter_mut().filter(|q| q.on == a && q.place > 0) {
                    q.place = if op == 19 { q.place - 1 } else { 0 };
                }
            }
            AWAIT => {
                r.mon[o] = [0; 4];
                r.owner[o] = n as u8;
                put(log, rec, 6, n, a, 0, 0);
                rec += 1;
            }
            _ => {}
        }
        r.threads[n] = t;
        picks += 1;
        moves += 1;
        seen(n, rec);
    }
    let mut states = [State::Absent; 8];
    for n in 0..8 {
        states[n] = r.status(n);
    }
    let totals = r.threads.map(|t| t.learnt);
    Outcome { word, picks, moves, records: rec, states, totals, before }
}

// ---- judge: vector clocks, with the last write as an epoch

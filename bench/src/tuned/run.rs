//! The run of a schedule, and refusals 8 to 10: threads in place, each with its next move ready, and a landing that writes nothing but the new top.

use super::code::{Code, Kind, Op, Way, NO_NODE};
use super::keys::Keys;
use super::plan::{checked, Plan};
use super::refusal;
use std::arch::x86_64::{_mm_cvtsi128_si64, _mm_cvtsi64_si128, _mm_shuffle_epi8};
use std::mem::MaybeUninit;

const DEPTH: usize = 32;

/// A construct around what moves next, or what moves next itself: the slots' values, and of a call its arguments.
#[derive(Clone, Copy)]
struct Frame {
    slots: u64,
    arguments: u64,
    term: u16,
    kind: Kind,
    op: Op,
    first: u8,
}

/// The operands of the next move are a and b; a is the value of a thread that is done. `place` is the thread's place in the queue of object `on`.
struct Thread {
    keys: Keys,
    depth: usize,
    op: Op,
    a: u8,
    b: u8,
    learnt: u8,
    on: u8,
    place: u8,
    frames: [MaybeUninit<Frame>; DEPTH + 1],
}

struct Object {
    monitor: Keys,
    values: [u8; 32],
    keys: [u8; 32],
    fields: u32,
    owner: u8,
    thread: u8,
}

const NO_THREAD: u8 = 255;

/// Where the moves of a run are put down.
pub trait Sink {
    fn record(&mut self, bits: u32);
    fn silent(&mut self, thread: usize);
}

/// A log area of three bytes for each pick.
pub struct Log(*mut u8);

impl Sink for Log {
    #[inline(always)]
    fn record(&mut self, bits: u32) {
        let [_, bytes @ ..] = bits.to_be_bytes();
        // SAFETY: there are no more records than picks.
        unsafe {
            self.0.cast::<[u8; 3]>().write(bytes);
            self.0 = self.0.add(3);
        }
    }
    #[inline(always)]
    fn silent(&mut self, _: usize) {}
}

/// The last record alone.
#[derive(Default)]
pub struct Last {
    pub bits: u32,
}

impl Sink for Last {
    #[inline(always)]
    fn record(&mut self, bits: u32) {
        self.bits = bits;
    }
    #[inline(always)]
    fn silent(&mut self, _: usize) {
        self.bits = 0;
    }
}

/// What a pick did.
#[derive(Clone, Copy, PartialEq, Eq)]
#[repr(u8)]
pub enum Step {
    Moved,
    Race,
    NoThread,
    NoObject,
    NoKey,
    NoDepth,
    /// It was passed over: for good; until something moves.
    Idle,
    Held,
}

pub struct Run<'a, S> {
    code: Code<'a>,
    pub sink: S,
    pub picks: usize,
    pub moves: usize,
    pub records: usize,
    pub stop: Step,
    stopped: usize,
    threads_made: usize,
    objects_made: usize,
    keys_made: usize,
    /// Bit t: a pick of thread t is passed over, for good, or until something moves.
    idle: u32,
    held: u32,
    threads: [MaybeUninit<Thread>; 8],
    objects: [MaybeUninit<Object>; 32],
    volatiles: [[MaybeUninit<Keys>; 32]; 32],
}

#[inline(always)]
fn shuffled(slots: u64, places: u64) -> u64 {
    // SAFETY: the bytes are in registers, and every x86-64 processor in use has the instruction.
    unsafe { _mm_cvtsi128_si64(_mm_shuffle_epi8(_mm_cvtsi64_si128(slots as i64), _mm_cvtsi64_si128(places as i64))) as u64 }
}

impl Thread {
    #[inline(always)]
    fn frame(&mut self, depth: usize) -> &mut Frame {
        // SAFETY: depths are at most `DEPTH`, and a frame is written when a thread comes to its depth.
        unsafe { self.frames.get_unchecked_mut(depth).assume_init_mut() }
    }

    #[inline(always)]
    fn ready(&mut self, depth: usize, op: Op, a: u8, b: u8) -> bool {
        (self.depth, self.op, self.a, self.b) = (depth, op, a, b);
        true
    }

    /// Comes to a term that is no value at this depth; false where that is too deep.
    #[inline(always)]
    fn walk(&mut self, code: &mut Code, mut depth: usize, mut term: u16, slots: u64) -> bool {
        while depth <= DEPTH {
            let node = code.node(term);
            let frame = self.frame(depth);
            (frame.slots, frame.term, frame.kind, frame.op) = (slots, term, node.kind, node.op);
            match node.way {
                Way::First => term = node.children[0],
                Way::One => return self.ready(depth, node.op, node.sources[0].value(slots), 0),
                Way::Two => return self.ready(depth, node.op, node.sources[0].value(slots), node.sources[1].value(slots)),
                Way::Second => {
                    frame.first = node.sources[0].value(slots);
                    term = node.children[1];
                }
                Way::Argument => {
                    frame.arguments = shuffled(slots, node.slots);
                    (frame.term, frame.kind, term) = (node.children[1], Kind::Argument, node.children[0]);
                }
                Way::Call => {
                    frame.arguments = shuffled(slots, node.slots);
                    return self.ready(depth, Op::Call, 0, 0);
                }
                _ => return self.ready(depth, node.op, 0, 0),
            }
            depth += 1;
        }
        false
    }

    /// A value comes to the construct at the depth before.
    #[inline(always)]
    fn give(&mut self, code: &mut Code, mut depth: usize, mut value: u8) -> bool {
        loop {
            if depth == 0 {
                return self.ready(0, Op::Done, value, 0);
            }
            depth -= 1;
            let frame = self.frame(depth);
            let (op, slots, first) = (frame.op, frame.slots, frame.first);
            match frame.kind {
                Kind::Only => return self.ready(depth, op, value, 0),
                Kind::Second => return self.ready(depth, op, first, value),
                Kind::Negated if value == 1 => value = 0,
                Kind::Negated => return self.ready(depth, op, value, 0),
                Kind::FirstOfValue => {
                    let second = code.seen(frame.term).sources[1].value(slots);
                    return self.ready(depth, op, value, second);
                }
                Kind::FirstOfTerm => {
                    (frame.first, frame.kind) = (value, Kind::Second);
                    let second = code.seen(frame.term).children[1];
                    return self.walk(code, depth + 1, second, slots);
                }
                Kind::Argument => return self.argument(code, depth, value),
            }
        }
    }

    #[inline(always)]
    fn argument(&mut self, code: &mut Code, depth: usize, value: u8) -> bool {
        let frame = self.frame(depth);
        let node = code.seen(frame.term);
        frame.arguments |= u64::from(value) << (8 * (node.small & 7));
        if node.children[1] == NO_NODE {
            frame.term = node.children[2];
            return self.ready(depth, Op::Call, 0, 0);
        }
        frame.term = node.children[1];
        let (operand, slots) = (code.seen(frame.term).children[0], frame.slots);
        self.walk(code, depth + 1, operand, slots)
    }

    /// Comes to any term.
    #[inline(always)]
    fn land(&mut self, code: &mut Code, depth: usize, term: u16, slots: u64) -> bool {
        let node = code.node(term);
        if node.way == Way::Value {
            let value = node.sources[0].value(slots);
            return self.give(code, depth, value);
        }
        self.walk(code, depth, term, slots)
    }

    /// An operand, behind which the thread goes on with this move.
    #[inline(always)]
    fn operand(&mut self, code: &mut Code, k: usize, op: Op, kind: Kind, first: u8) -> bool {
        let depth = self.depth;
        let frame = self.frame(depth);
        let (slots, node) = (frame.slots, code.seen(frame.term));
        (frame.kind, frame.op, frame.first) = (kind, op, first);
        if node.values >> k & 1 == 1 {
            let value = node.sources[k].value(slots);
            return self.give(code, depth + 1, value);
        }
        let child = node.children[k];
        self.walk(code, depth + 1, child, slots)
    }
}

impl<'a, S: Sink> Run<'a, S> {
    #[inline(always)]
    pub fn new(plan: Plan<'a>, sink: S) -> Run<'a, S> {
        let mut run = Run {
            code: Code::new(plan),
            sink,
            picks: 0,
            moves: 0,
            records: 0,
            stop: Step::Moved,
            stopped: 8,
            threads_made: 0,
            objects_made: 0,
            keys_made: 0,
            idle: 0,
            held: 0,
            threads: [const { MaybeUninit::uninit() }; 8],
            objects: [const { MaybeUninit::uninit() }; 32],
            volatiles: [const { [const { MaybeUninit::uninit() }; 32] }; 32],
        };
        run.restart();
        run
    }

    /// From the start again.
    #[inline(always)]
    pub fn restart(&mut self) {
        (self.picks, self.moves, self.records, self.stop, self.stopped) = (0, 0, 0, Step::Moved, 8);
        (self.threads_made, self.objects_made, self.keys_made, self.idle, self.held) = (1, 0, 1, 0xfe, 0);
        self.make(0, 0);
        self.begin(0, Keys::FIRST);
        self.thread(0).op = Op::Start;
    }

    #[inline(always)]
    fn thread<'b>(&mut self, t: usize) -> &'b mut Thread {
        // SAFETY: the caller's thread has begun, and is borrowed once at a time.
        unsafe { &mut *self.threads.get_unchecked_mut(t & 7).as_mut_ptr() }
    }

    #[inline(always)]
    fn object<'b>(&mut self, o: u8) -> &'b mut Object {
        // SAFETY: values are objects that were made; no two are borrowed at a time.
        unsafe { &mut *self.objects.get_unchecked_mut(usize::from(o & 31)).as_mut_ptr() }
    }

    #[inline(always)]
    fn begin(&mut self, t: usize, keys: Keys) {
        let thread = self.threads[t].as_mut_ptr();
        // SAFETY: the fields are written in place; the frames are written before they are read.
        unsafe {
            (*thread).keys = keys;
            ((*thread).depth, (*thread).learnt, (*thread).on, (*thread).place) = (0, 0, 0, 0);
        }
    }

    #[inline(always)]
    fn make(&mut self, fields: u32, thread: u8) {
        let o = self.objects_made;
        self.objects[o].write(Object { monitor: Keys::FIRST, values: [0; 32], keys: [0; 32], fields, owner: 0, thread });
        let mut left = fields & self.code.plan.mask;
        while left > 0 {
            let f = left.leading_zeros() as usize;
            self.volatiles[o][f].write(Keys::FIRST);
            left &= !(1 << (31 - f));
        }
        self.objects_made += 1;
    }

    #[inline(always)]
    fn put(&mut self, kind: u32, t: usize, o: u8, f: u8, v: u8) -> Step {
        self.sink.record(kind << 20 | (t as u32) << 17 | u32::from(o) << 12 | u32::from(f) << 7 | u32::from(v) << 2);
        self.records += 1;
        Step::Moved
    }

    #[inline(always)]
    fn silent(&mut self, t: usize, landed: bool) -> Step {
        if landed {
            self.sink.silent(t);
            Step::Moved
        } else {
            Step::NoDepth
        }
    }
}

/// The mover's part of a run, with the code: both borrowed once.
macro_rules! mover {
    ($run:ident, $t:ident) => {{
        // SAFETY: the picked thread has begun; the code is no part of the threads.
        unsafe { (&mut *$run.threads.get_unchecked_mut($t & 7).as_mut_ptr(), &mut *std::ptr::addr_of_mut!($run.code)) }
    }};
}

impl<S: Sink> Run<'_, S> {
    /// A pick of a thread that has begun.
    #[inline(always)]
    pub fn step(&mut self, t: usize) -> Step {
        let (thread, code) = mover!(self, t);
        let (depth, a, b) = (thread.depth, thread.a, thread.b);
        match thread.op {
            Op::Done => Step::Idle,
            Op::Start => {
                let root = code.plan.procedure(0).1 as u16;
                let landed = thread.land(code, 0, root, 0);
                self.silent(t, landed)
            }
            Op::Read => self.read(t),
            Op::Write => self.write(t),
            Op::ReadVolatile => self.read_volatile(t),
            Op::WriteVolatile => self.write_volatile(t),
            Op::Synch => self.synch(t),
            Op::Release => {
                if !thread.give(code, depth, b) {
                    return Step::NoDepth;
                }
                let keys = thread.keys;
                self.object(a).monitor = keys;
                self.put(7, t, a, 0, 0)
            }
            Op::New => self.new_object(t),
            Op::Fork => self.fork(t),
            Op::Join => self.join(t),
            Op::Wait | Op::Notify | Op::NotifyAll => self.signal(t),
            Op::Awake => self.awake(t),
            _ => {
                let landed = Self::inner(thread, code);
                self.silent(t, landed)
            }
        }
    }

    /// A move that nothing but its thread has to do with.
    #[inline(always)]
    fn inner(thread: &mut Thread, code: &mut Code) -> bool {
        let (depth, a, b) = (thread.depth, thread.a, thread.b);
        let frame = thread.frame(depth);
        let (slots, arguments) = (frame.slots, frame.arguments);
        let node = code.seen(frame.term);
        match thread.op {
            Op::Let => {
                let (kept, value) = (node.slots, u64::from(a) << (8 * (node.small & 7)));
                let child = node.children[1];
                thread.land(code, depth, child, slots & kept | value & !kept)
            }
            Op::Call => {
                let root = code.plan.procedure(usize::from(node.small)).1 as u16;
                thread.land(code, depth, root, arguments)
            }
            Op::If => {
                let child = node.children[if a == 1 { 1 } else { 2 }];
                thread.land(code, depth, child, slots)
            }
            Op::And if a == 1 => {
                let child = node.children[1];
                thread.land(code, depth, child, slots)
            }
            Op::While => thread.operand(code, 0, Op::WhileIf, Kind::Only, 0),
            Op::WhileIf if a == 1 => thread.operand(code, 1, Op::Again, Kind::Only, 0),
            Op::Again => thread.ready(depth, Op::While, 0, 0),
            Op::Not => thread.give(code, depth, 1),
            Op::Equal => thread.give(code, depth, u8::from(a == b)),
            _ => thread.give(code, depth, 0),
        }
    }

    /// The field of the mover's access, and its object, if it has the field.
    #[inline(always)]
    fn accessed(&mut self, t: usize) -> Option<(u8, u8)> {
        let (thread, code) = mover!(self, t);
        let o = thread.a;
        let f = code.seen(thread.frame(thread.depth).term).small;
        (self.object(o).fields >> (31 - (f & 31)) & 1 == 1).then_some((o, f & 31))
    }

    #[inline(always)]
    fn read(&mut self, t: usize) -> Step {
        let Some((o, f)) = self.accessed(t) else { return Step::Idle };
        let object = self.object(o);
        let (key, value) = (object.keys[usize::from(f)], object.values[usize::from(f)]);
        let (thread, code) = mover!(self, t);
        if !thread.keys.holds(key) {
            self.put(10, t, o, f, 0);
            return Step::Race;
        }
        if !thread.give(code, thread.depth, value) {
            return Step::NoDepth;
        }
        self.put(2, t, o, f, value)
    }

    #[inline(always)]
    fn write(&mut self, t: usize) -> Step {
        let Some((o, f)) = self.accessed(t) else { return Step::Idle };
        let key = self.object(o).keys[usize::from(f)];
        let made = self.keys_made;
        let (thread, code) = mover!(self, t);
        let value = thread.b;
        if !thread.keys.holds(key) {
            self.put(11, t, o, f, value);
            return Step::Race;
        }
        if made == 256 {
            return Step::NoKey;
        }
        if !thread.give(code, thread.depth, value) {
            return Step::NoDepth;
        }
        thread.keys.learn(made as u8);
        self.keys_made += 1;
        let object = self.object(o);
        (object.keys[usize::from(f)], object.values[usize::from(f)]) = (made as u8, value);
        self.put(3, t, o, f, value)
    }

    #[inline(always)]
    fn read_volatile(&mut self, t: usize) -> Step {
        let Some((o, f)) = self.accessed(t) else { return Step::Idle };
        let value = self.object(o).values[usize::from(f)];
        let (thread, code) = mover!(self, t);
        if !thread.give(code, thread.depth, value) {
            return Step::NoDepth;
        }
        if code.plan.version == 1 {
            // SAFETY: the sets of an object's volatile fields are written when it is made.
            let keys = unsafe { self.volatiles[usize::from(o & 31)][usize::from(f)].assume_init_ref() };
            thread.learnt += thread.keys.new_in(keys);
            thread.keys.join(keys);
        }
        self.put(4, t, o, f, value)
    }

    #[inline(always)]
    fn write_volatile(&mut self, t: usize) -> Step {
        let Some((o, f)) = self.accessed(t) else { return Step::Idle };
        let (thread, code) = mover!(self, t);
        let value = thread.b;
        if !thread.give(code, thread.depth, value) {
            return Step::NoDepth;
        }
        if code.plan.version == 1 {
            // SAFETY: as in a read.
            unsafe { self.volatiles[usize::from(o & 31)][usize::from(f)].assume_init_mut() }.join(&thread.keys);
        }
        self.object(o).values[usize::from(f)] = value;
        self.put(5, t, o, f, value)
    }

    /// Takes a free monitor, once the thread has landed.
    #[inline(always)]
    fn acquire(&mut self, t: usize, o: u8) -> Step {
        let (thread, _) = mover!(self, t);
        let object = self.object(o);
        thread.learnt += thread.keys.new_in(&object.monitor);
        thread.keys.join(&object.monitor);
        (object.monitor, object.owner) = (Keys::EMPTY, t as u8);
        self.put(6, t, o, 0, 0)
    }

    #[inline(always)]
    fn synch(&mut self, t: usize) -> Step {
        let (thread, code) = mover!(self, t);
        let (o, depth) = (thread.a, thread.depth);
        let object = self.object(o);
        if !object.monitor.is_empty() {
            let landed = thread.operand(code, 1, Op::Release, Kind::Second, o);
            return if landed { self.acquire(t, o) } else { Step::NoDepth };
        }
        if usize::from(object.owner) != t {
            return Step::Held;
        }
        let frame = thread.frame(depth);
        let (slots, body) = (frame.slots, code.seen(frame.term).children[1]);
        let landed = thread.land(code, depth, body, slots);
        self.silent(t, landed)
    }

    #[inline(always)]
    fn new_object(&mut self, t: usize) -> Step {
        if self.objects_made == 32 {
            return Step::NoObject;
        }
        let o = self.objects_made as u8;
        let (thread, code) = mover!(self, t);
        let fields = code.seen(thread.frame(thread.depth).term).fields;
        if !thread.give(code, thread.depth, o) {
            return Step::NoDepth;
        }
        self.make(fields, NO_THREAD);
        self.put(1, t, o, 0, 0)
    }

    #[inline(never)]
    fn fork(&mut self, t: usize) -> Step {
        if self.threads_made == 8 {
            return Step::NoThread;
        }
        if self.objects_made == 32 {
            return Step::NoObject;
        }
        let (o, forked) = (self.objects_made as u8, self.threads_made);
        let keys = self.thread(t).keys;
        self.begin(forked, keys);
        let (new, _) = mover!(self, forked);
        let (thread, code) = mover!(self, t);
        let frame = thread.frame(thread.depth);
        let (slots, body) = (frame.slots, code.seen(frame.term).children[0]);
        if !new.land(code, 0, body, slots) || !thread.give(code, thread.depth, o) {
            return Step::NoDepth;
        }
        self.make(0, forked as u8);
        self.threads_made += 1;
        self.idle &= !(1 << forked);
        self.put(8, t, o, forked as u8, 0)
    }

    #[inline(never)]
    fn join(&mut self, t: usize) -> Step {
        let (thread, code) = mover!(self, t);
        let o = thread.a;
        let q = self.object(o).thread;
        if q == NO_THREAD {
            return Step::Idle;
        }
        let joined = self.thread(usize::from(q));
        let (keys, value, op) = (joined.keys, joined.a, joined.op);
        if op != Op::Done {
            return Step::Held;
        }
        if !thread.give(code, thread.depth, value) {
            return Step::NoDepth;
        }
        thread.learnt += thread.keys.new_in(&keys);
        thread.keys.join(&keys);
        self.put(9, t, o, q, value)
    }

    #[inline(never)]
    fn signal(&mut self, t: usize) -> Step {
        let (thread, code) = mover!(self, t);
        let (o, op) = (thread.a, thread.op);
        let object = self.object(o);
        if !object.monitor.is_empty() || usize::from(object.owner) != t {
            return Step::Idle;
        }
        if op == Op::Wait {
            object.monitor = thread.keys;
            let ahead = (0..self.threads_made).filter(|&q| self.queued(q, o)).count();
            (thread.on, thread.place, thread.op) = (o, ahead as u8 + 1, Op::Awake);
            return self.put(7, t, o, 0, 0);
        }
        if !thread.give(code, thread.depth, 0) {
            return Step::NoDepth;
        }
        for q in 0..self.threads_made {
            if self.queued(q, o) {
                let waiting = self.thread(q);
                waiting.place = if op == Op::Notify { waiting.place - 1 } else { 0 };
            }
        }
        self.silent(t, true)
    }

    fn queued(&mut self, q: usize, o: u8) -> bool {
        let thread = self.thread(q);
        thread.on == o && thread.place > 0
    }

    #[inline(never)]
    fn awake(&mut self, t: usize) -> Step {
        let (thread, code) = mover!(self, t);
        let o = thread.a;
        if thread.place > 0 || self.object(o).monitor.is_empty() {
            return Step::Held;
        }
        if !thread.give(code, thread.depth, 0) {
            return Step::NoDepth;
        }
        self.acquire(t, o)
    }

    /// On by these picks, to their end or to a stop.
    #[inline(always)]
    pub fn go_on(&mut self, schedule: &[u8]) {
        for &pick in schedule {
            if (self.idle | self.held) >> pick & 1 == 0 {
                match self.step(usize::from(pick)) {
                    Step::Moved => {
                        self.moves += 1;
                        self.held = 0;
                    }
                    Step::Idle => self.idle |= 1 << pick,
                    Step::Held => self.held |= 1 << pick,
                    stop => {
                        (self.stop, self.stopped) = (stop, usize::from(pick));
                        return;
                    }
                }
            }
            self.picks += 1;
        }
    }

    /// A pick of the lowest thread that can move or stop the run; none where no thread can.
    #[inline(always)]
    pub fn lowest(&mut self) -> Option<u8> {
        for t in 0..self.threads_made {
            let before = self.moves;
            self.go_on(&[t as u8]);
            if self.moves > before || self.stop != Step::Moved {
                return Some(t as u8);
            }
        }
        None
    }

    /// The lowest thread from this one on that can move or stop the run.
    #[inline(always)]
    pub fn able(&mut self, from: usize) -> Option<u8> {
        let passed = self.idle | self.held;
        (from..self.threads_made).find(|&t| passed >> t & 1 == 0 && matches!(self.state(t)[0], 2 | 7)).map(|t| t as u8)
    }

    /// The state of a thread, as the three bytes of an outcome.
    pub fn state(&mut self, t: usize) -> [u8; 3] {
        if t >= self.threads_made {
            return [0; 3];
        }
        if self.stop != Step::Moved && self.stop != Step::Race && self.stopped == t {
            return [2, 0, 0];
        }
        let (thread, _) = mover!(self, t);
        let a = thread.a;
        match thread.op {
            Op::Done => [1, a, 0],
            Op::Read | Op::Write | Op::ReadVolatile | Op::WriteVolatile => self.access_state(t),
            Op::Synch if self.object(a).monitor.is_empty() && usize::from(self.object(a).owner) != t => [3, a, 0],
            Op::Wait | Op::Notify | Op::NotifyAll if !self.object(a).monitor.is_empty() || usize::from(self.object(a).owner) != t => {
                [9, a, 0]
            }
            Op::Awake if thread.place > 0 => [8, a, 0],
            Op::Awake if self.object(a).monitor.is_empty() => [3, a, 0],
            Op::Join => self.join_state(a),
            _ => [2, 0, 0],
        }
    }

    fn access_state(&mut self, t: usize) -> [u8; 3] {
        let (thread, code) = mover!(self, t);
        let o = thread.a;
        let f = code.seen(thread.frame(thread.depth).term).small;
        let plain = matches!(thread.op, Op::Read | Op::Write);
        if self.accessed(t).is_none() {
            return [5, o, f];
        }
        if plain && !thread.keys.holds(self.object(o).keys[usize::from(f)]) {
            return [7, o, f];
        }
        [2, 0, 0]
    }

    fn join_state(&mut self, o: u8) -> [u8; 3] {
        let q = self.object(o).thread;
        if q == NO_THREAD {
            return [6, o, 0];
        }
        if self.thread(usize::from(q)).op == Op::Done {
            return [2, 0, 0];
        }
        [4, o, 0]
    }

    /// The outcome's bytes.
    fn outcome(&mut self) -> [u8; 40] {
        let mut out = [0; 40];
        out[0] = self.stop as u8;
        out[1..3].copy_from_slice(&(self.picks as u16).to_be_bytes());
        out[3..5].copy_from_slice(&(self.moves as u16).to_be_bytes());
        out[5..7].copy_from_slice(&(self.records as u16).to_be_bytes());
        for t in 0..self.threads_made {
            out[8 + 4 * t..11 + 4 * t].copy_from_slice(&self.state(t));
            out[11 + 4 * t] = self.thread(t).learnt;
        }
        out
    }
}

/// Refusals 8 and 9.
#[inline(always)]
pub fn schedule_right(schedule: &[u8]) -> Result<(), u64> {
    if schedule.len() > 4096 {
        return Err(refusal(8, 0));
    }
    if schedule.iter().fold(0, |any, pick| any | pick) > 7 {
        let place = schedule.iter().position(|&pick| pick > 7).expect("a pick over 7");
        return Err(refusal(9, place));
    }
    Ok(())
}

fn played(bytes: &[u8], schedule: &[u8], log: &mut [u8], out: &mut [u8; 40]) -> Result<(), u64> {
    let plan = checked(bytes)?;
    schedule_right(schedule)?;
    if log.len() < 3 * schedule.len() {
        return Err(refusal(10, 0));
    }
    let mut run = Run::new(plan, Log(log.as_mut_ptr()));
    run.go_on(schedule);
    *out = run.outcome();
    Ok(())
}

pub fn play(plan: &[u8], schedule: &[u8], log: &mut [u8], out: &mut [u8; 40]) -> u64 {
    played(plan, schedule, log, out).map_or_else(|refused| refused, |()| 0)
}

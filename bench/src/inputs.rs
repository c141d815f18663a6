//! Plans and schedules to time, each of one kind of work, and plans that need much stack.

use crate::generate::{self, MONITOR};
use crate::plans::*;
use crate::random::Random;

pub struct Input {
    pub name: &'static str,
    pub plan: Vec<u8>,
    pub schedule: Vec<u8>,
}

const VOLATILE: u32 = MONITOR | 1 << 29;

fn object() -> Tree {
    new(&[1, 2, 3])
}

fn both(body: Tree) -> Tree {
    bind(0, object(), sequence(fork(body.clone()), body))
}

fn nested(depth: usize, leaf: Tree, around: impl Fn(Tree) -> Tree) -> Tree {
    (0..depth).fold(leaf, |inner, _| around(inner))
}

fn balanced(terms: usize) -> Tree {
    if terms <= 1 {
        return null();
    }
    let left = (terms - 1) / 2;
    sequence(balanced(left), balanced(terms - 1 - left))
}

fn picks(threads: usize, count: usize) -> Vec<u8> {
    let mut random = Random::new(5);
    (0..count).map(|_| random.below(threads) as u8).collect()
}

/// Loops that never end, so that almost every pick moves.
pub fn moving() -> Vec<Input> {
    let item = || read(var(0), 2);
    let two = picks(2, 4096);
    let locked = repeat(yes(), synch(var(0), read(var(0), 1)));
    let flags = repeat(equal(item(), item()), write(var(0), 2, var(0)));
    let first = || call(1, vec![var(0), var(0), var(0), var(0)]);
    let again = sequence(write(var(0), 2, var(0)), call(1, vec![item(), var(1), var(0), var(3)]));
    let deep = repeat(yes(), nested(13, item(), |inner| write(item(), 2, inner)));
    let eight = repeat(yes(), synch(var(0), write(var(0), 2, var(0))));
    let all = nested(7, eight.clone(), |then| sequence(fork(eight.clone()), then));
    let test = and(not(equal(var(0), null())), not(not(equal(var(0), var(0)))));
    let tests = repeat(test.clone(), branch(test, read(var(0), 1), null()));
    let turns = synch(var(0), repeat(yes(), sequence(signal(1, var(0)), signal(0, var(0)))));
    let ring: Vec<Procedure> = (0..32).map(|p| (0, call((p + 1) % 32, vec![]))).collect();
    let started = bind(0, object(), sequence(write(var(0), 2, var(0)), sequence(fork(deep.clone()), deep)));
    let calls = bind(0, object(), sequence(fork(first()), first()));
    let eight_slots = || call(1, (0..8).map(var).collect());
    let eight_nulls = call(1, vec![null(); 8]);
    let input = |name, plan, schedule: &[u8]| Input { name, plan, schedule: schedule.to_vec() };
    vec![
        input("monitors", packed(MONITOR, &[(0, both(locked))]), &two),
        input("waits", packed(MONITOR, &[(0, both(turns))]), &two),
        input("volatile fields", packed(VOLATILE, &[(0, both(flags.clone()))]), &two),
        input("version 0", version_0(packed(VOLATILE, &[(0, both(flags))])), &two),
        input("calls", packed(VOLATILE, &[(0, calls), (4, again)]), &two),
        input("eight parameters", packed(MONITOR, &[(0, eight_nulls), (8, eight_slots())]), &vec![0; 4096]),
        input("deep", packed(VOLATILE, &[(0, started)]), &two),
        input("eight threads", packed(VOLATILE, &[(0, bind(0, object(), all))]), &picks(8, 4096)),
        input("conditions", packed(MONITOR, &[(0, both(tests))]), &two),
        input("32 procedures", packed(MONITOR, &ring), &vec![0; 4096]),
    ]
}

/// Picks that are passed over: of threads most of which are absent; of one that is there and is finished, stuck, or waiting for itself or for a monitor.
pub fn passed() -> Vec<Input> {
    let waits = bind(0, object(), bind(1, fork(read(var(0), 1)), join(var(1))));
    let held = sequence(fork(synch(null(), null())), synch(null(), join(null())));
    let second = [vec![0; 16], vec![1; 4080]].concat();
    let input = |name, body, schedule| Input { name, plan: packed(MONITOR, &[(0, body)]), schedule };
    vec![
        input("passed picks", waits, picks(8, 4096)),
        input("finished", null(), vec![0; 4096]),
        input("stuck", read(null(), 1), vec![0; 4096]),
        input("self join", join(null()), vec![0; 4096]),
        input("held monitor", held, second),
        input("not notified", synch(null(), signal(0, null())), vec![0; 4096]),
    ]
}

/// Two threads that take turns at a monitor, and a third that at the end reads what was written at the start and nothing hands on to it.
pub fn racing() -> Input {
    let turns = repeat(yes(), synch(var(0), read(var(0), 2)));
    let once = sequence(write(var(0), 1, null()), turns.clone());
    let body = bind(0, object(), sequence(fork(turns), sequence(fork(read(var(0), 1)), once)));
    let mut schedule: Vec<u8> = [vec![0; 16], picks(2, 4079)].concat();
    schedule.push(2);
    Input { name: "racing", plan: packed(MONITOR, &[(0, body)]), schedule }
}

/// The largest of many random plans of about so many terms.
fn random_plan(size: usize) -> Vec<u8> {
    let random = &mut Random::new(size as u64);
    (0..200).map(|_| generate::any(random, size)).filter(|p| crate::library::check(p) == 0).max_by_key(Vec::len).unwrap()
}

/// Counts of terms, and for each many random plans of about so many: too many for a processor to learn their turns.
pub fn random_plans() -> Vec<(usize, Vec<Vec<u8>>)> {
    let plans = |size: usize| {
        let random = &mut Random::new(3 * size as u64);
        std::iter::repeat_with(move || generate::any(random, size)).filter(|p| crate::library::check(p) == 0).take(32).collect()
    };
    [40, 80, 200, 400].map(|size| (size, plans(size))).into()
}

/// What is timed.
pub fn timed() -> Vec<Input> {
    let input = |name, plan, schedule| Input { name, plan, schedule };
    let mut all = moving();
    all.extend(passed());
    all.extend([
        input("chain of lets", packed(MONITOR, &[(0, nested(511, null(), |e| sequence(null(), e)))]), vec![0; 600]),
        input("chain of forks", packed(MONITOR, &[(0, nested(1023, null(), fork))]), vec![0; 20]),
        input("tree of lets", packed(MONITOR, &[(0, balanced(1023))]), vec![0; 4096]),
        input("random 40", random_plan(40), picks(4, 300)),
        input("random 80", random_plan(80), picks(4, 300)),
        input("random 200", random_plan(200), picks(4, 300)),
        input("random 400", random_plan(400), picks(4, 300)),
    ]);
    all
}

/// Plans of 1,024 terms nested as deep as can be, one for each form, with schedules that play them.
pub fn deepest() -> Vec<Input> {
    let test = |c| branch(c, null(), null());
    let input = |name, body| Input { name, plan: packed(MONITOR, &[(0, body), (1, var(0))]), schedule: vec![0; 4096] };
    let mut all = timed();
    all.extend([
        input("forks", nested(1022, null(), fork)),
        input("joins", nested(1022, null(), join)),
        input("waits", nested(1022, null(), |e| signal(0, e))),
        input("reads", nested(1022, null(), |e| read(e, 1))),
        input("nots", test(nested(1019, yes(), not))),
        input("ands", test(nested(509, yes(), |c| and(c, yes())))),
        input("synchs", nested(511, null(), |e| synch(null(), e))),
        input("whiles", nested(511, null(), |e| repeat(yes(), e))),
        input("whiles in conditions", nested(255, null(), |e| repeat(equal(e, null()), null()))),
        input("ifs", nested(340, null(), |e| branch(yes(), null(), e))),
        input("ifs in conditions", nested(204, null(), |e| branch(equal(e, null()), null(), null()))),
        input("lets", nested(511, null(), |e| bind(0, e, null()))),
        input("calls in lists", nested(340, null(), |e| call(1, vec![e]))),
    ]);
    all
}

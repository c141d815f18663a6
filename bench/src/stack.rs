//! The stack that each entry of the library takes: it is called on a stack of painted bytes, of which those that were written are counted.

use crate::inputs::{self, Input};
use crate::library;

const SIZE: usize = 1 << 22;

/// Calls f on the stack that ends at `top`.
unsafe fn call_on(top: *mut u8, f: extern "C" fn(*mut u8), data: *mut u8) {
    std::arch::asm!(
        "xchg rsp, r12",
        "call {f}",
        "mov rsp, r12",
        f = in(reg) f,
        inout("rdi") data => _,
        inout("r12") top => _,
        clobber_abi("C"),
    );
}

extern "C" fn run(data: *mut u8) {
    let work = unsafe { &mut *(data as *mut &mut dyn FnMut()) };
    work();
}

/// The bytes of a stack of one colour that the work wrote to.
fn painted(colour: u8, work: &mut dyn FnMut()) -> usize {
    let mut stack = vec![u128::from_ne_bytes([colour; 16]); SIZE / 16];
    let bottom = stack.as_mut_ptr() as *mut u8;
    let mut work = work;
    unsafe {
        call_on(bottom.add(SIZE), run, &mut work as *mut &mut dyn FnMut() as *mut u8);
        let left = (0..SIZE).find(|i| bottom.add(*i).read_volatile() != colour);
        SIZE - left.expect("nothing was written")
    }
}

fn depth(mut work: impl FnMut()) -> usize {
    painted(0xa5, &mut work).max(painted(0x5a, &mut work))
}

/// The most that an entry takes over all inputs, and the input that takes it. Fails where it is more than include/ruqzhemil.h says.
fn most(name: &str, said: usize, inputs: &[Input], mut entry: impl FnMut(&Input)) {
    let (bytes, input) = inputs.iter().map(|i| (depth(|| entry(i)), i.name)).max().unwrap();
    println!("  {name}: {:.1} KB at most ({input}); the header says up to {said} KB", bytes as f64 / 1024.0);
    assert!(bytes <= said * 1024, "{name} takes more stack than include/ruqzhemil.h says");
}

/// The same inputs, each with the records of its run in place of its schedule.
fn logs(inputs: &[Input]) -> Vec<Input> {
    let records = |i: &Input| {
        let (mut log, mut out) = (vec![0; 3 * i.schedule.len()], [0; library::OUT_BYTES]);
        assert_eq!(library::play(&i.plan, &i.schedule, &mut log, &mut out), 0, "{} is refused", i.name);
        log.truncate(3 * (usize::from(out[5]) << 8 | usize::from(out[6])));
        Input { name: i.name, plan: vec![], schedule: log }
    };
    inputs.iter().map(records).collect()
}

/// Logs that no run need have written, at more places than the judge's first rows are for.
fn scattered() -> Vec<Input> {
    crate::logs::timed().into_iter().map(|(name, _, log)| Input { name, plan: vec![], schedule: log }).collect()
}

/// The input with its plan's text in place of the plan.
fn as_text(input: &Input, text: &mut [u8]) -> Input {
    let length = library::show(&input.plan, text) as usize;
    Input { name: input.name, plan: text[..length].to_vec(), schedule: vec![] }
}

/// The input with its plan's last null made a slot that nothing binds: such a plan is walked for its refusal 7.
fn unbound(input: &Input) -> Option<Input> {
    let mut plan = input.plan.clone();
    let header = u32::from_be_bytes([plan[0], plan[1], plan[2], plan[3]]);
    let (procedures, terms) = ((header >> 22 & 63) as usize, (header >> 10 & 4095) as usize);
    let places = (0..terms).rev().map(|term| 8 + 2 * procedures + 5 * term);
    let at = places.into_iter().find(|&at| plan[at..at + 5] == [0; 5])?;
    plan[at..at + 2].copy_from_slice(&[0x0b, 0x80]);
    (library::check(&plan) >> 16 == 2 << 16 | 7).then(|| Input { name: input.name, plan, schedule: vec![] })
}

pub fn print() {
    println!("\nstack");
    let all = inputs::deepest();
    let logs = logs(&all);
    let (mut log, mut out) = (vec![0; 12288], [0; library::OUT_BYTES]);
    let walked: Vec<Input> = all.iter().filter_map(unbound).collect();
    assert!(!walked.is_empty(), "no plan is walked");
    most("check, plans that pass", 80, &all, |i| {
        library::check(&i.plan);
    });
    most("check, plans that 7 refuses", 80, &walked, |i| {
        library::check(&i.plan);
    });
    most("play", 128, &all, |i| {
        library::play(&i.plan, &i.schedule, &mut log, &mut out);
    });
    most("judge, logs of runs", 64, &logs, |i| {
        library::judge(1, &i.schedule);
    });
    most("judge, logs at many places", 64, &scattered(), |i| {
        library::judge(1, &i.schedule);
    });
    let mut shown = [0; library::PREVIEW_BYTES];
    most("preview", 144, &all, |i| {
        library::preview(&i.plan, &i.schedule[..i.schedule.len() - 1], u64::from(i.schedule[i.schedule.len() - 1]), &mut shown);
    });
    let mut written = [0; 5192];
    most("canonical", 144, &all, |i| {
        library::canonical(&i.plan, &mut written);
    });
    let mut text = vec![0; 574501];
    most("show", 96, &all, |i| {
        library::show(&i.plan, &mut text);
    });
    let parentheses = Input { name: "parentheses", plan: vec![b'('; 16383], schedule: vec![] };
    let texts: Vec<Input> = all.iter().map(|i| as_text(i, &mut text)).chain([parentheses]).collect();
    most("read", 224, &texts, |i| {
        library::read(&i.plan, &mut written);
    });
    most("bound", 96, &all, |i| {
        library::bound(&i.plan);
    });
    let racing = [inputs::racing()];
    let mut witnessed = [0; 4096];
    most("witness", 144, &racing, |i| {
        library::witness(&i.plan, &i.schedule, &mut witnessed);
    });
    let mut listed = [0; 64];
    most("first_interleaving", 96, &all, |i| {
        library::first_interleaving(&i.plan, 64, &mut listed);
    });
    let mut next = [0; 64];
    most("next_interleaving", 96, &all, |i| {
        let length = library::first_interleaving(&i.plan, 64, &mut listed) as usize;
        library::next_interleaving(&i.plan, 64, &listed[..length], &mut next);
    });
    most("charge", 144, &all, |i| {
        library::charge(&i.plan, &i.schedule, 1);
    });
    let mut area = vec![0; 317269];
    most("comtrade", 4, &logs, |i| {
        library::comtrade(&i.schedule, &mut area);
    });
}

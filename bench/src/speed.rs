//! How fast the library's entries are beside those of the independent implementation and of the tuned one.

use crate::inputs::{self, Input};
use crate::timing::{best, Entry, Table, Times, ROUNDS};
use crate::{answers, library, logs, tuned};
use std::hint::black_box;

/// Runs of fewer records say nothing of one.
const FEW_RECORDS: usize = 256;

/// An area for the text of any plan.
const MOST_SHOWN: usize = 574501;

/// Counts of records of short logs.
const SHORT: [usize; 4] = [1, 8, 32, 64];

type Player = fn(&[u8], &[u8], &mut [u8], &mut [u8; library::OUT_BYTES]) -> u64;
type Previewer = fn(&[u8], &[u8], u64, &mut [u8; library::PREVIEW_BYTES]) -> u64;
type Writer = fn(&[u8], &mut [u8]) -> u64;

fn plays(plan: &[u8], schedule: &[u8]) -> Times {
    let sides: [Player; 3] = [library::play, answers::play, tuned::play];
    Times(best(sides.map(|play| -> Entry {
        let (mut log, mut out) = (vec![0; 3 * schedule.len()], [0; library::OUT_BYTES]);
        Box::new(move || {
            black_box(play(black_box(plan), black_box(schedule), &mut log, &mut out));
        })
    })))
}

fn on_plans(sides: [fn(&[u8]) -> u64; 3], plans: &[Vec<u8>]) -> Times {
    let bytes = plans.iter().map(Vec::len).sum();
    let times = Times(best(sides.map(|entry| -> Entry {
        Box::new(move || {
            plans.iter().for_each(|plan| {
                black_box(entry(black_box(plan)));
            })
        })
    })));
    times.of_each(bytes)
}

fn judgements(version: u64, log: &[u8]) -> Times {
    let sides: [fn(u64, &[u8]) -> u64; 3] = [library::judge, answers::judge, tuned::judge];
    Times(best(sides.map(|judge| -> Entry {
        Box::new(move || {
            black_box(judge(black_box(version), black_box(log)));
        })
    })))
}

fn writings(sides: [Writer; 3], input: &[u8], length: usize) -> Times {
    Times(best(sides.map(|entry| -> Entry {
        let mut area = vec![0; length];
        Box::new(move || {
            black_box(entry(black_box(input), &mut area));
        })
    })))
}

/// The schedule's last pick, after the others.
fn previews(plan: &[u8], schedule: &[u8]) -> Times {
    let sides: [Previewer; 3] = [library::preview, answers::preview, tuned::preview];
    let (last, before) = schedule.split_last().expect("a pick");
    Times(best(sides.map(|preview| -> Entry {
        let mut out = [0; library::PREVIEW_BYTES];
        Box::new(move || {
            black_box(preview(black_box(plan), black_box(before), u64::from(*last), &mut out));
        })
    })))
}

fn charges(plan: &[u8], schedule: &[u8]) -> Times {
    let sides: [fn(&[u8], &[u8], u64) -> u64; 3] = [library::charge, answers::charge, tuned::charge];
    Times(best(sides.map(|charge| -> Entry {
        Box::new(move || {
            black_box(charge(black_box(plan), black_box(schedule), 1));
        })
    })))
}

fn witnesses(plan: &[u8], schedule: &[u8]) -> Times {
    let sides: [fn(&[u8], &[u8], &mut [u8]) -> u64; 3] = [library::witness, answers::witness, tuned::witness];
    Times(best(sides.map(|witness| -> Entry {
        let mut area = vec![0; schedule.len()];
        Box::new(move || {
            black_box(witness(black_box(plan), black_box(schedule), &mut area));
        })
    })))
}

fn firsts(plan: &[u8]) -> Times {
    let sides: [fn(&[u8], u64, &mut [u8]) -> u64; 3] =
        [library::first_interleaving, answers::first_interleaving, tuned::first_interleaving];
    Times(best(sides.map(|first| -> Entry {
        let mut area = [0; 64];
        Box::new(move || {
            black_box(first(black_box(plan), 64, &mut area));
        })
    })))
}

fn nexts(plan: &[u8], schedule: &[u8]) -> Times {
    let sides: [fn(&[u8], u64, &[u8], &mut [u8]) -> u64; 3] =
        [library::next_interleaving, answers::next_interleaving, tuned::next_interleaving];
    Times(best(sides.map(|next| -> Entry {
        let mut area = [0; 64];
        Box::new(move || {
            black_box(next(black_box(plan), 64, black_box(schedule), &mut area));
        })
    })))
}

/// The log of an input's run, and its counts of picks, moves and records.
fn played(input: &Input) -> (Vec<u8>, [usize; 3]) {
    let Input { name, plan, schedule } = input;
    let (mut log, mut out) = (vec![0; 3 * schedule.len()], [0; library::OUT_BYTES]);
    assert_eq!(library::play(plan, schedule, &mut log, &mut out), 0, "{name} is refused");
    let counts = [1, 3, 5].map(|at| usize::from(out[at]) << 8 | usize::from(out[at + 1]));
    log.truncate(3 * counts[2]);
    (log, counts)
}

/// Each pick of a run, without what a play takes that has none.
fn picks(name: &'static str, inputs: &[Input]) -> Table {
    let mut table = Table::new(name, 1);
    for input in inputs {
        let [picks, moves, _] = played(input).1;
        let times = plays(&input.plan, &input.schedule).without(plays(&input.plan, &[]));
        table.add(&format!("{}, {picks} picks, {moves} moves", input.name), times.of_each(picks));
    }
    table
}

/// Something of each input's plan.
fn of_plans(name: &'static str, digits: usize, inputs: &[Input], times: impl Fn(&Input) -> Times) -> Table {
    let mut table = Table::new(name, digits);
    for input in inputs {
        table.add(&format!("{}, {} bytes", input.name, input.plan.len()), times(input));
    }
    table
}

fn checks(inputs: &[Input]) -> [Table; 2] {
    let sides = [library::check, answers::check, tuned::check];
    let mut random = Table::new("check, a byte, random plans", 2);
    for (terms, plans) in inputs::random_plans() {
        let bytes: usize = plans.iter().map(Vec::len).sum();
        random.add(&format!("{} plans of about {terms}, {bytes} bytes", plans.len()), on_plans(sides, &plans));
    }
    [of_plans("check, a byte, one plan", 2, inputs, |input| on_plans(sides, std::slice::from_ref(&input.plan))), random]
}

/// Judged records, and lines of data files, of the same logs.
fn long_logs(inputs: &[Input]) -> [Table; 2] {
    let sides: [Writer; 3] = [library::comtrade, answers::comtrade, tuned::comtrade];
    let (mut judged, mut lines) = (Table::new("judge, a record", 1), Table::new("comtrade, a line", 1));
    let of_runs = inputs.iter().map(|input| (input.name, u64::from(input.plan[0] >> 4), played(input).0));
    for (name, version, log) in of_runs.filter(|(_, _, log)| log.len() >= 3 * FEW_RECORDS).chain(logs::timed()) {
        let records = log.len() / 3;
        let name = format!("{name}, {records} records");
        judged.add(&name, judgements(version, &log).of_each(records));
        lines.add(&name, writings(sides, &log, 80 * records + 1).of_each(records));
    }
    [judged, lines]
}

fn short_logs(inputs: &[Input]) -> Table {
    let mut table = Table::new("judge, a whole call, short logs", 0);
    let of_runs = inputs.iter().map(|input| (input.name, played(input).0)).filter(|(_, log)| log.len() >= 3 * FEW_RECORDS);
    for (name, log) in of_runs.take(3).chain([("scattered reads", logs::scattered(64))]) {
        for count in SHORT {
            table.add(&format!("{name}, {count} records"), judgements(1, &log[..3 * count]));
        }
    }
    table
}

fn texts(inputs: &[Input]) -> Table {
    let sides: [Writer; 3] = [library::show, answers::show, tuned::show];
    let mut table = Table::new("show, a byte of text", 2);
    for input in inputs {
        let length = library::show(&input.plan, &mut vec![0; MOST_SHOWN]) as usize;
        table.add(&format!("{}, {length} bytes", input.name), writings(sides, &input.plan, length).of_each(length));
    }
    table
}

/// The shown texts, read again.
fn readings(inputs: &[Input]) -> Table {
    let sides: [Writer; 3] = [library::read, answers::read, tuned::read];
    let mut table = Table::new("read, a byte of text", 2);
    for input in inputs {
        let mut text = vec![0; MOST_SHOWN];
        let length = library::show(&input.plan, &mut text) as usize;
        table.add(&format!("{}, {length} bytes", input.name), writings(sides, &text[..length], input.plan.len()).of_each(length));
    }
    table
}

/// For 64 picks on two threads that never end: the first schedule; the one after it; the one after a schedule that leaves its follower at the last
/// place where it can, far back; and the last schedule of all.
fn interleavings() -> Table {
    let mut table = Table::new("interleavings, 64 picks, a call", 0);
    let plan = &inputs::moving()[0].plan;
    let mut schedule = [0; 64];
    let length = library::first_interleaving(plan, 64, &mut schedule) as usize;
    let first = schedule[..length].to_vec();
    let begun = (0..64).find(|i| has_follower(plan, &first, *i)).expect("a second thread");
    let far: Vec<u8> = last_from(plan, first[..=begun].to_vec());
    let last: Vec<u8> = last_from(plan, first[..begun].to_vec());
    table.add("first", firsts(plan));
    for (name, schedule) in [("next", &first), ("next, far back", &far), ("over", &last)] {
        table.add(name, nexts(plan, schedule));
    }
    table
}

/// Whether thread 1 can move after the first `at` picks.
fn has_follower(plan: &[u8], schedule: &[u8], at: usize) -> bool {
    let (mut log, mut out) = ([0; 192], [0; library::OUT_BYTES]);
    library::play(plan, &schedule[..at], &mut log, &mut out);
    out[12] == 2
}

/// These picks, and then always the highest thread that can move.
fn last_from(plan: &[u8], mut schedule: Vec<u8>) -> Vec<u8> {
    let (mut log, mut out) = ([0; 192], [0; library::OUT_BYTES]);
    while schedule.len() < 64 {
        library::play(plan, &schedule, &mut log, &mut out);
        schedule.push((0..8u8).rev().find(|t| matches!(out[8 + 4 * usize::from(*t)], 2 | 7)).expect("a thread that moves"));
    }
    schedule
}

/// A run that moves as long as it can and then races, and its first picks with the race.
fn racing() -> Table {
    let mut table = Table::new("witness, a call", 0);
    let Input { name, plan, schedule } = &inputs::racing();
    for length in [64, schedule.len()] {
        let schedule = [&schedule[..length - 1], &[2]].concat();
        let (mut log, mut out) = (vec![0; 3 * length], [0; library::OUT_BYTES]);
        assert_eq!((library::play(plan, &schedule, &mut log, &mut out), out[0]), (0, 1), "{name} does not race");
        table.add(&format!("{length} picks"), witnesses(plan, &schedule));
    }
    table
}

/// Entries that go by a run, at whole schedules and at their first eight picks.
fn over_runs(all: &[Input], moving: &[Input]) -> [Table; 4] {
    let short = |input: &Input| input.schedule[..8].to_vec();
    [
        of_plans("play without picks, a call", 0, all, |input| plays(&input.plan, &[])),
        of_plans("preview, 4,096 picks, a call", 0, moving, |input| previews(&input.plan, &input.schedule)),
        of_plans("preview, 8 picks, a call", 0, moving, |input| previews(&input.plan, &short(input))),
        of_plans("charge, 4,096 picks, a call", 0, moving, |input| charges(&input.plan, &input.schedule)),
    ]
}

fn over_plans(all: &[Input]) -> [Table; 3] {
    let writers: [Writer; 3] = [library::canonical, answers::canonical, tuned::canonical];
    let bounds = [library::bound, answers::bound, tuned::bound];
    [
        of_plans("canonical, a byte", 2, all, |input| writings(writers, &input.plan, input.plan.len()).of_each(input.plan.len())),
        texts(all),
        of_plans("bound, a byte", 2, all, |input| on_plans(bounds, std::slice::from_ref(&input.plan))),
    ]
}

pub fn run() {
    println!("\nspeed, nanoseconds: the best of {ROUNDS} rounds");
    let (all, moving) = (inputs::timed(), inputs::moving());
    let mut tables: Vec<Table> = checks(&all).into();
    tables.push(picks("play, a moving pick", &moving));
    tables.push(picks("play, a pick passed over", &inputs::passed()));
    tables.extend(over_runs(&all, &moving));
    tables.extend(long_logs(&all));
    tables.push(short_logs(&all));
    tables.push(racing());
    tables.extend(over_plans(&all));
    tables.push(readings(&all));
    tables.push(interleavings());
    tables.iter().for_each(Table::print);
    println!("\nranges: library, independent, tuned; library to independent, to tuned, with geometric means");
    tables.iter().for_each(Table::print_ranges);
}

//! The library's answers beside those of the independent implementation and of the tuned one: the number, all bytes of the outcome and the whole of a
//! lent area.

use crate::library::{OUT_BYTES, PREVIEW_BYTES};
use crate::random::Random;
use crate::{answers, generate, library, tuned};

/// How many cases had each answer.
#[derive(Default)]
struct Seen {
    refusals: [usize; 27],
    passed: usize,
    stops: [usize; 6],
    states: [usize; 10],
    learnt: [usize; 2],
    judged: [usize; 2],
    files: usize,
    charges: [usize; 2],
    previews: [usize; 6],
    plans: [usize; 2],
    texts: usize,
    read: [usize; 2],
    bounds: usize,
    listed: [usize; 3],
    witnesses: usize,
}

impl Seen {
    fn refused(&mut self, answer: u64) {
        self.refusals[(answer >> 16 & 0xffff) as usize] += 1;
    }

    fn outcome(&mut self, out: &[u8; OUT_BYTES]) {
        self.stops[usize::from(out[0])] += 1;
        (0..8).for_each(|t| self.states[usize::from(out[8 + 4 * t])] += 1);
        (0..8).for_each(|t| self.learnt[usize::from(out[11 + 4 * t] > 0)] += 1);
    }

    fn judgement(&mut self, answer: u64) {
        match answer >> 32 {
            2 => self.refused(answer),
            kind => self.judged[kind as usize] += 1,
        }
    }

    fn print(&self) {
        let (first, later) = (&self.refusals[1..13], &self.refusals[13..27]);
        println!("  plans passed {}; refusals 1 to 12 {first:?}, 13 to 26 {later:?}", self.passed);
        println!("  runs end, race, no-thread, no-object, no-key, no-depth {:?}", self.stops);
        println!(
            "  threads absent, finished, ready, monitor, join, no field, no thread, lacking, notify, monitor not held {:?}",
            self.states
        );
        println!("  threads that learnt no key from another, some {:?}", self.learnt);
        println!("  logs ordered, unordered {:?}; data files {}; runs free, charged {:?}", self.judged, self.files, self.charges);
        println!("  picks passed over, moved, moved with a record, race, no room, stopped before {:?}", self.previews);
        println!(
            "  plans written as they were, otherwise {:?}; plans shown {}; plans with a total {}",
            self.plans, self.texts, self.bounds
        );
        println!("  texts read, no plans {:?}", self.read);
        println!("  interleavings begun, followed, over {:?}; witnesses {}", self.listed, self.witnesses);
        let alone = [self.passed, self.files, self.bounds, self.witnesses, self.texts];
        let counts: [&[usize]; 12] = [
            first,
            later,
            &self.stops,
            &self.states,
            &self.learnt,
            &self.judged,
            &self.charges,
            &self.previews,
            &self.plans,
            &self.read,
            &self.listed,
            &alone,
        ];
        assert!(counts.into_iter().flatten().min() > Some(&0), "an answer that no case had: more cases are needed");
    }
}

fn differ(what: &str, input: &[&[u8]], ours: &dyn std::fmt::Debug, theirs: &dyn std::fmt::Debug) -> ! {
    println!("DIFFERENCE in {what}\n  library      {ours:x?}\n  another      {theirs:x?}");
    for part in input {
        let hex: String = part.iter().map(|b| format!("{b:02x}")).collect();
        println!("  input {} bytes: {hex}", part.len());
    }
    std::process::exit(1)
}

fn same<T: PartialEq + std::fmt::Debug>(what: &str, input: &[&[u8]], ours: T, theirs: T) -> T {
    if ours != theirs {
        differ(what, input, &ours, &theirs);
    }
    ours
}

/// The tuned implementation's answer and the whole area, beside those that the other two agree on.
fn tuned_same<T>(what: &str, input: &[&[u8]], answer: u64, after: &T, before: &T, entry: impl FnOnce(&mut T) -> u64)
where
    T: Clone + PartialEq + std::fmt::Debug,
{
    let mut area = before.clone();
    let theirs = entry(&mut area);
    same(&format!("the tuned {what}"), input, (answer, after), (theirs, &area));
}

fn check(plan: &[u8], seen: &mut Seen) {
    let answer = same("check", &[plan], library::check(plan), answers::check(plan));
    match same("the tuned check", &[plan], answer, tuned::check(plan)) {
        0 => seen.passed += 1,
        answer => seen.refused(answer),
    }
}

/// The records of a run and the picks that it dealt with, or none.
fn play(plan: &[u8], schedule: &[u8], area: &[u8], before: [u8; OUT_BYTES], seen: &mut Seen) -> Option<(Vec<u8>, usize)> {
    let (mut ours, mut theirs) = ((area.to_vec(), before), (area.to_vec(), before));
    let input = [plan, schedule, area, &before];
    let answer = library::play(plan, schedule, &mut ours.0, &mut ours.1);
    same("play", &input, answer, answers::play(plan, schedule, &mut theirs.0, &mut theirs.1));
    same("the outcome and the log area", &input, &ours, &theirs);
    tuned_same("play", &input, answer, &ours, &(area.to_vec(), before), |area| tuned::play(plan, schedule, &mut area.0, &mut area.1));
    let (area, out) = ours;
    if answer != 0 {
        seen.refused(answer);
        return None;
    }
    seen.outcome(&out);
    let [picks, records] = [1, 5].map(|at| usize::from(out[at]) << 8 | usize::from(out[at + 1]));
    Some((area[..3 * records].to_vec(), picks))
}

fn judge(version: u64, log: &[u8], seen: &mut Seen) {
    let input = [&version.to_be_bytes(), log];
    let answer = same("judge", &input, library::judge(version, log), answers::judge(version, log));
    seen.judgement(same("the tuned judge", &input, answer, tuned::judge(version, log)));
}

/// Some pick after some of the schedule's picks: mostly those around the place where the run stopped.
fn preview(random: &mut Random, plan: &[u8], schedule: &[u8], picks: usize, seen: &mut Seen) {
    let length = match random.below(4) {
        0 => random.below(schedule.len() + 1),
        1 => schedule.len(),
        _ => (picks + random.below(2)).min(schedule.len()),
    };
    let pick = match schedule.get(length) {
        Some(pick) if random.percent(80) => u64::from(*pick),
        _ => random.pick(&[0, 1, 2, 3, 7, 8, 1 << 32]),
    };
    let mut before = [0; PREVIEW_BYTES];
    before.fill_with(|| random.byte());
    let (mut ours, mut theirs) = (before, before);
    let (schedule, told) = (&schedule[..length], pick.to_be_bytes());
    let input = [plan, schedule, &told[..], &before];
    let answer =
        same("preview", &input, library::preview(plan, schedule, pick, &mut ours), answers::preview(plan, schedule, pick, &mut theirs));
    let out = same("the preview's bytes", &input, ours, theirs);
    tuned_same("preview", &input, answer, &out, &before, |out| tuned::preview(plan, schedule, pick, out));
    if answer == 0 {
        seen.previews[usize::from(out[0])] += 1;
    }
}

fn charge(plan: &[u8], schedule: &[u8], option: u64, seen: &mut Seen) {
    let input = [plan, schedule, &option.to_be_bytes()[..]];
    let answer = same("charge", &input, library::charge(plan, schedule, option), answers::charge(plan, schedule, option));
    same("the tuned charge", &input, answer, tuned::charge(plan, schedule, option));
    if answer >> 32 != 2 {
        seen.charges[usize::from(answer > 0)] += 1;
    }
}

fn bound(plan: &[u8], seen: &mut Seen) {
    let answer = same("bound", &[plan], library::bound(plan), answers::bound(plan));
    same("the tuned bound", &[plan], answer, tuned::bound(plan));
    match answer >> 32 {
        2 => seen.refused(answer),
        _ => seen.bounds += 1,
    }
}

/// The answer and the whole area, also in an area of just the schedule's length and in one a pick short; what is written plays to its end, every pick a move.
fn witness(plan: &[u8], schedule: &[u8], area: &[u8], seen: &mut Seen) {
    let once = |area: &[u8]| {
        let (mut ours, mut theirs) = (area.to_vec(), area.to_vec());
        let input = [plan, schedule, area];
        let answer = same("witness", &input, library::witness(plan, schedule, &mut ours), answers::witness(plan, schedule, &mut theirs));
        let written = same("the witness's area", &input, ours, theirs);
        tuned_same("witness", &input, answer, &written, &area.to_vec(), |area| tuned::witness(plan, schedule, area));
        (answer, written)
    };
    let (answer, written) = once(area);
    if answer >> 32 == 2 {
        seen.refused(answer);
        return;
    }
    let length = answer as usize;
    once(&area[..length]);
    if length > 0 {
        seen.refused(once(&area[..length - 1]).0);
    }
    let (mut log, mut out) = (vec![0; 3 * length], [0; OUT_BYTES]);
    library::play(plan, &written[..length], &mut log, &mut out);
    same("a witness played", &[plan, schedule], [out[0], out[3], out[4]], [0, (length >> 8) as u8, length as u8]);
    seen.witnesses += 1;
}

/// The first interleaving of a plan, some that follow, and a schedule that may not be listed.
fn interleavings(random: &mut Random, plan: &[u8], other: &[u8], seen: &mut Seen) {
    let n: u64 = random.pick(&[0, 2, 5, 9, 20, 64, 65]);
    let length = (n as usize + random.pick(&[0, 1, 1, 1, 9])).saturating_sub(1);
    let area = random.bytes(length);
    let (mut ours, mut theirs) = (area.clone(), area.clone());
    let told = n.to_be_bytes();
    let input = [plan, &told, &area];
    let answer = library::first_interleaving(plan, n, &mut ours);
    same("first_interleaving", &input, answer, answers::first_interleaving(plan, n, &mut theirs));
    let mut schedule = same("the first interleaving's area", &input, ours, theirs);
    tuned_same("first_interleaving", &input, answer, &schedule, &area, |area| tuned::first_interleaving(plan, n, area));
    if answer >> 32 == 2 {
        seen.refused(answer);
        schedule = other.to_vec();
    } else {
        seen.listed[0] += 1;
        schedule.truncate(answer as usize);
    }
    for _ in 0..4 {
        let (mut ours, mut theirs) = (area.clone(), area.clone());
        let input = [plan, &told, &schedule, &area];
        let answer = library::next_interleaving(plan, n, &schedule, &mut ours);
        same("next_interleaving", &input, answer, answers::next_interleaving(plan, n, &schedule, &mut theirs));
        let written = same("the following interleaving's area", &input, ours, theirs);
        tuned_same("next_interleaving", &input, answer, &written, &area, |area| tuned::next_interleaving(plan, n, &schedule, area));
        match answer >> 32 {
            0 => seen.listed[1] += 1,
            1 => seen.listed[2] += 1,
            _ => seen.refused(answer),
        }
        if answer >> 32 > 0 {
            schedule = other.to_vec();
        } else {
            schedule = written[..answer as usize].to_vec();
        }
    }
}

/// The answer and the whole area; a plan that is written is written again.
fn canonical(random: &mut Random, plan: &[u8], seen: &mut Seen) {
    let length = (plan.len() + random.pick(&[0, 1, 1, 1, 2, 20])).saturating_sub(1);
    let area = random.bytes(length);
    let (mut ours, mut theirs) = (area.clone(), area.clone());
    let input = [plan, &area];
    let answer = same("canonical", &input, library::canonical(plan, &mut ours), answers::canonical(plan, &mut theirs));
    let written = same("the written plan's area", &input, ours, theirs);
    tuned_same("canonical", &input, answer, &written, &area, |area| tuned::canonical(plan, area));
    if answer >> 32 == 2 {
        seen.refused(answer);
        return;
    }
    seen.plans[usize::from(written[..plan.len()] != *plan)] += 1;
    let mut again = written.clone();
    same("a plan written twice", &input, library::canonical(&written[..plan.len()], &mut again), answer);
    same("the area of a plan written twice", &input, again, written);
}

/// The answer and the whole area, also in an area of just the text's length and in one a byte short.
fn show(plan: &[u8], area: &[u8], seen: &mut Seen) {
    let once = |area: &[u8]| {
        let (mut ours, mut theirs) = (area.to_vec(), area.to_vec());
        let input = [plan, area];
        let answer = same("show", &input, library::show(plan, &mut ours), answers::show(plan, &mut theirs));
        let written = same("the text's area", &input, ours, theirs);
        tuned_same("show", &input, answer, &written, &area.to_vec(), |area| tuned::show(plan, area));
        answer
    };
    let answer = once(area);
    if answer >> 32 == 2 {
        seen.refused(answer);
        return;
    }
    once(&area[..answer as usize]);
    seen.refused(once(&area[..answer as usize - 1]));
    seen.texts += 1;
}

/// The answer and the whole area, also in an area of just the plan's length and in one a byte short.
fn read(text: &[u8], area: &[u8], seen: &mut Seen) -> Option<Vec<u8>> {
    let once = |area: &[u8]| {
        let (mut ours, mut theirs) = (area.to_vec(), area.to_vec());
        let input = [text, area];
        let answer = same("read", &input, library::read(text, &mut ours), answers::read(text, &mut theirs));
        let written = same("the read plan's area", &input, ours, theirs);
        tuned_same("read", &input, answer, &written, &area.to_vec(), |area| tuned::read(text, area));
        (answer, written)
    };
    let (answer, written) = once(area);
    seen.read[usize::from(answer >> 32 > 0)] += 1;
    if answer >> 32 > 0 {
        return None;
    }
    let length = answer as usize;
    once(&area[..length]);
    seen.refused(once(&area[..length - 1]).0);
    Some(written[..length].to_vec())
}

/// What is shown of a plan is read as what canonical writes of it; then it is read with some of its parts changed.
fn shown_and_read(random: &mut Random, plan: &[u8], seen: &mut Seen) {
    let area = random.bytes(5192);
    let (mut text, mut written) = (vec![0; 574501], vec![0; plan.len()]);
    let answer = library::show(plan, &mut text);
    if answer >> 32 == 0 {
        text.truncate(answer as usize);
        library::canonical(plan, &mut written);
        same("what is shown, read", &[plan], read(&text, &area, seen), Some(written));
    } else {
        text = b"let 0 = call 1 (null, fork v0) in v0.3\nprocedure 1 (2) = synch v0 do\n(v0.1 := v1).2\n".to_vec();
    }
    for _ in 0..4 {
        read(&generate::changed_text(random, &text), &area, seen);
    }
}

/// The answer and the whole area.
fn comtrade_once(log: &[u8], area: &[u8]) -> u64 {
    let (mut ours, mut theirs) = (area.to_vec(), area.to_vec());
    let input = [log, area];
    let answer = same("comtrade", &input, library::comtrade(log, &mut ours), answers::comtrade(log, &mut theirs));
    let written = same("the data file's area", &input, ours, theirs);
    tuned_same("comtrade", &input, answer, &written, &area.to_vec(), |area| tuned::comtrade(log, area));
    answer
}

/// In the area, and where it is long enough also in one of just the file's length and in one a byte short.
fn comtrade(log: &[u8], area: &[u8], seen: &mut Seen) {
    let answer = comtrade_once(log, area);
    if answer >> 32 == 2 {
        seen.refused(answer);
        return;
    }
    comtrade_once(log, &area[..answer as usize]);
    comtrade_once(log, &area[..answer as usize - 1]);
    seen.files += 1;
}

fn plan(random: &mut Random) -> Vec<u8> {
    let size = random.pick(&[5, 20, 60, 60, 150, 400]);
    let plan = match random.below(100) {
        0..=44 => generate::any(random, size),
        45..=84 => generate::shared(random),
        85..=95 => generate::room(random),
        _ => {
            let length = random.below(100);
            return random.bytes(length);
        }
    };
    let plan = generate::either_version(random, plan);
    if random.percent(40) {
        generate::damaged(random, plan)
    } else {
        plan
    }
}

/// Compares so many plans, schedules, areas and logs; leaves the process at the first difference.
pub fn run(cases: usize, seed: u64) {
    let (random, texts) = (&mut Random::new(seed), &mut Random::new(!seed));
    let mut seen = Seen::default();
    let began = std::time::Instant::now();
    for _ in 0..cases {
        let plan = if random.percent(1) { generate::doubling(random) } else { plan(random) };
        check(&plan, &mut seen);
        canonical(random, &plan, &mut seen);
        show(&plan, &random.bytes(20 * plan.len()), &mut seen);
        shown_and_read(texts, &plan, &mut seen);
        bound(&plan, &mut seen);
        let schedule = generate::schedule(random);
        interleavings(random, &plan, &schedule, &mut seen);
        let length = schedule.len() - random.below(2).min(schedule.len());
        witness(&plan, &schedule, &random.bytes(length), &mut seen);
        let racing = generate::racing(random);
        witness(&racing, &schedule, &random.bytes(length), &mut seen);
        charge(&plan, &schedule, random.pick(&[0, 1, 1 << 63]), &mut seen);
        let area = generate::area(random, schedule.len());
        let mut before = [0; OUT_BYTES];
        before.fill_with(|| random.byte());
        let played = play(&plan, &schedule, &area, before, &mut seen);
        preview(random, &plan, &schedule, played.as_ref().map_or(schedule.len(), |(_, picks)| *picks), &mut seen);
        if let Some((log, _)) = played {
            judge(0, &log, &mut seen);
            judge(1, &log, &mut seen);
            comtrade(&log, &generate::file_area(random, log.len()), &mut seen);
            judge(generate::version(random), &generate::damaged_log(random, log), &mut seen);
        }
        let log = generate::log(random);
        comtrade(&log, &generate::file_area(random, log.len()), &mut seen);
        judge(generate::version(random), &log, &mut seen);
    }
    println!("compared: {cases} cases, seed {seed}, {:.1} s, no difference", began.elapsed().as_secs_f64());
    seen.print();
}

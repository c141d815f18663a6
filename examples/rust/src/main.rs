//! Plan P of document 01's shot list: a field written by one thread and read by another, with nothing between them. It is checked and played, and the
//! judge gets the run's records; it is written as text and read again. The log of two monitors is written as a data file for a viewer.

use ruqzhemil::ThreadState;

/// let 0 = new(1) in let - = fork (v0.1 := null) in v0.1
const PLAN: [u8; 55] = [
    0x10, 0x40, 0x24, 0x00, 0x80, 0x00, 0x00, 0x00, 0x00, 0x00, 0x28, 0x00, 0x20, 0x10, 0x00, 0x12, 0x00, 0x00, 0x00, 0x00, 0x2f, 0x80,
    0x60, 0x38, 0x00, 0x48, 0x08, 0x00, 0x00, 0x00, 0x20, 0x0a, 0x10, 0x18, 0x00, 0x08, 0x00, 0x00, 0x00, 0x00, 0x00, 0x00, 0x00, 0x00,
    0x00, 0x18, 0x10, 0x10, 0x00, 0x00, 0x08, 0x00, 0x00, 0x00, 0x00,
];

fn check(name: &str, plan: &[u8]) {
    match ruqzhemil::check(plan) {
        Ok(()) => println!("{name}: passes"),
        Err(refusal) => println!("{name}: {refusal}"),
    }
}

fn play(schedule: &[u8]) -> Result<(), ruqzhemil::Refusal> {
    let mut area = vec![0; 3 * schedule.len()];
    let picks: String = schedule.iter().map(|pick| format!(" {pick}")).collect();
    print!("picks{picks}: ");
    let outcome = ruqzhemil::play(&PLAN, schedule, &mut area)?;
    let log = outcome.log(&area);
    println!("{} {} {} {}", outcome.stop, outcome.picks, outcome.moves, outcome.records);
    for (index, r) in ruqzhemil::records(log).enumerate() {
        println!("  {index} {} {} {} {} {}", r.kind, r.thread, r.object, r.field, r.value);
    }
    for (number, state) in outcome.threads.iter().enumerate() {
        if *state != ThreadState::Absent {
            println!("  thread {number}: {state:?}");
        }
    }
    match ruqzhemil::judge(ruqzhemil::plan_version(&PLAN), log)? {
        None => println!("  judge: none"),
        Some(index) => println!("  judge: record {index} is unordered"),
    }
    Ok(())
}

fn preview(schedule: &[u8], pick: u64) {
    let picks: String = schedule.iter().map(|pick| format!(" {pick}")).collect();
    match ruqzhemil::preview(&PLAN, schedule, pick) {
        Ok(preview) => println!("after picks{picks}: {pick} would be {preview:?}"),
        Err(refusal) => println!("after picks{picks}: {refusal}"),
    }
}

/// The two accesses of a race side by side: a schedule after which both threads stand at them, and what each would do next.
fn witness(schedule: &[u8]) {
    let mut area = vec![0; schedule.len()];
    let text = |picks: &[u8]| picks.iter().map(|pick| format!(" {pick}")).collect::<String>();
    match ruqzhemil::witness(&PLAN, schedule, &mut area) {
        Ok(length) => {
            println!("witness of picks{}: picks{}: both stand at their accesses", text(schedule), text(&area[..length]));
            (0..2).for_each(|thread| preview(&area[..length], thread));
        }
        Err(refusal) => println!("witness of picks{}: {refusal}", text(schedule)),
    }
}

/// while true do null
const ENDLESS: [u8; 25] = [
    0x10, 0x40, 0x0c, 0x00, 0x80, 0x00, 0x00, 0x00, 0x00, 0x00, 0x38, 0x02, 0x01, 0x00, 0x00, 0x60, 0x00, 0x00, 0x00, 0x00, 0x00, 0x00, 0x00, 0x00, 0x00,
];

fn bound(name: &str, plan: &[u8]) {
    match ruqzhemil::bound(plan) {
        Ok(moves) => println!("{name} needs at most {moves} moves"),
        Err(refusal) => println!("{name} needs {refusal}"),
    }
}

/// Every interleaving of at most n picks, and how it ends.
fn interleavings(n: u64) -> Result<(), ruqzhemil::Refusal> {
    for schedule in ruqzhemil::interleavings(&PLAN, n)? {
        let outcome = ruqzhemil::play(&PLAN, &schedule, &mut vec![0; 3 * schedule.len()])?;
        let picks: String = schedule.iter().map(|pick| format!(" {pick}")).collect();
        println!("picks{picks}: {}", outcome.stop);
    }
    Ok(())
}

/// synch new() do null, with the body's term before the object's
const TURNED: [u8; 25] = [
    0x10, 0x40, 0x0c, 0x00, 0x80, 0x00, 0x00, 0x00, 0x00, 0x00, 0x58, 0x04, 0x00, 0x80, 0x00, 0x00, 0x00, 0x00, 0x00, 0x00, 0x10, 0x00, 0x00, 0x00, 0x00,
];

fn canonical(size: usize) {
    let mut area = vec![0; size];
    match ruqzhemil::canonical(&TURNED, &mut area) {
        Ok(length) => {
            let terms: String = area[10..length].chunks(5).map(|term| format!(" {}", term.iter().map(|b| format!("{b:02x}")).collect::<String>())).collect();
            println!("written in {size} bytes: {length} bytes, terms{terms}");
        }
        Err(refusal) => println!("written in {size} bytes: {refusal}"),
    }
}

fn show(size: usize) {
    let mut area = vec![0; size];
    match ruqzhemil::show_in(&PLAN, &mut area) {
        Ok(length) => print!("P as text in {size} bytes: {length} bytes\n{}", String::from_utf8_lossy(&area[..length])),
        Err(refusal) => println!("P as text in {size} bytes: {refusal}"),
    }
}

/// Reads a text into an area of so many bytes; a plan is shown again.
fn read(name: &str, text: &str, size: usize) -> Result<(), ruqzhemil::Refusal> {
    let mut area = vec![0; size];
    print!("{name}, read: ");
    match ruqzhemil::read_in(text.as_bytes(), &mut area)? {
        Ok(length) => {
            println!("{length} bytes{}", if area[..length] == PLAN { ", those of P" } else { "" });
            print!("{}", ruqzhemil::show(&area[..length])?);
        }
        Err(none) => println!("{none}"),
    }
    Ok(())
}

fn read_texts() {
    let written = "let 0 = new(1) in let - = fork (v0.1 := null) in v0.1  # P";
    let many = "(".repeat(16384);
    let texts = [
        ("P in 55 bytes", written, 55),
        ("P in 54 bytes", written, 54),
        ("a call in 5,192 bytes", "call 1 (join (fork null))\nprocedure 1(1) = v0", ruqzhemil::MOST_PLAN_BYTES),
        ("a text cut short", "let 0 = new(1) in\nv0.", 55),
        ("a slot that nothing binds", "call 1 ()\nprocedure 1 (0) = v0", 55),
        ("nothing at all", "", 55),
        ("16,385 tokens", &many, 55),
        ("parentheses too deep", &many[1..], 55),
    ];
    for (name, text, size) in texts {
        if let Err(refusal) = read(name, text, size) {
            println!("{refusal}");
        }
    }
}

/// Every plan of the folder examples/plans, read; shown and read again it is the same.
fn read_files() -> std::io::Result<()> {
    let folder = std::fs::read_dir(concat!(env!("CARGO_MANIFEST_DIR"), "/../plans"))?;
    let mut paths = folder.map(|entry| Ok(entry?.path())).collect::<std::io::Result<Vec<_>>>()?;
    paths.sort();
    for path in paths {
        print!("{}: ", path.file_name().unwrap_or_default().to_string_lossy());
        match ruqzhemil::read(&std::fs::read(&path)?) {
            Ok(plan) => {
                let again = ruqzhemil::show(&plan).map(|text| ruqzhemil::read(text.as_bytes()));
                println!("{} bytes{}", plan.len(), if again == Ok(Ok(plan)) { "" } else { ", and others when read again" });
            }
            Err(none) => println!("{none}"),
        }
    }
    Ok(())
}

/// acquire and release of object 1, by thread 0
const MONITORS: [u8; 6] = [0x60, 0x10, 0x00, 0x70, 0x10, 0x00];

fn comtrade(size: usize) {
    let mut area = vec![0; size];
    match ruqzhemil::comtrade(&MONITORS, &mut area) {
        Ok(length) => {
            println!("data file in {size} bytes: {length} bytes, end mark {:02x}", area[length - 1]);
            print!("{}", String::from_utf8_lossy(&area[..length - 1]).replace('\r', ""));
        }
        Err(refusal) => println!("data file in {size} bytes: {refusal}"),
    }
}

fn charge(schedule: &[u8], option: bool) {
    let word = if option { "with" } else { "without" };
    match ruqzhemil::charge(&PLAN, schedule, option) {
        Ok(cents) => println!("{word} the option: {cents} cents"),
        Err(refusal) => println!("{word} the option: {refusal}"),
    }
}

fn main() {
    assert_eq!(ruqzhemil::version(), ruqzhemil::VERSION, "the archive is of another version than its package");
    check("P", &PLAN);
    check("P cut to 54 bytes", &PLAN[..54]);
    check("nothing at all", &[]);
    for schedule in [&[0, 0, 0, 0, 0, 1, 0][..], &[0, 0, 0, 0, 0, 0, 1], &[], &[0, 8]] {
        if let Err(refusal) = play(schedule) {
            println!("{refusal}");
        }
    }
    let race = [0, 0, 0, 0, 0, 1, 0];
    for (picks, pick) in [(0, 0), (5, 1), (6, 1), (6, 0), (7, 1), (6, 8)] {
        preview(&race[..picks], pick);
    }
    witness(&[0, 0, 0, 0, 0, 1, 0]);
    witness(&[0, 0, 0, 0, 0, 0, 1]);
    canonical(TURNED.len());
    canonical(TURNED.len() - 1);
    show(64);
    show(63);
    read_texts();
    read_files().expect("the plans in examples/plans");
    bound("P", &PLAN);
    bound("a loop", &ENDLESS);
    for n in [10, 65] {
        if let Err(refusal) = interleavings(n) {
            println!("{refusal}");
        }
    }
    charge(&[0, 0, 0, 0, 0, 1, 0], false);
    charge(&[0, 0, 0, 0, 0, 1, 0], true);
    charge(&[0, 8], true);
    comtrade(142);
    comtrade(141);
}

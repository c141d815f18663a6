//! This package's numbers and texts are those of include/ruqzhemil.h, and the archive is of its version.

use crate::*;

const HEADER: &str = include_str!("../../include/ruqzhemil.h");

/// The numbers of the header's names that begin so, in their order.
fn named(prefix: &str) -> Vec<(String, u64)> {
    let numbers = HEADER.lines().filter_map(|line| {
        let line = line.trim_start();
        let (name, rest) = line.strip_prefix("#define ").unwrap_or(line).split_once(' ')?;
        let number = rest.trim_start_matches('=').trim_start().split([' ', ',']).next()?;
        let number = number.strip_prefix("0x").map_or_else(|| number.parse(), |hex| u64::from_str_radix(hex, 16));
        Some((name.strip_prefix(prefix)?.to_string(), number.ok()?))
    });
    numbers.collect()
}

fn number(name: &str) -> usize {
    named(name).iter().find(|(rest, _)| rest.is_empty()).expect(name).1 as usize
}

/// A variant's name as the header has it: NoThread is NO_THREAD.
fn header_name(variant: &str) -> String {
    let word = variant.split([' ', '(']).next().unwrap();
    let mut name = String::new();
    for (i, c) in word.char_indices() {
        if i > 0 && c.is_uppercase() {
            name.push('_');
        }
        name.extend(c.to_uppercase());
    }
    name
}

fn same<T: std::fmt::Debug>(prefix: &str, count: usize, of: impl Fn(u64) -> T) {
    let names = named(prefix);
    assert_eq!(names.len(), count, "{prefix}");
    for (name, number) in names {
        assert_eq!(header_name(&format!("{:?}", of(number))), name);
    }
}

#[test]
fn numbers_are_the_headers() {
    same("RUQZHEMIL_REFUSAL_", 26, |n| Refusal { number: n as u16, place: 0 }.reason());
    same("RUQZHEMIL_KIND_", 11, |n| Kind::of(n as u8));
    let states = |n: u64| (Stop::of(n as u8), ThreadState::of(n as u8, 0, 0));
    for (name, n) in
        ["END", "RACE", "NO_THREAD", "NO_OBJECT", "NO_KEY", "NO_DEPTH"].iter().map(|name| (name, number(&format!("RUQZHEMIL_{name}"))))
    {
        assert_eq!(header_name(&format!("{:?}", states(n as u64).0)), *name);
    }
    let names = ["ABSENT", "FINISHED", "READY", "WAITS_MONITOR", "WAITS_JOIN", "STUCK_FIELD", "STUCK_THREAD", "LACKING", "WAITS_NOTIFY", "STUCK_MONITOR"];
    for (name, n) in names.iter().map(|name| (name, number(&format!("RUQZHEMIL_{name}")))) {
        assert_eq!(header_name(&format!("{:?}", states(n as u64).1)), *name);
    }
}

#[test]
fn previews_are_the_headers() {
    for (name, n) in ["PASSED", "MOVED", "RECORDED", "RACE", "NO_ROOM", "STOPPED"].iter().map(|name| (name, number(&format!("RUQZHEMIL_PREVIEW_{name}")))) {
        assert_eq!(header_name(&format!("{:?}", Preview::of(&[n as u8, 1, 0, 0, 0x10, 0, 0, 0]))), *name);
    }
}

#[test]
fn limits_are_the_headers() {
    assert_eq!(number("RUQZHEMIL_MOST_PLAN_BYTES"), MOST_PLAN_BYTES);
    assert_eq!(number("RUQZHEMIL_MOST_PICKS"), MOST_PICKS);
    assert_eq!(number("RUQZHEMIL_MOST_LOG_BYTES"), MOST_LOG_BYTES);
    assert_eq!(number("RUQZHEMIL_MOST_TEXT_BYTES"), MOST_TEXT_BYTES);
    assert_eq!(number("RUQZHEMIL_MOST_SHOWN_BYTES"), MOST_SHOWN_BYTES);
    assert_eq!(number("RUQZHEMIL_MOST_FILE_BYTES"), MOST_FILE_BYTES);
    assert_eq!(number("RUQZHEMIL_MOST_TOTAL"), MOST_TOTAL);
    assert_eq!(number("RUQZHEMIL_MOST_BOUND"), MOST_BOUND);
    assert_eq!(number("RUQZHEMIL_RECORD_BYTES"), RECORD_BYTES);
    assert_eq!(number("RUQZHEMIL_OUT_BYTES"), OUT_BYTES);
    assert_eq!(number("RUQZHEMIL_PREVIEW_BYTES"), PREVIEW_BYTES);
    assert_eq!(number("RUQZHEMIL_THREADS"), THREADS);
    assert_eq!(number("RUQZHEMIL_OBJECTS"), OBJECTS);
}

#[test]
fn texts_are_the_headers() {
    for n in 1..=27 {
        let text = Refusal { number: n, place: 0 }.reason().to_string().replace("package", "header");
        assert!(HEADER.contains(&format!("return \"{text}\";")), "{text}");
    }
    for n in 0..=12 {
        assert!(HEADER.contains(&format!("return \"{}\";", Kind::of(n))));
        assert!(HEADER.contains(&format!("return \"{}\";", Stop::of(n))));
    }
}

#[test]
fn versions_are_one() {
    assert_eq!(number("RUQZHEMIL_VERSION") as u32, VERSION);
    assert_eq!(version(), VERSION);
    assert_eq!(VERSION, env!("CARGO_PKG_VERSION").split('.').fold(0, |n, part| n * 256 + part.parse::<u32>().unwrap()));
}

#[test]
fn data_files_by_hand() {
    let mut area = [7; 72];
    assert_eq!(comtrade(&[], &mut area), Ok(1));
    assert_eq!((area[0], area[1]), (0x1a, 7));
    let acquire = [0x60, 0x10, 0x00];
    assert_eq!(comtrade(&acquire, &mut area), Ok(70));
    assert_eq!(area[..10], *b"1,0,0,1,0,");
    assert_eq!(area[67..], [b'\r', b'\n', 0x1a, 7, 7]);
    let before = area;
    assert_eq!(comtrade(&acquire, &mut area[..69]), Err(Refusal { number: 24, place: 0 }));
    assert_eq!(comtrade(&acquire[..2], &mut area), Err(Refusal { number: 11, place: 0 }));
    assert_eq!(area, before);
    let most = [0x10, 0, 0].repeat(MOST_LOG_BYTES / RECORD_BYTES);
    assert_eq!(comtrade(&most, &mut vec![0; MOST_FILE_BYTES]), Ok(MOST_FILE_BYTES));
}

#[test]
fn previews_by_hand() {
    let fork_null = [0x10, 0x40, 0x08, 0x00, 0x80, 0, 0, 0, 0, 0, 0x48, 0x02, 0, 0, 0, 0, 0, 0, 0, 0];
    assert_eq!(preview(&fork_null, &[], 0), Ok(Preview::Moved));
    let fork = Record { kind: Kind::Fork, thread: 0, object: 1, field: 1, value: 0 };
    assert_eq!(preview(&fork_null, &[0], 0), Ok(Preview::Recorded(fork)));
    assert_eq!(preview(&fork_null, &[0], 1), Ok(Preview::Passed(ThreadState::Absent)));
    assert_eq!(preview(&fork_null, &[0, 0], 0), Ok(Preview::Passed(ThreadState::Finished { value: 1 })));
    assert_eq!(preview(&fork_null, &[0, 0], 8), Err(Refusal { number: 9, place: 2 }));
    assert_eq!(preview(&fork_null, &[0, 9], 8), Err(Refusal { number: 9, place: 1 }));
    assert_eq!(preview(&fork_null, &[0; MOST_PICKS], 8), Err(Refusal { number: 8, place: 0 }));
    assert_eq!(preview(&fork_null, &[0; MOST_PICKS - 1], 0), Ok(Preview::Passed(ThreadState::Finished { value: 1 })));
    assert_eq!(preview(&fork_null, &[], 1 << 32), Err(Refusal { number: 9, place: 0 }));
}

#[test]
fn plans_are_written_in_one_way() {
    // synch new() do null: the second has its terms in the order in which they are written
    let plan = [0x10, 0x40, 0x0c, 0x00, 0x80, 0, 0, 0, 0, 0, 0x58, 0x04, 0, 0x80, 0, 0, 0, 0, 0, 0, 0x10, 0, 0, 0, 0];
    let written = [0x10, 0x40, 0x0c, 0x00, 0x80, 0, 0, 0, 0, 0, 0x58, 0x02, 0x01, 0, 0, 0x10, 0, 0, 0, 0, 0, 0, 0, 0, 0];
    let mut area = [7; 26];
    assert_eq!(canonical(&plan, &mut area), Ok(25));
    assert_eq!((&area[..25], area[25]), (&written[..], 7));
    assert_eq!(canonical(&written, &mut area[..25]), Ok(25));
    assert_eq!(area[..25], written);
    assert_eq!(canonical(&plan, &mut area[..24]), Err(Refusal { number: 13, place: 0 }));
    assert_eq!(canonical(&plan[..24], &mut area), Err(Refusal { number: 1, place: 0 }));
    assert_eq!((&area[..25], area[25]), (&written[..], 7));
}

#[test]
fn plans_are_shown() {
    // while true do null, in version 0 with the volatile fields 2 and 31
    let plan = [0x00, 0x40, 0x0c, 0x00, 0xa0, 0, 0, 1, 0, 0, 0x38, 0x02, 0x01, 0, 0, 0x60, 0, 0, 0, 0, 0, 0, 0, 0, 0];
    let text = "version 0\nvolatile 2 31\nwhile true do\nnull\n";
    assert_eq!(show(&plan).as_deref(), Ok(text));
    let mut area = [7; 44];
    assert_eq!(show_in(&plan, &mut area), Ok(text.len()));
    assert_eq!((&area[..text.len()], area[text.len()]), (text.as_bytes(), 7));
    let before = area;
    assert_eq!(show_in(&plan, &mut area[..text.len() - 1]), Err(Refusal { number: 25, place: 0 }));
    assert_eq!(show(&plan[..24]), Err(Refusal { number: 1, place: 0 }));
    assert_eq!(area, before);
}

#[test]
fn texts_are_read() {
    // while true do null
    let plan = [0x10, 0x40, 0x0c, 0x00, 0x80, 0, 0, 0, 0, 0, 0x38, 0x02, 0x01, 0, 0, 0x60, 0, 0, 0, 0, 0, 0, 0, 0, 0];
    assert_eq!(read(b"while true do null"), Ok(plan.to_vec()));
    assert_eq!(read(show(&plan).unwrap().as_bytes()), Ok(plan.to_vec()));
    let mut area = [7; 26];
    assert_eq!(read_in(b"while(true)do(null)#", &mut area), Ok(Ok(25)));
    assert_eq!((&area[..25], area[25]), (&plan[..], 7));
    let before = area;
    assert_eq!(read_in(b"while true do null", &mut area[..24]), Err(Refusal { number: 26, place: 0 }));
    assert_eq!(read_in(b"while true\n do\n  v0", &mut area), Ok(Err(NoPlan { line: 1, column: 1 })));
    assert_eq!(read_in(b"while true\n do\n  do", &mut area), Ok(Err(NoPlan { line: 3, column: 3 })));
    assert_eq!(area, before);
    let far = [b"\n".repeat(70000), b" ".repeat(70000)].concat();
    assert_eq!(read(&far), Err(NoPlan { line: 65535, column: 65535 }));
    assert_eq!(read(&far[1000..70003]), Err(NoPlan { line: 65535, column: 4 }));
}

#[test]
fn witnesses_by_hand() {
    // let 0 = new(1) in let - = fork (v0.1 := null) in v0.1
    let plan = [
        0x10, 0x40, 0x24, 0x00, 0x80, 0x00, 0x00, 0x00, 0x00, 0x00, 0x28, 0x00, 0x20, 0x10, 0x00, 0x12, 0x00, 0x00, 0x00, 0x00, 0x2f, 0x80, 0x60, 0x38,
        0x00, 0x48, 0x08, 0x00, 0x00, 0x00, 0x20, 0x0a, 0x10, 0x18, 0x00, 0x08, 0x00, 0x00, 0x00, 0x00, 0x00, 0x00, 0x00, 0x00, 0x00, 0x18, 0x10, 0x10,
        0x00, 0x00, 0x08, 0x00, 0x00, 0x00, 0x00,
    ];
    let mut area = [7; 6];
    assert_eq!(witness(&plan, &[0, 0, 0, 7, 0, 0, 1, 0], &mut area), Ok(5));
    assert_eq!(area, [0, 0, 0, 0, 0, 7]);
    assert_eq!(witness(&plan, &[0, 0, 0, 0, 0, 1, 0], &mut area[..4]), Err(Refusal { number: 17, place: 0 }));
    assert_eq!(witness(&plan, &[0, 0, 0, 0, 0, 0, 1], &mut area), Err(Refusal { number: 16, place: 0 }));
    assert_eq!(area, [0, 0, 0, 0, 0, 7]);
}

#[test]
fn interleavings_by_hand() {
    let fork_fork_null = [0x10, 0x40, 0x0c, 0x00, 0x80, 0, 0, 0, 0, 0, 0x48, 0x02, 0, 0, 0, 0x48, 0x04, 0, 0, 0, 0, 0, 0, 0, 0];
    let all = |n| interleavings(&fork_fork_null, n).unwrap().collect::<Vec<_>>();
    assert_eq!(all(0), [[0u8; 0]]);
    assert_eq!(all(2), [[0, 0]]);
    assert_eq!(all(64), [[0, 0, 1]]);
    let mut area = [7; 3];
    assert_eq!(first_interleaving(&fork_fork_null, 65, &mut area), Err(Refusal { number: 18, place: 0 }));
    assert_eq!(next_interleaving(&fork_fork_null, 3, &[0, 0], &mut area), Err(Refusal { number: 19, place: 0 }));
    assert_eq!(next_interleaving(&fork_fork_null, 4, &[0, 0, 1], &mut area), Err(Refusal { number: 20, place: 0 }));
    assert_eq!(next_interleaving(&fork_fork_null, 3, &[0, 0, 1], &mut area), Ok(None));
    assert_eq!(area, [7; 3]);
}

#[test]
fn bounds_by_hand() {
    let fork_null = [0x10, 0x40, 0x08, 0x00, 0x80, 0, 0, 0, 0, 0, 0x48, 0x02, 0, 0, 0, 0, 0, 0, 0, 0];
    assert_eq!(bound(&fork_null), Ok(2));
    let round = [0x10, 0x40, 0x0c, 0x00, 0x80, 0, 0, 0, 0, 0, 0x38, 0x02, 0x01, 0, 0, 0x60, 0, 0, 0, 0, 0, 0, 0, 0, 0];
    assert_eq!(bound(&round), Err(Refusal { number: 22, place: 0 }));
    let calls_itself = [0x10, 0x40, 0x08, 0x00, 0x80, 0, 0, 0, 0, 0, 0x40, 0x00, 0x10, 0, 0, 0x88, 0, 0, 0, 0];
    assert_eq!(bound(&calls_itself), Err(Refusal { number: 21, place: 0 }));
    assert_eq!(bound(&round[..24]), Err(Refusal { number: 1, place: 0 }));
}

#[test]
fn charges_by_hand() {
    let round = [0x10, 0x40, 0x0c, 0x00, 0x80, 0, 0, 0, 0, 0, 0x38, 0x02, 0x01, 0, 0, 0x60, 0, 0, 0, 0, 0, 0, 0, 0, 0];
    for (moves, plain, with_option) in [(0, 1200, 1380), (100, 1235, 1421), (101, 1270, 1461)] {
        assert_eq!(charge(&round, &vec![0; moves], false), Ok(plain));
        assert_eq!(charge(&round, &vec![0; moves], true), Ok(with_option));
    }
    assert_eq!(charge(&round, &[8], true), Err(Refusal { number: 9, place: 0 }));
}

//! A plan as text, and refusals 1 to 7 and 25: tokens of sixteen bytes are written whole into an area of its own, and the text is copied once its
//! length is known.

use super::layout::{Row, ROWS};
use super::plan::{checked, Plan};
use super::refusal;
use std::mem::MaybeUninit;

/// Its bytes, and what it does: whether no space comes before it, whether it ends or begins a form, whether a line ends behind it, whether no space
/// comes behind it.
#[derive(Clone, Copy)]
struct Token {
    bytes: [u8; 16],
    length: usize,
    tight: bool,
    ends: usize,
    begins: usize,
    breaks: bool,
    close: bool,
}

const fn token(text: &str) -> Token {
    let (text, mut bytes, mut i) = (text.as_bytes(), [0; 16], 0);
    while i < text.len() {
        bytes[i] = text[i];
        i += 1;
    }
    Token {
        bytes,
        length: text.len(),
        tight: matches!(text, b")" | b"," | b"."),
        ends: matches!(text, b")" | b"in" | b"else") as usize,
        begins: matches!(text, b"(" | b"let" | b"if") as usize,
        breaks: matches!(text, b"in" | b"do"),
        close: matches!(text, b"(" | b"." | b"new"),
    }
}

const fn numbers() -> [Token; 32] {
    let (mut all, mut n) = ([token(""); 32], 0);
    while n < 32 {
        all[n] = token("0");
        (all[n].bytes, all[n].length) = if n < 10 { (digits(0, n), 1) } else { (digits(n / 10, n % 10), 2) };
        n += 1;
    }
    all
}

const fn digits(tens: usize, ones: usize) -> [u8; 16] {
    let mut bytes = [0; 16];
    if tens == 0 {
        bytes[0] = b'0' + ones as u8;
    } else {
        (bytes[0], bytes[1]) = (b'0' + tens as u8, b'0' + ones as u8);
    }
    bytes
}

static NUMBERS: [Token; 32] = numbers();
static VARIABLES: [Token; 8] = [token("v0"), token("v1"), token("v2"), token("v3"), token("v4"), token("v5"), token("v6"), token("v7")];

// how tightly a place asks a form to bind
const LOOSE: u8 = 0;
const TESTING: u8 = 1;
const PREFIX: u8 = 2;
const TIGHT: u8 = 3;

const BINDING: [u8; 32] = {
    let (mut all, mut tag) = ([TIGHT; 32], 0);
    while tag < 32 {
        all[tag] = match tag {
            4..=7 | 11 | 14 => LOOSE,
            13 | 15 => TESTING,
            9 | 10 | 18..=20 => PREFIX,
            _ => TIGHT,
        };
        tag += 1;
    }
    all
};

/// The most bytes that a token makes: a line's end, forty spaces and sixteen bytes.
const MOST_OF_TOKEN: usize = 64;

/// The text so far, up to `at`, in room up to `end`: where its last line begins, how many forms are open, and whether the next token breaks the line
/// or stands close to the last. `full` once there is no more room.
struct Writer<'a> {
    plan: &'a Plan<'a>,
    at: *mut u8,
    end: *mut u8,
    line: *mut u8,
    open: usize,
    breaks: bool,
    close: bool,
    full: bool,
}

macro_rules! put {
    ($writer:expr, $text:literal) => {
        $writer.put(const { &token($text) })
    };
}

impl Writer<'_> {
    #[inline(always)]
    fn put(&mut self, token: &Token) {
        if self.end.addr() - self.at.addr() < MOST_OF_TOKEN {
            self.full = true;
            return;
        }
        self.open -= token.ends;
        // SAFETY: there is room for all that is written.
        unsafe {
            if self.breaks || self.at.addr() - self.line.addr() + token.length >= 99 {
                self.at.write(b'\n');
                self.line = self.at.add(1);
                self.line.cast::<[u8; 40]>().write([b' '; 40]);
                self.at = self.line.add((2 * self.open).min(40));
            } else {
                self.at.write(b' ');
                self.at = self.at.add(usize::from(!(self.close | token.tight)));
            }
            self.at.cast::<[u8; 16]>().write(token.bytes);
            self.at = self.at.add(token.length);
        }
        self.open += token.begins;
        (self.breaks, self.close) = (token.breaks, token.close);
    }

    #[inline(never)]
    fn number(&mut self, number: usize) {
        self.put(&NUMBERS[number & 31]);
    }

    fn fields(&mut self, mut left: u32) {
        while left > 0 {
            let f = left.leading_zeros();
            self.number(f as usize);
            left &= !(1 << (31 - f));
        }
    }

    fn arguments(&mut self, mut list: usize) {
        let mut later = false;
        while self.plan.tag(list) == 16 {
            let word = self.plan.word(list);
            if later {
                put!(self, ",");
            }
            self.tree(ROWS[16].child(word, 0), LOOSE);
            (list, later) = (ROWS[16].child(word, 1), true);
        }
    }

    fn tree(&mut self, term: usize, asked: u8) {
        let word = self.plan.word(term);
        let tag = (word >> 35) as usize & 31;
        let row = &ROWS[tag];
        if BINDING[tag] < asked {
            put!(self, "(");
            self.form(tag, row, word);
            put!(self, ")");
        } else {
            self.form(tag, row, word);
        }
    }

    /// A word and its operand.
    #[inline(always)]
    fn behind(&mut self, token: &Token, term: usize, asked: u8) {
        self.put(token);
        self.tree(term, asked);
    }

    #[inline(always)]
    fn form(&mut self, tag: usize, row: &Row, word: u64) {
        let child = |k| row.child(word, k);
        match tag {
            0 => put!(self, "null"),
            1 => self.put(&VARIABLES[row.small(word) & 7]),
            2 => {
                put!(self, "new");
                put!(self, "(");
                self.fields((word >> 3) as u32);
                put!(self, ")");
            }
            3 | 4 => {
                self.tree(child(0), TIGHT);
                put!(self, ".");
                self.number(row.small(word));
                if tag == 4 {
                    self.behind(const { &token(":=") }, child(1), LOOSE);
                }
            }
            5 => self.binding(row.small(word), child(0), child(1)),
            6 => {
                self.behind(const { &token("if") }, child(0), LOOSE);
                self.behind(const { &token("then") }, child(1), LOOSE);
                self.behind(const { &token("else") }, child(2), LOOSE);
            }
            8 => {
                put!(self, "call");
                self.number(row.small(word));
                put!(self, "(");
                self.arguments(child(0));
                put!(self, ")");
            }
            12 => put!(self, "true"),
            7 | 11 | 14 | 15 => self.two(tag, child(0), child(1)),
            _ => self.prefixed(tag, child(0)),
        }
    }

    fn two(&mut self, tag: usize, first: usize, second: usize) {
        match tag {
            7 => self.behind(const { &token("while") }, first, LOOSE),
            11 => self.behind(const { &token("synch") }, first, LOOSE),
            14 => self.tree(first, TESTING),
            _ => self.tree(first, PREFIX),
        }
        match tag {
            14 => self.behind(const { &token("and") }, second, LOOSE),
            15 => self.behind(const { &token("=") }, second, PREFIX),
            _ => self.behind(const { &token("do") }, second, LOOSE),
        }
    }

    fn binding(&mut self, slot: usize, bound: usize, body: usize) {
        put!(self, "let");
        if slot == 15 {
            put!(self, "-");
        } else {
            self.number(slot);
        }
        self.behind(const { &token("=") }, bound, LOOSE);
        self.behind(const { &token("in") }, body, LOOSE);
    }

    fn prefixed(&mut self, tag: usize, operand: usize) {
        match tag {
            9 => put!(self, "fork"),
            10 => put!(self, "join"),
            13 => put!(self, "not"),
            18 => put!(self, "wait"),
            19 => put!(self, "notify"),
            _ => {
                put!(self, "notify");
                put!(self, "all");
            }
        }
        self.tree(operand, if tag == 13 { TESTING } else { PREFIX });
    }

    /// Whether a tree at a loose place begins with a parenthesis: it is a read or a write whose object does, or needs some.
    fn begins_grouped(&self, mut term: usize) -> bool {
        while matches!(self.plan.tag(term), 3 | 4) {
            term = ROWS[3].child(self.plan.word(term), 0);
            if BINDING[self.plan.tag(term)] < TIGHT {
                return true;
            }
        }
        false
    }

    fn all(&mut self) {
        put!(self, "version");
        self.number(self.plan.version as usize);
        if self.plan.mask << 1 != 0 {
            self.breaks = true;
            put!(self, "volatile");
            self.fields(self.plan.mask & !(1 << 31));
        }
        let main = self.plan.procedure(0).1;
        self.breaks = !self.begins_grouped(main);
        self.tree(main, LOOSE);
        for p in 1..self.plan.procedures {
            let (parameters, root) = self.plan.procedure(p);
            self.breaks = true;
            put!(self, "procedure");
            self.number(p);
            put!(self, "(");
            self.number(parameters);
            put!(self, ")");
            self.behind(const { &token("=") }, root, LOOSE);
        }
    }
}

/// The text of the plan into the area by way of room for so many bytes; nothing where that is too little.
#[inline(always)]
fn through<const ROOM: usize>(plan: &Plan, area: &mut [u8]) -> Option<Result<u64, u64>> {
    let mut room = [const { MaybeUninit::<u8>::uninit() }; ROOM];
    let start = room.as_mut_ptr().cast::<u8>();
    let end = start.wrapping_add(ROOM);
    let mut writer = Writer { plan, at: start, end, line: start, open: 0, breaks: false, close: true, full: false };
    writer.all();
    if writer.full {
        return None;
    }
    let length = writer.at.addr() - start.addr() + 1;
    let Some(area) = area.get_mut(..length) else { return Some(Err(refusal(25, 0))) };
    // SAFETY: a token leaves room behind it, and all bytes before were written.
    unsafe {
        writer.at.write(b'\n');
        area.copy_from_slice(std::slice::from_raw_parts(start, length));
    }
    Some(Ok(length as u64))
}

#[cold]
#[inline(never)]
fn longest(plan: &Plan, area: &mut [u8]) -> Option<Result<u64, u64>> {
    through::<574_600>(plan, area)
}

fn shown(plan: &[u8], area: &mut [u8]) -> Result<u64, u64> {
    let plan = checked(plan)?;
    through::<32_768>(&plan, area).or_else(|| longest(&plan, area)).expect("room for any text")
}

pub fn show(plan: &[u8], area: &mut [u8]) -> u64 {
    shown(plan, area).unwrap_or_else(|refused| refused)
}

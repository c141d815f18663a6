//! A text read as a plan, or the place where it is none, and refusal 26. How deep things are within each other has no bound here.

use super::Refusal;

// tokens: 0 to 31 are numbers, 32 to 39 variables, 40 to 61 words, and then the marks, the end of the text and what is no token
pub const WORDS: [&str; 22] = [
    "version",
    "volatile",
    "procedure",
    "in",
    "then",
    "else",
    "do",
    "all",
    "and",
    "true",
    "not",
    "null",
    "new",
    "let",
    "if",
    "while",
    "call",
    "fork",
    "join",
    "synch",
    "wait",
    "notify",
];
const PROCEDURE: u8 = 42;
const IN: u8 = 43;
const THEN: u8 = 44;
const ELSE: u8 = 45;
const DO: u8 = 46;
const ALL: u8 = 47;
const AND: u8 = 48;
const OPENING: u8 = 62;
const CLOSING: u8 = 63;
const COMMA: u8 = 64;
const DOT: u8 = 65;
const EQUALS: u8 = 66;
const BECOMES: u8 = 67;
const DASH: u8 = 68;
const END: u8 = 69;
const UNKNOWN: u8 = 70;

const MOST_TOKENS: usize = 16384;
const MOST_TERMS: usize = 1024;

// how tightly a place asks a form to bind, and the sort that it asks for
const LOOSE: u8 = 0;
const TESTING: u8 = 1;
const PREFIX: u8 = 2;
const TIGHT: u8 = 3;

#[derive(Clone, Copy, PartialEq)]
enum Sort {
    Either,
    Expression,
    Condition,
}

#[derive(Clone, Copy)]
struct Token {
    code: u8,
    place: u32,
}

#[derive(Clone, Copy)]
struct Tree {
    tag: u8,
    small: u32,
    kids: [u16; 3],
}

/// The byte where reading stops.
type Stop = usize;

fn name(bytes: &[u8]) -> u8 {
    match *bytes {
        [digit @ b'0'..=b'9'] => digit - b'0',
        [tens @ b'1'..=b'3', ones @ b'0'..=b'9'] if 10 * (tens - b'0') + ones - b'0' < 32 => 10 * (tens - b'0') + ones - b'0',
        [b'v', slot @ b'0'..=b'7'] => 32 + slot - b'0',
        _ => WORDS.iter().position(|word| word.as_bytes() == bytes).map_or(UNKNOWN, |word| 40 + word as u8),
    }
}

fn lexed(text: &[u8]) -> Vec<Token> {
    let mut tokens = Vec::with_capacity(text.len() / 2 + 1);
    let mut at = 0;
    while let Some(byte) = text.get(at) {
        let first = at;
        at += 1;
        let code = match byte {
            b' ' | b'\t' | b'\n' | b'\r' => continue,
            b'#' => {
                at += text[at..].iter().position(|b| *b == b'\n').unwrap_or(text.len() - at);
                continue;
            }
            b'0'..=b'9' | b'a'..=b'z' => {
                at += text[at..].iter().position(|b| !matches!(b, b'0'..=b'9' | b'a'..=b'z')).unwrap_or(text.len() - at);
                name(&text[first..at])
            }
            b':' if text.get(at) == Some(&b'=') => {
                at += 1;
                BECOMES
            }
            b'(' => OPENING,
            b')' => CLOSING,
            b',' => COMMA,
            b'.' => DOT,
            b'=' => EQUALS,
            b'-' => DASH,
            _ => UNKNOWN,
        };
        tokens.push(Token { code, place: first as u32 });
    }
    tokens.push(Token { code: END, place: text.len() as u32 });
    tokens
}

struct Reader {
    tokens: Vec<Token>,
    at: usize,
    counts: Vec<u8>,
    trees: Vec<Tree>,
}

impl Reader {
    fn ahead(&self, by: usize) -> u8 {
        self.tokens.get(self.at + by).map_or(END, |token| token.code)
    }

    fn stop<T>(&self) -> Result<T, Stop> {
        Err(self.tokens[self.at.min(self.tokens.len() - 1)].place as usize)
    }

    fn expect(&mut self, code: u8) -> Result<(), Stop> {
        if self.ahead(0) != code {
            return self.stop();
        }
        self.at += 1;
        Ok(())
    }

    fn number(&mut self, first: u8, end: u8) -> Result<u8, Stop> {
        let code = self.ahead(0);
        if code < first || code >= end {
            return self.stop();
        }
        self.at += 1;
        Ok(code)
    }

    fn made(&mut self, tag: u8, small: u32, kids: [u16; 3]) -> Result<u16, Stop> {
        if self.trees.len() == MOST_TERMS {
            return self.stop();
        }
        self.trees.push(Tree { tag, small, kids });
        Ok(self.trees.len() as u16 - 1)
    }

    /// Fields that go up, so many at most.
    fn mask(&mut self, most: usize) -> u32 {
        let (mut mask, mut last) = (0, 0);
        for _ in 0..most {
            match self.ahead(0) {
                field @ 1..=31 if field > last => last = field,
                _ => break,
            }
            self.at += 1;
            mask |= 1 << (31 - last);
        }
        mask
    }

    fn expression(&mut self) -> Result<u16, Stop> {
        self.part(LOOSE, Sort::Expression)
    }

    fn behind(&mut self, code: u8) -> Result<u16, Stop> {
        self.expect(code)?;
        self.expression()
    }

    fn call(&mut self) -> Result<u16, Stop> {
        let procedure = self.number(0, self.counts.len().min(32) as u8)?;
        self.expect(OPENING)?;
        let count = self.counts[usize::from(procedure)];
        let mut arguments = Vec::new();
        for i in 0..count {
            arguments.push(if i == 0 { self.expression()? } else { self.behind(COMMA)? });
        }
        self.expect(CLOSING)?;
        let mut list = self.made(17, 0, [0; 3])?;
        for argument in arguments.into_iter().rev() {
            list = self.made(16, 0, [argument, list, 0])?;
        }
        self.made(8, u32::from(procedure), [list, 0, 0])
    }

    fn prefixed(&mut self, tag: u8) -> Result<u16, Stop> {
        let operand = self.part(PREFIX, Sort::Expression)?;
        self.made(tag, 0, [operand, 0, 0])
    }

    /// The form that begins with a word, which has been taken.
    fn form(&mut self, word: u8) -> Result<u16, Stop> {
        match word {
            49 => self.made(12, 0, [0; 3]),
            50 => {
                let condition = self.part(TESTING, Sort::Condition)?;
                self.made(13, 0, [condition, 0, 0])
            }
            51 => self.made(0, 0, [0; 3]),
            52 => {
                self.expect(OPENING)?;
                let mask = self.mask(8);
                self.expect(CLOSING)?;
                self.made(2, mask, [0; 3])
            }
            53 => {
                let slot = if self.ahead(0) == DASH {
                    self.at += 1;
                    15
                } else {
                    self.number(0, 8)?
                };
                let bound = self.behind(EQUALS)?;
                let body = self.behind(IN)?;
                self.made(5, u32::from(slot), [bound, body, 0])
            }
            54 => {
                let condition = self.part(LOOSE, Sort::Condition)?;
                let yes = self.behind(THEN)?;
                let no = self.behind(ELSE)?;
                self.made(6, 0, [condition, yes, no])
            }
            55 => {
                let condition = self.part(LOOSE, Sort::Condition)?;
                let body = self.behind(DO)?;
                self.made(7, 0, [condition, body, 0])
            }
            56 => self.call(),
            57 => self.prefixed(9),
            58 => self.prefixed(10),
            59 => {
                let object = self.expression()?;
                let body = self.behind(DO)?;
                self.made(11, 0, [object, body, 0])
            }
            60 => self.prefixed(18),
            _ if self.ahead(0) == ALL => {
                self.at += 1;
                self.prefixed(20)
            }
            _ => self.prefixed(19),
        }
    }

    fn begun(&mut self, asked: u8, sort: Sort) -> Result<u16, Stop> {
        let code = self.ahead(0);
        let binding = match code {
            32..=39 => {
                self.at += 1;
                return self.made(1, u32::from(code - 32), [0; 3]);
            }
            OPENING => {
                self.at += 1;
                let tree = self.part(LOOSE, if sort == Sort::Expression { sort } else { Sort::Either })?;
                self.expect(CLOSING)?;
                return Ok(tree);
            }
            49 | 51 | 52 | 56 => TIGHT,
            50 => TESTING,
            53..=55 | 59 => LOOSE,
            57 | 58 | 60 | 61 => PREFIX,
            _ => return self.stop(),
        };
        if binding < asked || matches!(code, 49 | 50) && sort == Sort::Expression {
            return self.stop();
        }
        self.at += 1;
        self.form(code)
    }

    /// What a part begins with, and what may follow that, at a place that asks for this binding and this sort.
    fn part(&mut self, asked: u8, sort: Sort) -> Result<u16, Stop> {
        let mut tree = self.begun(asked, sort)?;
        loop {
            let is_condition = matches!(self.trees[usize::from(tree)].tag, 12..=15);
            match self.ahead(0) {
                DOT if !is_condition => {
                    self.at += 1;
                    let field = u32::from(self.number(1, 32)?);
                    tree = if asked == LOOSE && self.ahead(0) == BECOMES {
                        let value = self.behind(BECOMES)?;
                        self.made(4, field, [tree, value, 0])?
                    } else {
                        self.made(3, field, [tree, 0, 0])?
                    };
                }
                EQUALS if !is_condition && asked <= TESTING && sort != Sort::Expression => {
                    self.at += 1;
                    let right = self.part(PREFIX, Sort::Expression)?;
                    tree = self.made(15, 0, [tree, right, 0])?;
                }
                AND if is_condition && asked == LOOSE => {
                    self.at += 1;
                    let right = self.part(LOOSE, Sort::Condition)?;
                    tree = self.made(14, 0, [tree, right, 0])?;
                }
                _ if sort == Sort::Either || is_condition == (sort == Sort::Condition) => return Ok(tree),
                _ => return self.stop(),
            }
        }
    }

    fn closed(&self, tree: u16, bound: u32) -> bool {
        let Tree { tag, small, kids } = self.trees[usize::from(tree)];
        match tag {
            1 => bound >> small & 1 == 1,
            5 => self.closed(kids[0], bound) && self.closed(kids[1], bound | 1 << small),
            _ => kids[..children(tag).0.len()].iter().all(|kid| self.closed(*kid, bound)),
        }
    }
}

/// Of each tag, how many bits stand behind each of its children, and behind its other operand.
fn children(tag: u8) -> (&'static [u32], u32) {
    match tag {
        1 => (&[], 31),
        2 => (&[], 3),
        3 => (&[25], 20),
        9 | 10 | 13 | 18..=20 => (&[25], 0),
        4 => (&[25, 10], 20),
        5 => (&[21, 11], 31),
        6 => (&[25, 15, 5], 0),
        7 | 11 | 14 | 15 | 16 => (&[25, 15], 0),
        8 => (&[20], 30),
        _ => (&[], 0),
    }
}

struct Writer<'a> {
    trees: &'a [Tree],
    terms: &'a mut [u8],
    next: usize,
}

impl Writer<'_> {
    /// The tree and all below it, in their order; the number that it gets.
    fn put(&mut self, tree: u16) -> u64 {
        let Tree { tag, small, kids } = self.trees[usize::from(tree)];
        let number = self.next;
        self.next += 1;
        let (shifts, shift) = children(tag);
        let mut word = u64::from(tag) << 35 | u64::from(small) << shift;
        for (kid, shift) in kids.into_iter().zip(shifts) {
            word |= self.put(kid) << shift;
        }
        self.terms[5 * number..5 * number + 5].copy_from_slice(&word.to_be_bytes()[3..]);
        number as u64
    }
}

/// The version, the mask, and the roots with their parameters.
fn plan(reader: &mut Reader) -> Result<(u32, u32, Vec<(u8, u16)>), Stop> {
    let (mut version, mut mask, mut roots) = (1, 1 << 31, Vec::new());
    if reader.ahead(0) == 40 {
        reader.at += 1;
        version = reader.number(0, 2)?;
    }
    if reader.ahead(0) == 41 {
        reader.at += 1;
        mask |= reader.mask(31);
    }
    while roots.is_empty() || reader.ahead(0) != END {
        let first = reader.at;
        let mut count = 0;
        if roots.len() == 32 {
            return reader.stop();
        }
        if !roots.is_empty() {
            reader.expect(PROCEDURE)?;
            reader.expect(roots.len() as u8)?;
            reader.expect(OPENING)?;
            count = reader.number(0, 9)?;
            reader.expect(CLOSING)?;
            reader.expect(EQUALS)?;
        }
        let root = reader.expression()?;
        if !reader.closed(root, (1 << count) - 1) {
            reader.at = first;
            return reader.stop();
        }
        roots.push((count, root));
    }
    Ok((u32::from(version), mask, roots))
}

/// The length of the plan, or the line and the column where reading stops.
pub fn read(text: &[u8], area: &mut [u8]) -> Result<Result<usize, (usize, usize)>, Refusal> {
    let tokens = lexed(text);
    let behind = |i: usize| tokens.get(i + 3).map_or(END, |token| token.code);
    let counts = [0].into_iter().chain((0..tokens.len()).filter(|i| tokens[*i].code == PROCEDURE).map(behind)).collect();
    let many = tokens.get(MOST_TOKENS).map(|token| token.place as usize);
    let mut reader = Reader { tokens, at: 0, counts, trees: Vec::with_capacity(MOST_TERMS) };
    let (version, mask, roots) = match many.map_or_else(|| plan(&mut reader), Err) {
        Ok(plan) => plan,
        Err(place) => {
            let before = &text[..place];
            let line = before.iter().filter(|byte| **byte == b'\n').count() + 1;
            return Ok(Err((line, before.iter().rev().take_while(|byte| **byte != b'\n').count() + 1)));
        }
    };
    let (base, terms) = (8 + 2 * roots.len(), reader.trees.len());
    let written = area.get_mut(..base + 5 * terms).ok_or((26, 0))?;
    let (head, body) = written.split_at_mut(base);
    head[..4].copy_from_slice(&(version << 28 | (roots.len() as u32) << 22 | (terms as u32) << 10).to_be_bytes());
    head[4..8].copy_from_slice(&mask.to_be_bytes());
    let mut writer = Writer { trees: &reader.trees, terms: body, next: 0 };
    for (word, (count, root)) in head[8..].chunks_mut(2).zip(roots) {
        word.copy_from_slice(&(u16::from(count) << 12 | writer.put(root) as u16).to_be_bytes());
    }
    Ok(Ok(base + 5 * terms))
}

//! A plan as text, and refusals 1 to 7 and 25.

use super::{
    plan::{check, Term},
    Refusal,
};

const NUMBERS: [&str; 32] = [
    "0", "1", "2", "3", "4", "5", "6", "7", "8", "9", "10", "11", "12", "13", "14", "15", "16", "17", "18", "19", "20", "21", "22", "23",
    "24", "25", "26", "27", "28", "29", "30", "31",
];
const VARIABLES: [&str; 8] = ["v0", "v1", "v2", "v3", "v4", "v5", "v6", "v7"];

// how tightly a place asks a form to bind
const LOOSE: u8 = 0;
const TESTING: u8 = 1;
const PREFIX: u8 = 2;
const TIGHT: u8 = 3;

fn binding(tag: u8) -> u8 {
    match tag {
        4..=7 | 11 | 14 => LOOSE,
        13 | 15 => TESTING,
        9 | 10 | 18..=20 => PREFIX,
        _ => TIGHT,
    }
}

/// The text so far: where its last line begins, how many forms are open, and whether the next token breaks the line or stands close to the last.
struct Writer<'a> {
    terms: &'a [Term; 1024],
    text: Vec<u8>,
    line: usize,
    open: usize,
    breaks: bool,
    close: bool,
}

impl Writer<'_> {
    fn put(&mut self, token: &str) {
        self.open -= usize::from(matches!(token, ")" | "in" | "else"));
        if self.breaks || self.text.len() - self.line + 1 + token.len() > 99 {
            self.text.push(b'\n');
            self.line = self.text.len();
            self.text.resize(self.line + (2 * self.open).min(40), b' ');
        } else if !self.close && !matches!(token, ")" | "," | ".") {
            self.text.push(b' ');
        }
        self.text.extend_from_slice(token.as_bytes());
        self.open += usize::from(matches!(token, "(" | "let" | "if"));
        self.breaks = matches!(token, "in" | "do");
        self.close = matches!(token, "(" | "." | "new");
    }

    fn on_new_line(&mut self, token: &str) {
        self.breaks = true;
        self.put(token);
    }

    fn number(&mut self, number: u8) {
        self.put(NUMBERS[usize::from(number)]);
    }

    fn fields(&mut self, mask: u32) {
        (1..32).filter(|f| mask >> (31 - f) & 1 == 1).for_each(|f| self.number(f));
    }

    /// The words, each before its operand.
    fn forms<const N: usize>(&mut self, parts: [(&str, u16, u8); N]) {
        for (word, term, asked) in parts {
            self.put(word);
            self.tree(term, asked);
        }
    }

    fn arguments(&mut self, mut list: u16) {
        let mut comma = false;
        while self.terms[usize::from(list)].tag == 16 {
            let [first, rest, _] = self.terms[usize::from(list)].kids;
            if comma {
                self.put(",");
            }
            self.tree(first, LOOSE);
            (list, comma) = (rest, true);
        }
    }

    fn tree(&mut self, at: u16, asked: u8) {
        let term = self.terms[usize::from(at)];
        if binding(term.tag) < asked {
            self.put("(");
            self.form(term);
            self.put(")");
        } else {
            self.form(term);
        }
    }

    fn form(&mut self, term: Term) {
        let [a, b, c] = term.kids;
        match term.tag {
            0 => self.put("null"),
            1 => self.put(VARIABLES[usize::from(term.small)]),
            2 => {
                self.put("new");
                self.put("(");
                self.fields(term.mask);
                self.put(")");
            }
            3 | 4 => {
                self.tree(a, TIGHT);
                self.put(".");
                self.number(term.small);
                if term.tag == 4 {
                    self.forms([(":=", b, LOOSE)]);
                }
            }
            5 => {
                self.put("let");
                if term.small == 15 {
                    self.put("-");
                } else {
                    self.number(term.small);
                }
                self.forms([("=", a, LOOSE), ("in", b, LOOSE)]);
            }
            6 => self.forms([("if", a, LOOSE), ("then", b, LOOSE), ("else", c, LOOSE)]),
            7 => self.forms([("while", a, LOOSE), ("do", b, LOOSE)]),
            8 => {
                self.put("call");
                self.number(term.small);
                self.put("(");
                self.arguments(a);
                self.put(")");
            }
            9 => self.forms([("fork", a, PREFIX)]),
            10 => self.forms([("join", a, PREFIX)]),
            11 => self.forms([("synch", a, LOOSE), ("do", b, LOOSE)]),
            12 => self.put("true"),
            13 => self.forms([("not", a, TESTING)]),
            14 => {
                self.tree(a, TESTING);
                self.forms([("and", b, LOOSE)]);
            }
            15 => {
                self.tree(a, PREFIX);
                self.forms([("=", b, PREFIX)]);
            }
            18 => self.forms([("wait", a, PREFIX)]),
            19 => self.forms([("notify", a, PREFIX)]),
            _ => {
                self.put("notify");
                self.forms([("all", a, PREFIX)]);
            }
        }
    }
}

/// Whether a tree at a loose place begins with a parenthesis: it is a read or a write whose object does, or needs some.
fn begins_grouped(terms: &[Term; 1024], mut at: u16) -> bool {
    loop {
        let Term { tag: 3 | 4, kids: [object, ..], .. } = terms[usize::from(at)] else { return false };
        if binding(terms[usize::from(object)].tag) < TIGHT {
            return true;
        }
        at = object;
    }
}

/// The length of the text.
pub fn show(plan: &[u8], area: &mut [u8]) -> Result<usize, Refusal> {
    let checked = check(plan)?;
    let mut writer =
        Writer { terms: &checked.terms, text: Vec::with_capacity(8 * plan.len()), line: 0, open: 0, breaks: false, close: true };
    writer.put("version");
    writer.number(checked.version as u8);
    if checked.mask << 1 != 0 {
        writer.on_new_line("volatile");
        writer.fields(checked.mask);
    }
    let procedures = usize::from(plan[0] & 15) << 2 | usize::from(plan[1] >> 6);
    writer.breaks = !begins_grouped(&checked.terms, checked.roots[0]);
    writer.tree(checked.roots[0], LOOSE);
    for p in 1..procedures {
        writer.on_new_line("procedure");
        writer.number(p as u8);
        writer.put("(");
        writer.number(plan[8 + 2 * p] >> 4);
        writer.put(")");
        writer.forms([("=", checked.roots[p], LOOSE)]);
    }
    writer.text.push(b'\n');
    let text = &writer.text;
    area.get_mut(..text.len()).ok_or((25, 0))?.copy_from_slice(text);
    Ok(text.len())
}

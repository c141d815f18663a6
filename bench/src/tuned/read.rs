//! A text as a packed plan, the place where it is none, and refusal 26: in one pass over the text each term is made behind its children, and then the
//! terms are written in their order, which links between them keep.

use super::layout::row;
use super::refusal;
use super::tokens::{spelt, word, Bytes, Place, Text, Word, MOST_TOKENS};
use std::mem::MaybeUninit;

const MOST_TERMS: usize = 1024;
const MOST_PROCEDURES: usize = 32;

/// The tokens of a plan with so many groups in parentheses are not too many, since without any it has at most 11,490.
const FEW_GROUPS: usize = 2000;

/// What a number is multiplied by to stand where the mask is.
const fn unit(mask: u64) -> u64 {
    mask & mask.wrapping_neg()
}

/// Of each tag, one for each child, where it stands.
static CHILDREN: [u64; 32] = {
    let (mut all, mut tag) = ([0; 32], 0);
    while tag < 32 {
        let child = row(tag).child;
        all[tag] = unit(child[0]) + unit(child[1]) + unit(child[2]);
        tag += 1;
    }
    all
};

/// A term's word, which has for each child how far behind the term it comes; the first comes next.
#[inline(always)]
fn term<const TAG: usize>(small: u64, second: usize, third: usize) -> u64 {
    let row = const { &row(TAG) };
    let children = unit(row.child[0]) + second as u64 * unit(row.child[1]) + third as u64 * unit(row.child[2]);
    (TAG as u64) << 35 | small * unit(row.small) | children
}

/// What is around a part of the text: the slots that are bound there, and how many goals and values the library's reader could still lay on its stacks,
/// which have places for 8,400 and 3,100. Those that a part begins with are not counted.
#[derive(Clone, Copy)]
struct Within(u64);

impl Within {
    fn procedure(parameters: u64, values: u64) -> Within {
        Within(((1 << parameters) - 1) << 32 | 8400 << 16 | (3100 - values))
    }

    #[inline(always)]
    fn less(self, goals: u64, values: u64) -> Within {
        Within(self.0.wrapping_sub(goals << 16 | values))
    }

    /// Whether there is room for so many more.
    #[inline(always)]
    fn has(self, goals: u64, values: u64) -> bool {
        self.less(goals, values).0 & 0x8000_8000 == 0
    }

    /// With a slot that is bound; 15 is none.
    #[inline(always)]
    fn with(self, slot: u64) -> Within {
        Within(self.0 | 1 << (32 + slot))
    }

    #[inline(always)]
    fn binds(self, slot: u64) -> bool {
        self.0 >> (32 + slot) & 1 == 1
    }
}

/// The place behind a part, and the last of its terms; its first is the one that was made last.
type Part = (Place, u16);

/// A term whose last child is yet to be read: its word; its first child, and the last term of the child before the last; the child itself, if it is its
/// only one, is known once it has been read.
#[derive(Clone, Copy)]
struct Later {
    word: u64,
    first: u16,
    before: u16,
    only: bool,
}

/// What an expression begins with: a value, or a term whose last child comes from a place on.
enum Begun {
    Value(Part),
    Later(Place),
}

struct Reader<'a> {
    text: Text<'a>,
    /// Where reading stops, if it does.
    stop: Place,
    words: [MaybeUninit<u64>; MOST_TERMS],
    /// The term that is written behind a term; a term's own first child behind it.
    next: [MaybeUninit<u16>; MOST_TERMS],
    made: usize,
    later: [MaybeUninit<Later>; MOST_TERMS],
    height: usize,
    /// The parameter counts of main and of all procedures, once there is a call.
    counts: [u8; MOST_PROCEDURES],
    counted: usize,
    /// Each procedure's parameters and root, packed.
    procedures: [u16; MOST_PROCEDURES],
    unbound: bool,
    groups: usize,
}

impl<'a> Reader<'a> {
    #[inline(always)]
    fn new(text: Text<'a>) -> Reader<'a> {
        Reader {
            text,
            stop: text.start(),
            words: [const { MaybeUninit::uninit() }; MOST_TERMS],
            next: [const { MaybeUninit::uninit() }; MOST_TERMS],
            made: 0,
            later: [const { MaybeUninit::uninit() }; MOST_TERMS],
            height: 0,
            counts: [0; MOST_PROCEDURES],
            counted: 0,
            procedures: [0; MOST_PROCEDURES],
            unbound: false,
            groups: 0,
        }
    }

    /// Reading stops at the next token.
    #[cold]
    #[inline(never)]
    fn stop<T>(&mut self, at: Place) -> Option<T> {
        self.stop = self.text.next(at).0;
        None
    }

    #[inline(always)]
    fn room(&mut self, at: Place, within: Within, goals: u64, values: u64) -> Option<()> {
        if within.has(goals, values) {
            Some(())
        } else {
            self.stop(at)
        }
    }

    #[inline(always)]
    fn mark(&mut self, at: Place, mark: u8) -> Option<Place> {
        let (at, bytes) = self.text.next(at);
        if bytes.first() == mark {
            Some(at.on(1))
        } else {
            self.stop(at)
        }
    }

    #[inline(always)]
    fn expect(&mut self, at: Place, word: &Word) -> Option<Place> {
        let (at, bytes) = self.text.next(at);
        if bytes.is(word) {
            Some(at.on(word.length()))
        } else {
            self.stop(at)
        }
    }

    /// The term that was made last.
    #[inline(always)]
    fn last(&self) -> u16 {
        (self.made - 1) as u16
    }

    /// A term; its number, by which terms are linked.
    #[inline(always)]
    fn make(&mut self, at: Place, word: u64, first: u16) -> Option<u16> {
        let made = self.made;
        if made >= MOST_TERMS {
            return self.stop(at);
        }
        self.words[made].write(word);
        self.next[made].write(first);
        self.made = made + 1;
        Some(made as u16)
    }

    /// The term that was made last is the next child behind the one with this last term.
    #[inline(always)]
    fn link(&mut self, before: u16) {
        self.next[usize::from(before) & (MOST_TERMS - 1)].write(self.last());
    }

    /// A term whose second child was made last.
    #[inline(always)]
    fn pair(&mut self, at: Place, word: u64, first: u16, before: u16) -> Option<()> {
        self.link(before);
        self.make(at, word, first).map(|_| ())
    }

    #[inline(always)]
    fn leaf(&mut self, at: Place, within: Within, word: u64) -> Option<Part> {
        self.room(at, within, 2, 1)?;
        Some((at, self.make(at, word, 0)?))
    }

    /// Those that are more than there can be terms are in the way of others, and will not be written.
    #[inline(always)]
    fn leave(&mut self, later: Later) {
        self.later[self.height & (MOST_TERMS - 1)].write(later);
        self.height += 1;
    }

    /// The terms that were left, down to this many.
    #[inline(always)]
    fn make_left(&mut self, at: Place, down_to: usize) -> Option<()> {
        while self.height > down_to {
            self.height -= 1;
            // SAFETY: what is below the height was written.
            let later = unsafe { self.later[self.height & (MOST_TERMS - 1)].assume_init() };
            if later.only {
                self.make(at, later.word, self.last())?;
            } else {
                self.pair(at, later.word, later.first, later.before)?;
            }
        }
        Some(())
    }

    /// An expression, at a place that lets every form in or only those that bind more tightly.
    fn expression(&mut self, mut at: Place, mut within: Within, mut loose: bool) -> Option<Part> {
        let height = self.height;
        loop {
            let start = self.made;
            let (place, bytes) = self.text.next(at);
            let (behind, tail) = match self.begin(place, bytes, &mut within, &mut loose)? {
                Begun::Value(part) => part,
                Begun::Later(place) => {
                    at = place;
                    continue;
                }
            };
            let (behind, field) = self.reads(behind, within, loose)?;
            if field == 0 {
                self.make_left(behind, height)?;
                return Some((behind, tail));
            }
            let word = term::<4>(field, 1 + self.made - start, 0);
            self.leave(Later { word, first: self.last(), before: tail, only: false });
            (at, within) = (behind, within.less(2, 2));
        }
    }

    #[inline(always)]
    fn begin(&mut self, at: Place, bytes: Bytes, within: &mut Within, loose: &mut bool) -> Option<Begun> {
        let value = match bytes.first() {
            b'v' => self.variable(at, bytes.slot(), *within)?,
            b'(' => self.group(at.on(1), *within)?,
            b'l' if *loose && bytes.is(word!("let")) => return self.binding(at.on(3), within),
            b'i' if *loose && bytes.is(word!("if")) => return self.branch(at.on(2), within),
            b'w' if *loose && bytes.is(word!("while")) => return self.repeat(at.on(5), within),
            b's' if *loose && bytes.is(word!("synch")) => return self.synch(at.on(5), within),
            b'n' if bytes.is(word!("null")) => self.leaf(at.on(4), *within, term::<0>(0, 0, 0))?,
            b'n' if bytes.is(word!("new")) => self.object(at.on(3), *within)?,
            b'c' if bytes.is(word!("call")) => self.call(at.on(4), *within)?,
            _ => {
                *loose = false;
                return self.prefix(at, bytes, within);
            }
        };
        Some(Begun::Value(value))
    }

    #[inline(always)]
    fn variable(&mut self, at: Place, slot: u64, within: Within) -> Option<Part> {
        if slot > 7 {
            return self.stop(at);
        }
        if !within.binds(slot) {
            self.unbound = true;
        }
        self.leaf(at.on(2), within, term::<1>(slot, 0, 0))
    }

    #[inline(always)]
    fn group(&mut self, at: Place, within: Within) -> Option<Part> {
        self.room(at, within, 3, 0)?;
        self.groups += 1;
        let (at, tail) = self.expression(at, within.less(2, 0), true)?;
        Some((self.mark(at, b')')?, tail))
    }

    #[inline(always)]
    fn binding(&mut self, at: Place, within: &mut Within) -> Option<Begun> {
        self.room(at, *within, 7, 0)?;
        let (at, bytes) = self.text.next(at);
        let (slot, length) = match bytes.number() {
            (slot @ 0..=7, length) => (slot, length),
            _ if bytes.first() == b'-' => (15, 1),
            _ => return self.stop(at),
        };
        self.room(at.on(length), *within, 0, 1)?;
        let at = self.mark(at.on(length), b'=')?;
        let start = self.made;
        let (at, before) = self.expression(at, within.less(4, 1), true)?;
        let at = self.expect(at, word!("in"))?;
        let word = term::<5>(slot, 1 + self.made - start, 0);
        self.leave(Later { word, first: self.last(), before, only: false });
        *within = within.less(2, 2).with(slot);
        Some(Begun::Later(at))
    }

    #[inline(always)]
    fn branch(&mut self, at: Place, within: &mut Within) -> Option<Begun> {
        self.room(at, *within, 7, 0)?;
        let start = self.made;
        let (at, tail) = self.condition(at, within.less(6, 0), true)?;
        let (first, second) = (self.last(), 1 + self.made - start);
        let at = self.expect(at, word!("then"))?;
        let (at, before) = self.expression(at, within.less(4, 1), true)?;
        self.link(tail);
        let at = self.expect(at, word!("else"))?;
        self.leave(Later { word: term::<6>(0, second, 1 + self.made - start), first, before, only: false });
        *within = within.less(2, 2);
        Some(Begun::Later(at))
    }

    #[inline(always)]
    fn repeat(&mut self, at: Place, within: &mut Within) -> Option<Begun> {
        self.room(at, *within, 5, 0)?;
        let start = self.made;
        let (at, before) = self.condition(at, within.less(4, 0), true)?;
        let word = term::<7>(0, 1 + self.made - start, 0);
        self.body(at, word, before, within)
    }

    #[inline(always)]
    fn synch(&mut self, at: Place, within: &mut Within) -> Option<Begun> {
        self.room(at, *within, 5, 0)?;
        let start = self.made;
        let (at, before) = self.expression(at, within.less(4, 0), true)?;
        let word = term::<11>(0, 1 + self.made - start, 0);
        self.body(at, word, before, within)
    }

    /// Behind `do`.
    #[inline(always)]
    fn body(&mut self, at: Place, word: u64, before: u16, within: &mut Within) -> Option<Begun> {
        let at = self.expect(at, word!("do"))?;
        self.leave(Later { word, first: self.last(), before, only: false });
        *within = within.less(2, 1);
        Some(Begun::Later(at))
    }

    /// A word with one operand.
    #[inline(always)]
    fn prefix(&mut self, at: Place, bytes: Bytes, within: &mut Within) -> Option<Begun> {
        let (at, word) = match bytes.first() {
            b'f' if bytes.is(word!("fork")) => (at.on(4), term::<9>(0, 0, 0)),
            b'j' if bytes.is(word!("join")) => (at.on(4), term::<10>(0, 0, 0)),
            b'w' if bytes.is(word!("wait")) => (at.on(4), term::<18>(0, 0, 0)),
            b'n' if bytes.is(word!("notify")) => {
                let (next, bytes) = self.text.next(at.on(6));
                if bytes.is(word!("all")) {
                    (next.on(3), term::<20>(0, 0, 0))
                } else {
                    (next, term::<19>(0, 0, 0))
                }
            }
            _ => return self.stop(at),
        };
        self.room(at, *within, 3, 0)?;
        self.leave(Later { word, first: 0, before: 0, only: true });
        *within = within.less(2, 0);
        Some(Begun::Later(at))
    }

    #[inline(always)]
    fn object(&mut self, at: Place, within: Within) -> Option<Part> {
        self.room(at, within, 4, 1)?;
        let at = self.mark(at, b'(')?;
        let (at, mask) = self.fields(at, 8);
        let at = self.mark(at, b')')?;
        Some((at, self.make(at, term::<2>(0, 0, 0) | u64::from(mask) * const { unit(row(2).fields) }, 0)?))
    }

    /// Fields that go up, so many at most, and the place behind them.
    #[inline(always)]
    fn fields(&self, mut at: Place, most: usize) -> (Place, u32) {
        let (mut mask, mut last) = (0, 0);
        for _ in 0..most {
            let (next, bytes) = self.text.next(at);
            let (field, length) = bytes.number();
            if field <= last || field > 31 {
                break;
            }
            mask |= 1 << (31 - field);
            (at, last) = (next.on(length), field);
        }
        (at, mask)
    }

    /// Reads of fields behind an expression; and if a write is begun, its field.
    #[inline(always)]
    fn reads(&mut self, at: Place, within: Within, loose: bool) -> Option<(Place, u64)> {
        let (mut at, mut bytes) = self.text.next(at);
        while bytes.first() == b'.' {
            let (place, digits) = self.text.next(at.on(1));
            let (field, length) = digits.number();
            if field.wrapping_sub(1) > 30 {
                return self.stop(place);
            }
            (at, bytes) = self.text.next(place.on(length));
            if loose && bytes.becomes() {
                self.room(at.on(2), within, 3, 2)?;
                return Some((at.on(2), field));
            }
            self.room(at, within, 2, 2)?;
            self.make(at, term::<3>(field, 0, 0), self.last())?;
        }
        Some((at, 0))
    }

    fn call(&mut self, at: Place, within: Within) -> Option<Part> {
        self.room(at, within, 3, 0)?;
        if self.counted == 0 {
            self.count();
        }
        let (at, bytes) = self.text.next(at);
        let (procedure, length) = bytes.number();
        if procedure as usize >= self.counted {
            return self.stop(at);
        }
        let (at, count) = (at.on(length), self.counts[procedure as usize & (MOST_PROCEDURES - 1)]);
        self.room(at, within, if count == 0 { 5 } else { 6 }, 1)?;
        let at = self.mark(at, b'(')?;
        let (at, tail) = if count == 0 { self.list_end(at, within)? } else { self.arguments(at, within.less(4, 1), count)? };
        self.make(at, term::<8>(procedure, 0, 0), self.last())?;
        Some((at, tail))
    }

    #[inline(always)]
    fn list_end(&mut self, at: Place, within: Within) -> Option<Part> {
        let at = self.mark(at, b')')?;
        self.room(at, within, 0, 2)?;
        Some((at, self.make(at, term::<17>(0, 0, 0), 0)?))
    }

    /// So many arguments and what is behind them.
    fn arguments(&mut self, at: Place, within: Within, count: u8) -> Option<Part> {
        let start = self.made;
        let (at, before) = self.expression(at, within, true)?;
        let (first, second) = (self.last(), 1 + self.made - start);
        let (at, tail) = if count == 1 {
            self.list_end(at, within)?
        } else {
            let at = self.mark(at, b',')?;
            self.room(at, within, 2, 1)?;
            self.arguments(at, within.less(1, 1), count - 1)?
        };
        self.pair(at, term::<16>(0, second, 0), first, before)?;
        Some((at, tail))
    }

    /// The parameter counts of all procedures: main has none, and others have theirs third behind the word.
    #[inline(never)]
    fn count(&mut self) {
        let mut at = 0;
        self.counted = 1;
        while let (Some(behind), true) = (self.text.behind_procedure(at), self.counted < MOST_PROCEDURES) {
            self.counts[self.counted] = self.text.third_code(behind);
            self.counted += 1;
            at = behind;
        }
    }

    /// Whether the term that was made last is a condition.
    #[inline(always)]
    fn is_condition(&self) -> bool {
        // SAFETY: it was made.
        matches!(unsafe { self.words[self.made - 1].assume_init() } >> 35, 12..=15)
    }

    fn condition(&mut self, at: Place, within: Within, loose: bool) -> Option<Part> {
        let (at, tail) = self.either(at, within, loose)?;
        if self.is_condition() {
            Some((at, tail))
        } else {
            self.stop(at)
        }
    }

    /// A condition, or an expression that none begins with.
    fn either(&mut self, at: Place, within: Within, loose: bool) -> Option<Part> {
        let start = self.made;
        let (at, bytes) = self.text.next(at);
        let mut part = match bytes.first() {
            b't' if bytes.is(word!("true")) => self.leaf(at.on(4), within, term::<12>(0, 0, 0))?,
            b'n' if bytes.is(word!("not")) => self.negation(at.on(3), within)?,
            b'(' => self.group_of_either(at.on(1), within, loose)?,
            _ => self.expression(at, within, loose)?,
        };
        if !self.is_condition() {
            part = self.comparison(part, within, start)?;
        }
        if loose && self.is_condition() {
            part = self.conjunction(part, within, start)?;
        }
        Some(part)
    }

    fn negation(&mut self, at: Place, within: Within) -> Option<Part> {
        self.room(at, within, 3, 0)?;
        let (at, tail) = self.condition(at, within.less(2, 0), false)?;
        self.make(at, term::<13>(0, 0, 0), self.last())?;
        Some((at, tail))
    }

    /// A group, and if it is an expression what may follow one.
    fn group_of_either(&mut self, at: Place, within: Within, loose: bool) -> Option<Part> {
        let start = self.made;
        self.room(at, within, 3, 0)?;
        self.groups += 1;
        let (at, tail) = self.either(at, within.less(2, 0), true)?;
        let at = self.mark(at, b')')?;
        if self.is_condition() {
            return Some((at, tail));
        }
        let (at, field) = self.reads(at, within, loose)?;
        if field == 0 {
            return Some((at, tail));
        }
        let (word, first) = (term::<4>(field, 1 + self.made - start, 0), self.last());
        let (at, last) = self.expression(at, within.less(2, 2), true)?;
        self.pair(at, word, first, tail)?;
        Some((at, last))
    }

    /// `=` and its right side, if they follow.
    #[inline(always)]
    fn comparison(&mut self, (at, tail): Part, within: Within, start: usize) -> Option<Part> {
        let (at, bytes) = self.text.next(at);
        if bytes.first() != b'=' {
            return Some((at, tail));
        }
        self.room(at.on(1), within, 3, 0)?;
        let (word, first) = (term::<15>(0, 1 + self.made - start, 0), self.last());
        let (at, last) = self.expression(at.on(1), within.less(2, 1), false)?;
        self.pair(at, word, first, tail)?;
        Some((at, last))
    }

    /// `and` and its right side, if they follow.
    #[inline(always)]
    fn conjunction(&mut self, (at, tail): Part, within: Within, start: usize) -> Option<Part> {
        let (at, bytes) = self.text.next(at);
        if !bytes.is(word!("and")) {
            return Some((at, tail));
        }
        self.room(at.on(3), within, 3, 0)?;
        let (word, first) = (term::<14>(0, 1 + self.made - start, 0), self.last());
        let (at, last) = self.condition(at.on(3), within.less(2, 1), true)?;
        self.pair(at, word, first, tail)?;
        Some((at, last))
    }

    /// `procedure 1 (2) =`: the parameters, and the place behind.
    fn heading(&mut self, at: Place, procedure: usize) -> Option<(Place, u64)> {
        let Some(at) = self.text.behind_word(at, "procedure") else { return self.stop(at) };
        let at = self.number(at, |number| number == procedure as u64)?.0;
        let at = self.mark(at, b'(')?;
        let (at, parameters) = self.number(at, |number| number <= 8)?;
        let at = self.mark(at, b')')?;
        Some((self.mark(at, b'=')?, parameters))
    }

    fn number(&mut self, at: Place, right: impl Fn(u64) -> bool) -> Option<(Place, u64)> {
        let (at, bytes) = self.text.next(at);
        let (number, length) = bytes.number();
        if right(number) {
            Some((at.on(length), number))
        } else {
            self.stop(at)
        }
    }

    /// The version, the mask of volatile fields, and the place behind both.
    fn header(&mut self) -> Option<(Place, u64, u32)> {
        let (mut at, mut version, mut mask) = (self.text.next(self.text.start()).0, 1, 1 << 31);
        if let Some(behind) = self.text.behind_word(at, "version") {
            (at, version) = self.number(behind, |number| number < 2)?;
            at = self.text.next(at).0;
        }
        if let Some(behind) = self.text.behind_word(at, "volatile") {
            let (behind, fields) = self.fields(behind, 31);
            (at, mask) = (behind, mask | fields);
        }
        Some((at, version, mask))
    }

    /// Main and the procedures behind it; how many they are, and main's root.
    fn all(&mut self, mut at: Place) -> Option<(usize, u16)> {
        let (mut main, mut before) = (0, 0);
        for p in 0..MOST_PROCEDURES {
            let (first, root) = (self.text.next(at).0, self.made);
            let (behind, parameters) = if p == 0 { (first, 0) } else { self.heading(first, p)? };
            self.unbound = false;
            let (behind, tail) = self.expression(behind, Within::procedure(parameters, 1 + u64::from(p > 0)), true)?;
            if self.unbound {
                return self.stop(first);
            }
            self.procedures[p] = (parameters as u16) << 12 | root as u16;
            if p == 0 {
                main = self.last();
            } else {
                self.link(before);
            }
            (at, before) = (self.text.next(behind).0, tail);
            if self.text.ends(at) {
                return Some((p + 1, main));
            }
        }
        self.stop(at)
    }

    /// The terms from main's root on, each with the numbers of its children.
    fn write(&self, terms: &mut [u8], main: u16) {
        let (last, mut term) = (self.made - 1, usize::from(main));
        let words = (0..self.made as u64).map(|number| {
            // SAFETY: as many terms as were made are linked.
            let (word, next) = unsafe { (self.words[term].assume_init(), self.next[term].assume_init()) };
            term = usize::from(next) & (MOST_TERMS - 1);
            (word + number * CHILDREN[(word >> 35) as usize & 31]) << 24
        });
        for (number, word) in words.enumerate() {
            let bytes = word.to_be_bytes();
            if number < last {
                // three bytes more, which the next term's are written over
                terms[5 * number..5 * number + 8].copy_from_slice(&bytes);
            } else {
                terms[5 * number..].copy_from_slice(&bytes[..5]);
            }
        }
    }
}

struct Heading {
    version: u64,
    mask: u32,
    procedures: usize,
    main: u16,
}

fn written(reader: &Reader, heading: &Heading, area: &mut [u8]) -> u64 {
    let base = 8 + 2 * heading.procedures;
    let length = base + 5 * reader.made;
    let Some(area) = area.get_mut(..length) else { return refusal(26, 0) };
    let (head, terms) = area.split_at_mut(base);
    let counts = heading.version << 28 | (heading.procedures as u64) << 22 | (reader.made as u64) << 10;
    head[..8].copy_from_slice(&(counts << 32 | u64::from(heading.mask)).to_be_bytes());
    for (word, procedure) in head[8..].chunks_exact_mut(2).zip(reader.procedures) {
        word.copy_from_slice(&procedure.to_be_bytes());
    }
    reader.write(terms, heading.main);
    length as u64
}

/// The answer for a text that is no plan.
#[cold]
fn stopped(text: &Text, stop: Place) -> u64 {
    let (line, column) = text.line_and_column(stop);
    (1 << 32) + (line.min(65535) << 16) as u64 + column.min(65535) as u64
}

pub fn read(bytes: &[u8], area: &mut [u8]) -> u64 {
    let text = Text::new(bytes);
    let mut reader = Reader::new(text);
    let heading = reader.header().and_then(|(at, version, mask)| {
        let (procedures, main) = reader.all(at)?;
        Some(Heading { version, mask, procedures, main })
    });
    let perhaps_many = bytes.len() >= MOST_TOKENS && (heading.is_none() || reader.groups > FEW_GROUPS);
    if let Some(stop) = perhaps_many.then(|| text.one_too_many()).flatten() {
        return stopped(&text, stop);
    }
    match heading {
        Some(heading) => written(&reader, &heading, area),
        None => stopped(&text, reader.stop),
    }
}

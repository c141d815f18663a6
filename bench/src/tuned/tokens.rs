//! The tokens of a plan's text, looked at where they stand, eight bytes at a time.

use std::ptr::NonNull;

/// A text has at most so many tokens, its end counted as one.
pub const MOST_TOKENS: usize = 16384;

/// In place of a number where there is none.
pub const NO_NUMBER: u64 = 99;

/// Whether a byte is of a name: a digit or a small letter.
static NAME: [bool; 256] = {
    let (mut all, mut byte) = ([false; 256], 0);
    while byte < 256 {
        all[byte] = (byte as u8).is_ascii_digit() || (byte as u8).is_ascii_lowercase();
        byte += 1;
    }
    all
};

/// The words and the marks, in the order of their codes; numbers and variables come before them, the text's end and what is no token behind them.
const CODED: &str = "version volatile procedure in then else do all and true not null new let if while call fork join synch wait notify \
    ( ) , . = := -";
const VARIABLE: u8 = 32;
const FIRST_CODED: u8 = 40;
const END: u8 = 69;
const UNKNOWN: u8 = 70;

/// A place in a text, or its end.
#[derive(Clone, Copy, PartialEq, Eq)]
pub struct Place(NonNull<u8>);

impl Place {
    /// So many bytes on, all of which have been seen.
    #[inline(always)]
    pub fn on(self, count: usize) -> Place {
        // SAFETY: what has been seen is before the text's end.
        Place(unsafe { self.0.add(count) })
    }

    /// The eight bytes from there on, which must be in the text.
    #[inline(always)]
    unsafe fn bytes(self) -> Bytes {
        Bytes(u64::from_le_bytes(self.0.cast::<[u8; 8]>().read()))
    }

    #[inline(always)]
    fn until(self, end: Place) -> usize {
        end.0.addr().get() - self.0.addr().get()
    }
}

/// A word of at most seven bytes.
pub struct Word {
    bytes: u64,
    mask: u64,
    length: usize,
}

pub const fn spelt(text: &str) -> Word {
    let (text, mut bytes, mut i) = (text.as_bytes(), 0, 0);
    while i < text.len() {
        bytes |= (text[i] as u64) << (8 * i);
        i += 1;
    }
    Word { bytes, mask: (1 << (8 * text.len())) - 1, length: text.len() }
}

/// A word as a constant.
macro_rules! word {
    ($text:literal) => {
        const { &spelt($text) }
    };
}
pub(super) use word;

impl Word {
    #[inline(always)]
    pub fn length(&self) -> usize {
        self.length
    }
}

/// The eight bytes from a place on, with zeros behind the text's end; zero is no token either.
#[derive(Clone, Copy)]
pub struct Bytes(u64);

impl Bytes {
    #[inline(always)]
    fn byte(self, k: usize) -> u8 {
        (self.0 >> (8 * k)) as u8
    }

    #[inline(always)]
    pub fn first(self) -> u8 {
        self.byte(0)
    }

    /// Whether the token is this word.
    #[inline(always)]
    pub fn is(self, word: &Word) -> bool {
        self.0 & word.mask == word.bytes && !NAME[usize::from(self.byte(word.length))]
    }

    /// Whether the token is `:=`.
    #[inline(always)]
    pub fn becomes(self) -> bool {
        self.0 as u16 == u16::from_le_bytes(*b":=")
    }

    /// The number, 0 to 31, that the token is, and how many bytes it has.
    #[inline(always)]
    pub fn number(self) -> (u64, usize) {
        let [first, second] = [0, 1].map(|k| u64::from(self.byte(k).wrapping_sub(b'0')));
        if first > 9 {
            return (NO_NUMBER, 0);
        }
        if !NAME[usize::from(self.byte(1))] {
            return (first, 1);
        }
        let number = 10 * first + second;
        let right = second < 10 && (10..32).contains(&number) && !NAME[usize::from(self.byte(2))];
        (if right { number } else { NO_NUMBER }, 2)
    }

    /// The slot of a token that begins with `v`, from 8 on where it is no variable.
    #[inline(always)]
    pub fn slot(self) -> u64 {
        if NAME[usize::from(self.byte(2))] {
            return NO_NUMBER;
        }
        u64::from(self.byte(1).wrapping_sub(b'0'))
    }
}

#[derive(Clone, Copy)]
pub struct Text<'a> {
    bytes: &'a [u8],
    end: Place,
    /// From addresses up to this one there are nine bytes.
    far: usize,
}

impl<'a> Text<'a> {
    #[inline(always)]
    pub fn new(bytes: &'a [u8]) -> Text<'a> {
        let end = Place(NonNull::from(bytes).cast()).on(bytes.len());
        Text { bytes, end, far: end.0.addr().get().saturating_sub(9) }
    }

    pub fn start(&self) -> Place {
        self.place(0)
    }

    #[inline(always)]
    pub fn ends(&self, at: Place) -> bool {
        at == self.end
    }

    /// The place of a byte, or the end.
    fn place(&self, index: usize) -> Place {
        Place(NonNull::from(&self.bytes[index..]).cast())
    }

    fn index(&self, at: Place) -> usize {
        self.bytes.len() - at.until(self.end)
    }

    #[inline(always)]
    fn bytes(&self, at: Place) -> Bytes {
        if at.until(self.end) < 8 {
            return self.last_bytes(at);
        }
        // SAFETY: there are eight bytes.
        unsafe { at.bytes() }
    }

    #[cold]
    #[inline(never)]
    fn last_bytes(&self, at: Place) -> Bytes {
        let left = at.until(self.end);
        match self.bytes.last_chunk::<8>() {
            Some(last) => Bytes(u64::from_le_bytes(*last).checked_shr(64 - 8 * left as u32).unwrap_or(0)),
            None => Bytes(self.bytes[self.index(at)..].iter().rev().fold(0, |bytes, byte| bytes << 8 | u64::from(*byte))),
        }
    }

    /// The next token's place, and its bytes. Mostly it is there, or behind one space, which of the two is foretold by what comes before it; so the bytes
    /// are looked at again, and nothing waits for the first look.
    #[inline(always)]
    pub fn next(&self, at: Place) -> (Place, Bytes) {
        if at.0.addr().get() > self.far {
            return self.beyond(at);
        }
        // SAFETY: there are nine bytes.
        let (mut at, mut bytes) = (at, unsafe { at.bytes() });
        if bytes.first() == b' ' {
            at = at.on(1);
            bytes = unsafe { at.bytes() };
        }
        // no token begins with a byte up to this one
        if bytes.first() > b'#' {
            (at, bytes)
        } else {
            self.beyond(at)
        }
    }

    /// The same behind any white space and comments.
    #[inline(never)]
    fn beyond(&self, mut at: Place) -> (Place, Bytes) {
        const SPACES: u64 = u64::from_le_bytes([b' '; 8]);
        loop {
            let bytes = self.bytes(at);
            at = match bytes.first() {
                b' ' => at.on((bytes.0 ^ SPACES).trailing_zeros() as usize / 8),
                b'\n' | b'\t' | b'\r' => at.on(1),
                b'#' => self.line_end(at),
                _ => return (at, bytes),
            };
        }
    }

    fn line_end(&self, at: Place) -> Place {
        let rest = &self.bytes[self.index(at)..];
        at.on(rest.iter().position(|byte| *byte == b'\n').unwrap_or(rest.len()))
    }

    /// The place behind a token.
    fn behind(&self, at: Place) -> Place {
        let rest = &self.bytes[self.index(at)..];
        let name = rest.iter().position(|byte| !NAME[usize::from(*byte)]).unwrap_or(rest.len());
        at.on(if rest.starts_with(b":=") { 2 } else { name.max(1) })
    }

    /// The place behind the token where it is this word.
    pub fn behind_word(&self, at: Place, word: &str) -> Option<Place> {
        let behind = at.on(self.bytes[self.index(at)..].starts_with(word.as_bytes()).then_some(word.len())?);
        (!NAME[usize::from(self.bytes(behind).first())]).then_some(behind)
    }

    /// The index behind the next word `procedure`, from an index on. No other word has a `p`, and in a comment there is a `#` before it in its line.
    pub fn behind_procedure(&self, from: usize) -> Option<usize> {
        let mut at = from;
        loop {
            at += found(&self.bytes[at..], b'p')?;
            let line = self.bytes[..at].iter().rposition(|byte| *byte == b'\n').map_or(0, |end| end + 1);
            if self.bytes[line..at].contains(&b'#') {
                at = self.index(self.line_end(self.place(at)));
            } else if at > 0 && NAME[usize::from(self.bytes[at - 1])] {
                at += 1;
            } else if let Some(behind) = self.behind_word(self.place(at), "procedure") {
                return Some(self.index(behind));
            } else {
                at += 1;
            }
        }
    }

    /// The code of the third token from an index on.
    pub fn third_code(&self, index: usize) -> u8 {
        let mut at = self.next(self.place(index)).0;
        for _ in 0..2 {
            if !self.ends(at) {
                at = self.next(self.behind(at)).0;
            }
        }
        self.code(at)
    }

    fn code(&self, at: Place) -> u8 {
        let (number, _) = self.bytes(at).number();
        if number != NO_NUMBER {
            return number as u8;
        }
        if self.ends(at) {
            return END;
        }
        match &self.bytes[self.index(at)..self.index(self.behind(at))] {
            [b'v', slot @ b'0'..=b'7'] => VARIABLE + slot - b'0',
            token => CODED.split(' ').position(|text| text.as_bytes() == token).map_or(UNKNOWN, |index| FIRST_CODED + index as u8),
        }
    }

    /// The place of the token that is one too many, if there is one.
    #[cold]
    pub fn one_too_many(&self) -> Option<Place> {
        let mut at = self.next(self.start()).0;
        for _ in 0..MOST_TOKENS {
            if self.ends(at) {
                return None;
            }
            at = self.next(self.behind(at)).0;
        }
        Some(at)
    }

    /// The line and the column of a place, from 1.
    #[cold]
    pub fn line_and_column(&self, at: Place) -> (usize, usize) {
        let before = &self.bytes[..self.index(at)];
        let line = before.iter().rposition(|byte| *byte == b'\n').map_or(0, |end| end + 1);
        (before.iter().filter(|byte| **byte == b'\n').count() + 1, before.len() - line + 1)
    }
}

/// The index of the first such byte, looked for in many at once.
fn found(bytes: &[u8], byte: u8) -> Option<usize> {
    const MANY: usize = 64;
    let many = bytes.chunks(MANY).position(|chunk| chunk.contains(&byte))? * MANY;
    Some(many + bytes[many..].iter().position(|other| *other == byte)?)
}

//! What is where in a term, a row to each tag, laid out for a pass without branches.

// what a term's place asks of it: its sort, the slots that are bound there, how long a list is
pub const SLOTS: u16 = 0xff;
pub const LENGTH: u16 = 0xf00;
pub const ONE: u16 = 0x100;
pub const EXPRESSION: u16 = 0x1000;
pub const CONDITION: u16 = 0x2000;
pub const LIST: u16 = 0x4000;
pub const NOTHING: u16 = 0x8000;
pub const SORT: u16 = 0xf000;

/// Of a tag: bits that must be 0; bits of which at most eight are set; the bits of its children and of its small operand, none where there is none;
/// which small operands are wrong; what its place must ask, as far as that counts; the sorts that its children must have; and masks that take what
/// goes on to them.
#[derive(Clone, Copy)]
#[repr(C, align(128))]
pub struct Row {
    pub zero: u64,
    pub fields: u64,
    pub child: [u64; 3],
    pub small: u64,
    pub forbidden: u32,
    pub wants: [u16; 3],
    pub sort: u16,
    pub counts: u16,
    pub calls: u16,
    pub keeps: u16,
    pub one: u16,
    pub binds: u16,
    pub uses: u16,
    pub children: u16,
}

/// The sorts of a tag's children and where they stand, the same of its small operand with its width and its right values, and how many bits are used.
type Form = (&'static [(u16, u32)], (u32, u32), u32, u32);

const fn form(tag: usize) -> Form {
    const ANY: u32 = u32::MAX;
    match tag {
        1 => (&[], (31, 4), 0xff, 9),
        2 => (&[], (0, 0), ANY, 37),
        3 => (&[(EXPRESSION, 25)], (20, 5), !1, 20),
        4 => (&[(EXPRESSION, 25), (EXPRESSION, 10)], (20, 5), !1, 30),
        5 => (&[(EXPRESSION, 21), (EXPRESSION, 11)], (31, 4), 0x80ff, 29),
        6 => (&[(CONDITION, 25), (EXPRESSION, 15), (EXPRESSION, 5)], (0, 0), ANY, 35),
        7 => (&[(CONDITION, 25), (EXPRESSION, 15)], (0, 0), ANY, 25),
        8 => (&[(LIST, 20)], (30, 5), ANY, 20),
        9 | 10 | 18 | 19 | 20 => (&[(EXPRESSION, 25)], (0, 0), ANY, 15),
        11 | 15 => (&[(EXPRESSION, 25), (EXPRESSION, 15)], (0, 0), ANY, 25),
        13 => (&[(CONDITION, 25)], (0, 0), ANY, 15),
        14 => (&[(CONDITION, 25), (CONDITION, 15)], (0, 0), ANY, 25),
        16 => (&[(EXPRESSION, 25), (LIST, 15)], (0, 0), ANY, 25),
        0 | 12 | 17 => (&[], (0, 0), ANY, 5),
        _ => (&[], (0, 0), 0, 5),
    }
}

const fn sort(tag: usize) -> u16 {
    match tag {
        12..=15 => CONDITION,
        16 | 17 => LIST,
        _ => EXPRESSION,
    }
}

const fn only(tag: usize, of: usize, value: u16) -> u16 {
    if tag == of {
        value
    } else {
        0
    }
}

/// The row of a tag, as a constant: where the tag can be foretold, nothing waits for a table.
pub const fn row(tag: usize) -> Row {
    let (children, (place, width), allowed, used) = form(tag);
    let mut row = Row {
        zero: (1 << (40 - used)) - 1,
        fields: 0,
        child: [0; 3],
        small: ((1 << width) - 1) << place,
        forbidden: !allowed,
        wants: [NOTHING; 3],
        sort: sort(tag),
        counts: SORT | only(tag, 17, LENGTH),
        calls: only(tag, 8, LENGTH | NOTHING),
        keeps: if tag == 16 { u16::MAX } else { SLOTS },
        one: only(tag, 16, ONE),
        binds: only(tag, 5, SLOTS),
        uses: only(tag, 1, SLOTS),
        children: children.len() as u16,
    };
    if tag == 2 {
        row.fields = 0x7fff_ffff << 3;
        row.zero |= 1 << 34;
    }
    let mut k = 0;
    while k < children.len() {
        row.wants[k] = if tag == 16 && k == 1 { 0 } else { children[k].0 };
        row.child[k] = 1023 << children[k].1;
        k += 1;
    }
    row
}

/// A row to each tag, those of no term too.
pub struct Rows([Row; 32]);

pub static ROWS: Rows = {
    let (mut rows, mut tag) = ([row(0); 32], 0);
    while tag < 32 {
        rows[tag] = row(tag);
        tag += 1;
    }
    Rows(rows)
};

impl Rows {
    /// The row of a term's word.
    #[inline(always)]
    pub fn at(&self, word: u64) -> &Row {
        &self.0[(word >> 35) as usize & 31]
    }
}

impl std::ops::Index<usize> for Rows {
    type Output = Row;

    #[inline(always)]
    fn index(&self, tag: usize) -> &Row {
        &self.0[tag]
    }
}

/// The masked bits, side by side: of a mask without gaps.
#[inline(always)]
fn taken(word: u64, mask: u64) -> usize {
    #[cfg(target_feature = "bmi2")]
    // SAFETY: the processor has the instruction.
    return unsafe { std::arch::x86_64::_pext_u64(word, mask) as usize };
    #[cfg(not(target_feature = "bmi2"))]
    return ((word & mask) >> (mask.trailing_zeros() & 63)) as usize;
}

/// A number put where the mask's bits are: of a mask without gaps.
#[inline(always)]
fn put(number: u64, mask: u64) -> u64 {
    #[cfg(target_feature = "bmi2")]
    // SAFETY: the processor has the instruction.
    return unsafe { std::arch::x86_64::_pdep_u64(number, mask) };
    #[cfg(not(target_feature = "bmi2"))]
    return number << (mask.trailing_zeros() & 63) & mask;
}

impl Row {
    /// The word with another child of this number, if it has one.
    #[inline(always)]
    pub fn with_child(&self, word: u64, k: usize, child: u16) -> u64 {
        word & !self.child[k] | put(u64::from(child), self.child[k])
    }

    /// The child of this number in the term's word, or 0, which is no child.
    #[inline(always)]
    pub fn child(&self, word: u64, k: usize) -> usize {
        taken(word, self.child[k])
    }

    /// The slot, field or procedure, or 0.
    #[inline(always)]
    pub fn small(&self, word: u64) -> usize {
        taken(word, self.small)
    }
}

/// The same code for each tag, with its row as a constant.
macro_rules! with_row {
    ($word:expr, |$row:ident| $then:expr) => {
        with_row!($word, $row, $then, 0 1 2 3 4 5 6 7 8 9 10 11 12 13 14 15 16 17 18 19)
    };
    ($word:expr, $row:ident, $then:expr, $($tag:literal)*) => {
        match $word >> 35 & 31 {
            $($tag => {
                let $row = const { &row($tag) };
                $then
            })*
            _ => {
                let $row = const { &row(20) };
                $then
            }
        }
    };
}
pub(super) use with_row;

//! A plan's terms as nodes that a run goes by, each decoded when a run first comes to it.

use super::layout::ROWS;
use super::plan::Plan;
use std::mem::MaybeUninit;

/// What a thread's next move is.
#[derive(Clone, Copy, PartialEq, Eq)]
#[repr(u8)]
pub enum Op {
    Done,
    Start,
    Call,
    Let,
    If,
    While,
    WhileIf,
    Again,
    Not,
    And,
    Equal,
    New,
    Read,
    ReadVolatile,
    Write,
    WriteVolatile,
    Fork,
    Join,
    Synch,
    Release,
    Wait,
    Notify,
    NotifyAll,
    Awake,
}

/// What a value does that comes to a construct.
#[derive(Clone, Copy, PartialEq, Eq)]
#[repr(u8)]
pub enum Kind {
    /// It is the operand.
    Only,
    /// It is a condition's, and true makes false without a move.
    Negated,
    /// It is the first of two, and the second is a value, or is yet to be evaluated.
    FirstOfValue,
    FirstOfTerm,
    /// It is the second of two; the first is kept.
    Second,
    /// It is an argument of a call.
    Argument,
}

/// What a thread does that comes to a term.
#[derive(Clone, Copy, PartialEq, Eq)]
#[repr(u8)]
pub enum Way {
    /// The term is a value.
    Value,
    /// It moves next: without operands, with one that is a value, with two, with arguments that are values.
    Ready,
    One,
    Two,
    Call,
    /// An operand is to be evaluated: the first, the second, an argument.
    First,
    Second,
    Argument,
}

/// Where a value comes from: the slots, or a constant.
#[derive(Clone, Copy, Default)]
pub struct Source {
    shift: u8,
    mask: u8,
    constant: u8,
}

impl Source {
    #[inline(always)]
    pub fn value(self, slots: u64) -> u8 {
        (slots >> (self.shift & 63)) as u8 & self.mask | self.constant
    }
}

pub const NO_NODE: u16 = u16::MAX;

/// Of a call `slots` says where its arguments come from, of a let which slots stay; `children` of a list are its operand, the next list whose operand
/// is no value, and the call, and those of a call its first operand that is no value and that operand's list.
#[derive(Clone, Copy)]
#[repr(C, align(32))]
pub struct Node {
    pub slots: u64,
    pub fields: u32,
    pub children: [u16; 3],
    pub sources: [Source; 2],
    pub small: u8,
    pub op: Op,
    pub way: Way,
    pub kind: Kind,
    /// Bit k: child k is a value.
    pub values: u8,
}

pub struct Code<'a> {
    pub plan: Plan<'a>,
    decoded: [bool; 1024],
    nodes: [MaybeUninit<Node>; 1024],
}

fn op(tag: usize, volatile: bool) -> Op {
    match tag {
        2 => Op::New,
        3 if volatile => Op::ReadVolatile,
        3 => Op::Read,
        4 if volatile => Op::WriteVolatile,
        4 => Op::Write,
        5 => Op::Let,
        6 => Op::If,
        7 => Op::While,
        8 => Op::Call,
        9 => Op::Fork,
        10 => Op::Join,
        11 => Op::Synch,
        13 => Op::Not,
        14 => Op::And,
        15 => Op::Equal,
        18 => Op::Wait,
        19 => Op::Notify,
        20 => Op::NotifyAll,
        _ => Op::Done,
    }
}

impl<'a> Code<'a> {
    #[inline(always)]
    pub fn new(plan: Plan<'a>) -> Code<'a> {
        Code { plan, decoded: [false; 1024], nodes: [const { MaybeUninit::uninit() }; 1024] }
    }

    /// The node of a term that a run has come to.
    #[inline(always)]
    pub fn seen(&self, term: u16) -> &Node {
        // SAFETY: a run keeps the numbers of decoded terms alone.
        unsafe { self.nodes.get_unchecked(usize::from(term)).assume_init_ref() }
    }

    #[inline(always)]
    pub fn node(&mut self, term: u16) -> &Node {
        // SAFETY: terms are below the plan's count, which is at most 1,024.
        if unsafe { !*self.decoded.get_unchecked(usize::from(term)) } {
            self.decode(usize::from(term));
        }
        self.seen(term)
    }

    fn keep(&mut self, term: usize, node: Node) {
        self.nodes[term].write(node);
        self.decoded[term] = true;
    }

    /// Where the value of a term comes from, if it is one.
    fn source(&self, term: usize) -> Option<Source> {
        let word = self.plan.word(term);
        match self.plan.tag(term) {
            0 => Some(Source::default()),
            1 => Some(Source { shift: 8 * ROWS[1].small(word) as u8, mask: 255, constant: 0 }),
            12 => Some(Source { shift: 0, mask: 0, constant: 1 }),
            13 if self.plan.tag(ROWS[13].child(word, 0)) == 12 => Some(Source::default()),
            _ => None,
        }
    }

    #[cold]
    #[inline(never)]
    fn decode(&mut self, term: usize) {
        let (tag, word) = (self.plan.tag(term), self.plan.word(term));
        let row = &ROWS[tag];
        let children = [0, 1, 2].map(|k| row.child(word, k));
        let sources = [0, 1].map(|k| if k < row.children as u8 { self.source(children[usize::from(k)]) } else { None });
        let small = row.small(word);
        let volatile = self.plan.mask >> (31 - small) & 1 == 1;
        let mut node = Node {
            slots: if small < 8 { !(255 << (8 * small)) } else { !0 },
            fields: (word >> 3) as u32,
            children: children.map(|k| k as u16),
            sources: sources.map(Option::unwrap_or_default),
            small: small as u8,
            op: op(tag, volatile),
            way: Way::One,
            kind: Kind::Only,
            values: u8::from(sources[0].is_some()) | u8::from(sources[1].is_some()) << 1,
        };
        if let Some(source) = self.source(term) {
            (node.way, node.sources[0]) = (Way::Value, source);
        } else if tag == 8 {
            self.arguments(term, &mut node);
        } else {
            (node.way, node.kind) = ways(tag, node.values);
        }
        self.keep(term, node);
    }

    /// A call's node, and those of its list whose operands are no values.
    fn arguments(&mut self, call: usize, node: &mut Node) {
        let (mut list, mut pending) = (usize::from(node.children[0]), Lists::none());
        node.slots = 0x8080_8080_8080_8080;
        for place in 0.. {
            if self.plan.tag(list) == 17 {
                break;
            }
            let word = self.plan.word(list);
            let operand = ROWS[16].child(word, 0);
            match self.source(operand) {
                Some(source) if source.mask > 0 => node.slots ^= u64::from(0x80 | source.shift / 8) << (8 * place),
                Some(_) => {}
                None => pending.push((list, operand, place as u8)),
            }
            list = ROWS[16].child(word, 1);
        }
        node.way = Way::Call;
        let mut next = NO_NODE;
        for &(list, operand, place) in pending.iter().rev() {
            let children = [operand as u16, next, call as u16];
            self.keep(list, Node { children, small: place, kind: Kind::Argument, ..*node });
            next = list as u16;
            (node.way, node.children) = (Way::Argument, [operand as u16, next, 0]);
        }
    }
}

/// Of a term that is no value and no call.
fn ways(tag: usize, values: u8) -> (Way, Kind) {
    match (tag, values) {
        (2 | 7 | 9, _) => (Way::Ready, Kind::Only),
        (4 | 15, 3) => (Way::Two, Kind::Second),
        (4 | 15, 2) => (Way::First, Kind::FirstOfValue),
        (4 | 15, 1) => (Way::Second, Kind::Second),
        (4 | 15, _) => (Way::First, Kind::FirstOfTerm),
        (13, 0) => (Way::First, Kind::Negated),
        (_, 0 | 2) => (Way::First, Kind::Only),
        _ => (Way::One, Kind::Only),
    }
}

/// At most eight lists, each with its operand and place.
struct Lists {
    all: [(usize, usize, u8); 8],
    count: usize,
}

impl Lists {
    fn none() -> Lists {
        Lists { all: [(0, 0, 0); 8], count: 0 }
    }
    fn push(&mut self, list: (usize, usize, u8)) {
        self.all[self.count] = list;
        self.count += 1;
    }
    fn iter(&self) -> std::slice::Iter<'_, (usize, usize, u8)> {
        self.all[..self.count].iter()
    }
}

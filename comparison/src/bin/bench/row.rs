//! What a row measures, and the words that its input is made of.

use ramdulsi_reference::generate::Case;
use ramdulsi_reference::{CheckAnswer, Loader, OfferedAnswer, RunAnswer};

#[derive(Clone, Copy, PartialEq, Eq)]
pub enum Call {
    Check,
    Offered,
    Memory,
    Entry,
    Run,
}

/// A function that checks with an offered list.
pub type Offered = fn(&[u32], &[u32], &[u32], &[u32], &[u32]) -> OfferedAnswer;

/// Its answer as that of a run, with the choice in the place of registers.
pub fn offered(check: Offered, c: &Case) -> RunAnswer {
    let OfferedAnswer { number, first, second, asked, choice: [x, y, z] } = check(&c.types, &c.tags, &c.blocks, &c.code, &c.offered);
    RunAnswer { number, block: first, index: second, finished: u64::from(asked), registers: [x, y, z, 0, 0, 0, 0, 0] }
}

/// The answer of a call. That of a check is its number and place, and the fit questions of a routine's check in the place of the blocks
/// finished, so that sides that differ in them differ.
pub fn call<L: Loader>(which: Call, c: &Case, memory: &mut [u32]) -> RunAnswer {
    let v = match which {
        Call::Check => {
            let CheckAnswer { number, first, second, asked } = L::check(&c.types, &c.tags, &c.blocks, &c.code);
            return RunAnswer { number, block: first, index: second, finished: u64::from(asked), registers: [0; 8] };
        }
        Call::Offered => return offered(L::check_offered, c),
        Call::Memory => L::memory_check(&c.types, &c.tags, &c.allocations, memory),
        Call::Entry => L::entry_check(&c.types, &c.tags, &c.allocations, memory, &c.blocks, &c.code, c.block, c.registers),
        Call::Run => return L::run(&c.blocks, &c.code, memory, c.block, c.registers, c.budget),
    };
    RunAnswer { number: v.number, block: v.first, index: v.second, finished: 0, registers: [0; 8] }
}

/// What a row measures at one size.
pub struct Input {
    pub case: Case,
    /// how many units the time is divided by
    pub units: usize,
    /// number and place of the answer that the row intends
    pub answer: (u32, u32, u32),
}

/// How much of the plain implementation's time a row may take where it says nothing else.
const LIMIT: f64 = 1.2;

/// A call over inputs of three sizes; `make` gets 1, 2 and 4.
pub struct Row {
    pub name: String,
    pub unit: &'static str,
    pub which: Call,
    /// what the guard allows, proved to plain
    pub limit: f64,
    pub make: Box<dyn Fn(usize) -> Input>,
}

impl Row {
    pub fn new(name: &str, unit: &'static str, which: Call, make: impl Fn(usize) -> Input + 'static) -> Row {
        Row { name: name.to_string(), unit, which, limit: LIMIT, make: Box::new(make) }
    }
}

pub const fn ins(op: u32, a: u32, b: u32, c: u32) -> u32 {
    op << 24 | a << 20 | b << 16 | c
}

pub const fn ty(kind: u32, t: u32, d: u32, e: u32) -> u32 {
    kind << 24 | t << 16 | d << 8 | e
}

/// The dependency byte of a constant.
pub const fn constant(c: u32) -> u32 {
    c + 8
}

/// The nine words of a table's row.
pub fn nine(head: usize, words: &[u32]) -> Vec<u32> {
    let mut r = vec![head as u32];
    r.extend(words);
    r.resize(9, 0);
    r
}

/// Blocks that each have a body and an end, all with one annotation; `end` gets the block and whether it is the last.
pub fn routine(n: usize, annotation: &[u32], body: &[u32], end: impl Fn(usize, bool) -> u32) -> Case {
    let mut c = Case::default();
    for b in 0..n {
        c.blocks.extend(nine(body.len() + 1, annotation));
        c.code.extend(body);
        c.code.push(end(b, b + 1 == n));
    }
    c
}

/// A jump to the next block; the last halts.
pub fn onward(b: usize, last: bool) -> u32 {
    if last {
        0
    } else {
        ins(10, 0, 0, b as u32 + 1)
    }
}

/// A jump to the next block; the last leads back to the first.
pub fn around(b: usize, last: bool) -> u32 {
    ins(10, 0, 0, if last { 0 } else { b as u32 + 1 })
}

/// The body of a block of full length.
pub fn body(one: impl Fn(u32) -> u32) -> Vec<u32> {
    (0..31).map(one).collect()
}

//! Document 01 with the cards of document 02 that have landed, in plain Rust, written from the documents alone: the other side of the differential
//! tests and of the benchmark.

pub mod checks;
pub mod forms;
pub mod generate;
pub mod hunt;
pub mod machine;
pub mod protocol;
pub mod reading;
pub mod tables;

/// Number and place of the first question with a no; 0 at 0, 0 where there is none.
#[derive(Clone, Copy, Debug, PartialEq, Eq)]
pub struct Verdict {
    pub number: u32,
    pub first: u32,
    pub second: u32,
}

pub const PASSED: Verdict = Verdict { number: 0, first: 0, second: 0 };

/// A question's answer: nothing, or the verdict of its no.
pub type Asked = Result<(), Verdict>;

pub fn no<T>(number: u32, first: usize, second: usize) -> Result<T, Verdict> {
    Err(Verdict { number, first: first as u32, second: second as u32 })
}

pub fn verdict(asked: Asked) -> Verdict {
    asked.err().unwrap_or(PASSED)
}

pub use checks::{check, check_offered, entry_check, fill, memory_check, CheckAnswer, OfferedAnswer};
pub use machine::{run, RunAnswer};

/// The six calls, so that one test can be put to more than one implementation.
#[allow(clippy::too_many_arguments)]
pub trait Loader {
    fn check(types: &[u32], tags: &[u32], blocks: &[u32], code: &[u32]) -> CheckAnswer;
    fn check_offered(types: &[u32], tags: &[u32], blocks: &[u32], code: &[u32], offered: &[u32]) -> OfferedAnswer;
    fn fill(types: &[u32], tags: &[u32], blocks: &mut [u32], code: &[u32], offered: &[u32]) -> OfferedAnswer;
    fn memory_check(types: &[u32], tags: &[u32], allocations: &[u32], memory: &[u32]) -> Verdict;
    fn entry_check(
        types: &[u32],
        tags: &[u32],
        allocations: &[u32],
        memory: &[u32],
        blocks: &[u32],
        code: &[u32],
        block: u32,
        registers: [u32; 8],
    ) -> Verdict;
    fn run(blocks: &[u32], code: &[u32], memory: &mut [u32], block: u32, registers: [u32; 8], budget: u64) -> RunAnswer;
}

/// The plain implementation.
pub struct Plain;

impl Loader for Plain {
    fn check(types: &[u32], tags: &[u32], blocks: &[u32], code: &[u32]) -> CheckAnswer {
        check(types, tags, blocks, code)
    }

    fn check_offered(types: &[u32], tags: &[u32], blocks: &[u32], code: &[u32], offered: &[u32]) -> OfferedAnswer {
        check_offered(types, tags, blocks, code, offered)
    }

    fn fill(types: &[u32], tags: &[u32], blocks: &mut [u32], code: &[u32], offered: &[u32]) -> OfferedAnswer {
        fill(types, tags, blocks, code, offered)
    }

    fn memory_check(types: &[u32], tags: &[u32], allocations: &[u32], memory: &[u32]) -> Verdict {
        memory_check(types, tags, allocations, memory)
    }

    fn entry_check(
        types: &[u32],
        tags: &[u32],
        allocations: &[u32],
        memory: &[u32],
        blocks: &[u32],
        code: &[u32],
        block: u32,
        registers: [u32; 8],
    ) -> Verdict {
        entry_check(types, tags, allocations, memory, blocks, code, block, registers)
    }

    fn run(blocks: &[u32], code: &[u32], memory: &mut [u32], block: u32, registers: [u32; 8], budget: u64) -> RunAnswer {
        run(blocks, code, memory, block, registers, budget)
    }
}

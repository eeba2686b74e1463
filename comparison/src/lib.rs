//! The proved library as one of two implementations of the same six calls.

pub mod choice;
pub mod fast;

use ramdulsi as proved;
use ramdulsi_reference::{CheckAnswer, Loader, OfferedAnswer, RunAnswer, Verdict};

/// The proved library.
pub struct Proved;

fn verdict(v: proved::Verdict) -> Verdict {
    Verdict { number: v.number, first: v.first, second: v.second }
}

fn offered_answer(a: proved::OfferedAnswer) -> OfferedAnswer {
    OfferedAnswer { number: a.number, first: a.first, second: a.second, asked: a.asked, choice: a.choice }
}

impl Loader for Proved {
    fn check(types: &[u32], tags: &[u32], blocks: &[u32], code: &[u32]) -> CheckAnswer {
        let a = proved::check(types, tags, blocks, code);
        CheckAnswer { number: a.number, first: a.first, second: a.second, asked: a.asked }
    }

    fn check_offered(types: &[u32], tags: &[u32], blocks: &[u32], code: &[u32], offered: &[u32]) -> OfferedAnswer {
        offered_answer(proved::check_offered(types, tags, blocks, code, offered))
    }

    fn fill(types: &[u32], tags: &[u32], blocks: &mut [u32], code: &[u32], offered: &[u32]) -> OfferedAnswer {
        offered_answer(proved::fill(types, tags, blocks, code, offered))
    }

    fn memory_check(types: &[u32], tags: &[u32], allocations: &[u32], memory: &[u32]) -> Verdict {
        verdict(proved::memory_check(types, tags, allocations, memory))
    }

    fn entry_check(
        types: &[u32],
        tags: &[u32],
        allocations: &[u32],
        memory: &[u32],
        blocks: &[u32],
        code: &[u32],
        block: u32,
        registers: [u32; 8],
    ) -> Verdict {
        verdict(proved::entry_check(types, tags, allocations, memory, blocks, code, block, registers))
    }

    fn run(blocks: &[u32], code: &[u32], memory: &mut [u32], block: u32, registers: [u32; 8], budget: u64) -> RunAnswer {
        let a = proved::run(blocks, code, memory, block, registers, budget);
        RunAnswer { number: a.number, block: a.block, index: a.index, finished: a.finished, registers: a.registers }
    }
}

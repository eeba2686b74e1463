//! The six calls of Ramdulsi as safe functions. The code behind them is proved: each answer is the one that the definitions of
//! the specification give for the words handed in, for any lengths and contents.
//!
//! A routine that loads a plot's stage and halts, over one record type of two words:
//!
//! ```
//! use ramdulsi::word::*;
//! use ramdulsi::Answer;
//!
//! const PLOT: u32 = 0;
//! const STAGE: u32 = 0;
//! const ANY: u32 = type_any();
//! const TYPES: [u32; 9] = row_of_type(&[ANY, ANY]);
//! const BLOCKS: [u32; 9] = row_of_block(2, [ANY, type_ref(PLOT), ANY, ANY, ANY, ANY, ANY, ANY]);
//! const CODE: [u32; 2] = [code_load(2, 1, STAGE), code_halt()];
//! assert!(ramdulsi::check(&TYPES, &[], &BLOCKS, &CODE).passed());
//!
//! let mut memory = [0, 7, 9];
//! let allocations = row_of_allocation(1, PLOT);
//! assert!(ramdulsi::memory_check(&TYPES, &[], &allocations, &memory).passed());
//! let registers = [0, 1, 0, 0, 0, 0, 0, 0];
//! assert!(ramdulsi::entry_check(&TYPES, &[], &allocations, &memory, &BLOCKS, &CODE, 0, registers).passed());
//!
//! let end = ramdulsi::run(&BLOCKS, &CODE, &mut memory, 0, registers, 10);
//! assert_eq!((end.answer(), end.finished, end.registers[2]), (Some(Answer::Halted), 1, 7));
//!
//! // a load through r3, of which nothing is known
//! let refused = ramdulsi::check(&TYPES, &[], &BLOCKS, &[code_load(2, 3, STAGE), code_halt()]);
//! assert_eq!(refused.answer(), Some(Answer::Reference));
//! assert_eq!(Answer::Reference.to_string(), "reference: the base of a load or store is not known to be a reference");
//! ```
//!
//! A routine may go round for ever, and a run ends only by a halt, a refusal or its budget. Give [`run`] a budget that your time allows,
//! and go on with the block, registers and memory that it returned where it is paused.

pub mod answer;
pub mod limit;
pub mod word;

pub use answer::Answer;
pub use word::{Kind, Opcode};

/// The version of this binding, and of the archive that it comes with.
pub const VERSION: &str = env!("CARGO_PKG_VERSION");

/// The number of a run that halted, and of a check without a no.
pub const HALTED: u32 = Answer::Halted.number();
/// The number of a run that is paused at the block of its answer.
pub const PAUSED: u32 = Answer::Paused.number();

/// Number and place of the first question with a no; 0 at 0, 0 where there is none. The place, by number:
///
/// - 1: table (0 types, 1 tags, 2 blocks, 3 code), 0
/// - 2, 3: row of types, 0; 4: tag, 0
/// - 5, 6: row of blocks, 0; for 5 the block count where code is left over after the last block
/// - 32: the fourth blank block, 0; else 0, 0 for an offered list that is no whole rows or too long; else row of the list, 0
/// - 33: the lowest blank block, 0
/// - 7 to 15, 23: block, index over the whole code
/// - 16, 17: 0, 0
/// - 19: row of allocations, 0; row 0 for a list that is no whole rows or too long
/// - 20: row of allocations, field
/// - 21: register, 0
#[derive(Clone, Copy, Debug, PartialEq, Eq)]
pub struct Verdict {
    pub number: u32,
    pub first: u32,
    pub second: u32,
}

impl Verdict {
    pub const fn passed(self) -> bool {
        self.number == Answer::Passed.number()
    }

    /// What the number stands for; none for a number that no call gives.
    pub const fn answer(self) -> Option<Answer> {
        Answer::of_check(self.number)
    }
}

/// What the check of a routine returns: number and place as in a [`Verdict`], and what the check costs.
#[derive(Clone, Copy, Debug, PartialEq, Eq)]
pub struct CheckAnswer {
    pub number: u32,
    pub first: u32,
    pub second: u32,
    /// How many fit questions were put, up to the answer: one for each field of its record by every store that is not refused, eight by
    /// every edge of a jump or branch, counted whole even where one fails. A refusal has a count too; it is 0 for 1 to 6. At most 16 times
    /// the instructions examined.
    pub asked: u32,
}

impl CheckAnswer {
    pub const fn passed(self) -> bool {
        self.verdict().passed()
    }

    /// What the number stands for; none for a number that no call gives.
    pub const fn answer(self) -> Option<Answer> {
        self.verdict().answer()
    }

    /// Number and place alone, as the other checks return them.
    pub const fn verdict(self) -> Verdict {
        Verdict { number: self.number, first: self.first, second: self.second }
    }
}

/// What the check of a routine returns whose annotations may be left blank: number, place and cost as in a [`CheckAnswer`], and what was
/// chosen. The cost is that of the chosen rows alone, and 0 for 1 to 6, 32 and 33.
#[derive(Clone, Copy, Debug, PartialEq, Eq)]
pub struct OfferedAnswer {
    pub number: u32,
    pub first: u32,
    pub second: u32,
    pub asked: u32,
    /// The rows of the offered list for the lowest blank block, the next and the third, counted from 0; 0 where there is no such block, and
    /// in a refusal.
    pub choice: [u32; limit::BLANKS],
}

impl OfferedAnswer {
    pub const fn passed(self) -> bool {
        self.verdict().passed()
    }

    /// What the number stands for; none for a number that no call gives.
    pub const fn answer(self) -> Option<Answer> {
        self.verdict().answer()
    }

    /// Number and place alone, as the other checks return them.
    pub const fn verdict(self) -> Verdict {
        Verdict { number: self.number, first: self.first, second: self.second }
    }
}

/// What a run returns beside the memory that it leaves. Block and index are those of the halt, of the block to go on with where it is
/// paused, and of the instruction that is refused by 7, 8, 9 or 18; the place of 1, 5, 16 and 17 is that of a [`Verdict`].
#[derive(Clone, Copy, Debug, PartialEq, Eq)]
pub struct RunAnswer {
    pub number: u32,
    pub block: u32,
    pub index: u32,
    pub finished: u64,
    pub registers: [u32; 8],
}

impl RunAnswer {
    /// What the number stands for; none for a number that no call gives.
    pub const fn answer(self) -> Option<Answer> {
        Answer::of_run(self.number)
    }
}

mod sys {
    extern "C" {
        pub fn ramdulsi_check(
            types: *const u32,
            types_words: usize,
            tags: *const u32,
            tags_words: usize,
            blocks: *const u32,
            blocks_words: usize,
            code: *const u32,
            code_words: usize,
            verdict: *mut u32,
        ) -> u32;
        pub fn ramdulsi_check_offered(
            types: *const u32,
            types_words: usize,
            tags: *const u32,
            tags_words: usize,
            blocks: *const u32,
            blocks_words: usize,
            code: *const u32,
            code_words: usize,
            offered: *const u32,
            offered_words: usize,
            verdict: *mut u32,
            choice: *mut u32,
        ) -> u32;
        pub fn ramdulsi_fill(
            types: *const u32,
            types_words: usize,
            tags: *const u32,
            tags_words: usize,
            blocks: *mut u32,
            blocks_words: usize,
            code: *const u32,
            code_words: usize,
            offered: *const u32,
            offered_words: usize,
            verdict: *mut u32,
            choice: *mut u32,
        ) -> u32;
        pub fn ramdulsi_memory_check(
            types: *const u32,
            types_words: usize,
            tags: *const u32,
            tags_words: usize,
            allocations: *const u32,
            allocations_words: usize,
            memory: *const u32,
            memory_words: usize,
            place: *mut u32,
        ) -> u32;
        pub fn ramdulsi_entry_check(
            types: *const u32,
            types_words: usize,
            tags: *const u32,
            tags_words: usize,
            allocations: *const u32,
            allocations_words: usize,
            memory: *const u32,
            memory_words: usize,
            blocks: *const u32,
            blocks_words: usize,
            code: *const u32,
            code_words: usize,
            block: u32,
            registers: *const u32,
            place: *mut u32,
        ) -> u32;
        pub fn ramdulsi_run(
            blocks: *const u32,
            blocks_words: usize,
            code: *const u32,
            code_words: usize,
            memory: *mut u32,
            memory_words: usize,
            block: u32,
            registers: *mut u32,
            budget: u64,
            answer: *mut u32,
        ) -> u32;
    }
}

/// Whether a routine is accepted over a type and a tag table, and what it took to check it. The cost is the same on every machine, so a
/// loading queue can go by it, cheapest first:
///
/// ```
/// use ramdulsi::word::*;
///
/// const ANY: u32 = type_any();
/// let types = row_of_type(&[ANY, ANY]);
/// let block = |length| row_of_block(length, [ANY, type_ref(0), ANY, ANY, ANY, ANY, ANY, ANY]);
/// let asked = |blocks: &[[u32; 9]], code: &[u32]| ramdulsi::check(&types, &[], &blocks.concat(), code).asked;
///
/// // a store to a record of two fields asks about both; a jump asks about eight registers, and a branch does so twice
/// let stores = asked(&[block(2)], &[code_store(2, 1, 0), code_halt()]);
/// let jumps = asked(&[block(1), block(1)], &[code_jump(1), code_halt()]);
/// let branches = asked(&[block(1), block(1)], &[code_if_equal(2, 0, 1), code_halt()]);
/// assert_eq!([stores, jumps, branches], [2, 8, 16]);
/// ```
pub fn check(types: &[u32], tags: &[u32], blocks: &[u32], code: &[u32]) -> CheckAnswer {
    let mut verdict = [0; 3];
    // SAFETY: each pointer comes with its slice's length, and the call writes the three words of verdict alone.
    let number = unsafe {
        sys::ramdulsi_check(
            types.as_ptr(),
            types.len(),
            tags.as_ptr(),
            tags.len(),
            blocks.as_ptr(),
            blocks.len(),
            code.as_ptr(),
            code.len(),
            verdict.as_mut_ptr(),
        )
    };
    let [first, second, asked] = verdict;
    CheckAnswer { number, first, second, asked }
}

fn offered_answer(call: impl FnOnce(*mut u32, *mut u32) -> u32) -> OfferedAnswer {
    let (mut verdict, mut choice) = ([0; 3], [0; limit::BLANKS]);
    let number = call(verdict.as_mut_ptr(), choice.as_mut_ptr());
    let [first, second, asked] = verdict;
    OfferedAnswer { number, first, second, asked, choice }
}

/// Whether a routine is accepted with rows of an offered list for the annotations left blank, and with which: up to 3 rows of `blocks` may
/// be blank, as [`word::row_of_blank`] makes them, and `offered` is 0 to 8 rows of 8 type words, each free for several blocks. Of the
/// choices that [`check`] accepts it is the one with the first row for the lowest blank block; of those with the same, with the first for
/// the next. Where no row is blank the list is not looked at, and the answer is that of [`check`].
pub fn check_offered(types: &[u32], tags: &[u32], blocks: &[u32], code: &[u32], offered: &[u32]) -> OfferedAnswer {
    // SAFETY: each pointer comes with its slice's length, and the call writes the three words of verdict and of choice alone.
    offered_answer(|verdict, choice| unsafe {
        sys::ramdulsi_check_offered(
            types.as_ptr(),
            types.len(),
            tags.as_ptr(),
            tags.len(),
            blocks.as_ptr(),
            blocks.len(),
            code.as_ptr(),
            code.len(),
            offered.as_ptr(),
            offered.len(),
            verdict,
            choice,
        )
    })
}

/// The same as [`check_offered`], and where it passes the chosen rows are laid into the blank ones of `blocks`; where it refuses, `blocks`
/// stays as it was. Every other call takes the filled table, and refuses a blank row by 6 or does not look at it:
///
/// ```
/// use ramdulsi::word::*;
/// use ramdulsi::Answer;
///
/// const ANY: u32 = type_any();
/// const REFERS: [u32; 8] = [ANY, type_ref(0), ANY, ANY, ANY, ANY, ANY, ANY];
/// let types = row_of_type(&[ANY, ANY]);
/// let mut blocks = [row_of_block(1, REFERS), row_of_blank(2)].concat();
/// let code = [code_jump(1), code_load(2, 1, 0), code_halt()];
/// assert_eq!(ramdulsi::check(&types, &[], &blocks, &code).answer(), Some(Answer::Annotation));
///
/// // with nothing known of r1 the load is refused, so the second row it is
/// let offered = [[ANY; 8], REFERS].concat();
/// let filled = ramdulsi::fill(&types, &[], &mut blocks, &code, &offered);
/// assert_eq!((filled.answer(), filled.choice), (Some(Answer::Passed), [1, 0, 0]));
/// assert_eq!(blocks[9..], row_of_block(2, REFERS));
/// assert!(ramdulsi::check(&types, &[], &blocks, &code).passed());
/// ```
pub fn fill(types: &[u32], tags: &[u32], blocks: &mut [u32], code: &[u32], offered: &[u32]) -> OfferedAnswer {
    // SAFETY: as in `check_offered`; the call writes blocks too, which no other slice overlaps.
    offered_answer(|verdict, choice| unsafe {
        sys::ramdulsi_fill(
            types.as_ptr(),
            types.len(),
            tags.as_ptr(),
            tags.len(),
            blocks.as_mut_ptr(),
            blocks.len(),
            code.as_ptr(),
            code.len(),
            offered.as_ptr(),
            offered.len(),
            verdict,
            choice,
        )
    })
}

fn verdict(call: impl FnOnce(*mut u32) -> u32) -> Verdict {
    let mut place = [0; 2];
    let number = call(place.as_mut_ptr());
    Verdict { number, first: place[0], second: place[1] }
}

/// Whether every field of every allocated record meets its meaning.
pub fn memory_check(types: &[u32], tags: &[u32], allocations: &[u32], memory: &[u32]) -> Verdict {
    // SAFETY: each pointer comes with its slice's length, and the call writes the two words of place alone.
    verdict(|place| unsafe {
        sys::ramdulsi_memory_check(
            types.as_ptr(),
            types.len(),
            tags.as_ptr(),
            tags.len(),
            allocations.as_ptr(),
            allocations.len(),
            memory.as_ptr(),
            memory.len(),
            place,
        )
    })
}

/// Whether registers meet the annotation of a block.
#[allow(clippy::too_many_arguments)]
pub fn entry_check(
    types: &[u32],
    tags: &[u32],
    allocations: &[u32],
    memory: &[u32],
    blocks: &[u32],
    code: &[u32],
    block: u32,
    registers: [u32; 8],
) -> Verdict {
    // SAFETY: as in `memory_check`; the call reads eight words of registers.
    verdict(|place| unsafe {
        sys::ramdulsi_entry_check(
            types.as_ptr(),
            types.len(),
            tags.as_ptr(),
            tags.len(),
            allocations.as_ptr(),
            allocations.len(),
            memory.as_ptr(),
            memory.len(),
            blocks.as_ptr(),
            blocks.len(),
            code.as_ptr(),
            code.len(),
            block,
            registers.as_ptr(),
            place,
        )
    })
}

/// Runs a routine for at most a budget of blocks; memory is left as the machine leaves it. A routine that goes round for ever does so
/// for the whole budget, so a small one, and resuming, is better than `u64::MAX`.
pub fn run(blocks: &[u32], code: &[u32], memory: &mut [u32], block: u32, registers: [u32; 8], budget: u64) -> RunAnswer {
    let mut registers = registers;
    let mut answer = [0; 4];
    // SAFETY: each pointer comes with its slice's length; the call writes memory, eight words of registers and four of answer.
    let number = unsafe {
        sys::ramdulsi_run(
            blocks.as_ptr(),
            blocks.len(),
            code.as_ptr(),
            code.len(),
            memory.as_mut_ptr(),
            memory.len(),
            block,
            registers.as_mut_ptr(),
            budget,
            answer.as_mut_ptr(),
        )
    };
    RunAnswer { number, block: answer[0], index: answer[1], finished: u64::from(answer[3]) << 32 | u64::from(answer[2]), registers }
}

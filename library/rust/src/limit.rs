//! The limits of tables and rows. Lengths and places are usize, what a word of a table is held against is u32.

/// The words of a row of the type table or of the block table.
pub const ROW_WORDS: usize = 9;
/// The type words of such a row.
pub const TYPE_WORDS: usize = 8;
/// The words of a row of the allocations.
pub const ALLOCATION_WORDS: usize = 2;
/// The words of an offered row: the type words of r0 to r7.
pub const OFFERED_WORDS: usize = 8;

/// The most rows of the type table; it has one at least.
pub const TYPES: usize = 64;
/// The most tags; there may be none.
pub const TAGS: usize = 64;
/// The most blocks; there is one at least.
pub const BLOCKS: usize = 256;
/// The most instructions; there is one at least.
pub const CODE: usize = 8192;
/// The most rows of the allocations; there may be none.
pub const ALLOCATIONS: usize = 4096;
/// The most words of memory; it has one at least.
pub const MEMORY: usize = 16384;
/// The most offered rows; there may be none.
pub const OFFERED: usize = 8;
/// The most rows of the block table whose annotation may be left blank.
pub const BLANKS: usize = 3;

/// The most fields of a record; it has one at least.
pub const FIELDS: u32 = 8;
/// The most instructions of a block; it has one at least.
pub const BLOCK_LENGTH: u32 = 32;
/// The least address that a record may start at, as 0 stands for no record.
pub const FIRST_START: usize = 1;
/// The registers of the machine.
pub const REGISTERS: usize = 8;

/// Bytes of stack that a thread needs for `check`, `check_offered`, `fill` and `run`, the caller's own frames beside them.
pub const STACK: usize = 16384;
/// Bytes of stack that a thread needs for `memory_check` and `entry_check`, which keep a table of 64 KiB there.
pub const STACK_CHECKING_MEMORY: usize = 81920;

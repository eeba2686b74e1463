//! The words of the tables: type words, rows and instructions. All functions are `const`, so a routine can be a constant.
//!
//! A function that is given a part too large for its bits returns [`NO_WORD`]. It is neither a type word nor an instruction nor a
//! dependency, and `check` refuses tables that have it: a part cut off could make a word that passes, and means something else.

use crate::limit;
use std::fmt;

/// No type word, no instruction and no dependency.
pub const NO_WORD: u32 = 0xffff_ffff;

/// Each of the eight type words of a row whose annotation is left blank, for `check_offered` and `fill`. It is [`NO_WORD`]: to these two a
/// block's row with that in all eight places is one left blank, and with it in fewer is refused.
pub const BLANK_WORD: u32 = NO_WORD;

/// A dependency byte from here on is a constant, by so much more than it is; one below is a field or a register.
pub const CONSTANTS: u32 = 8;

/// Bit 31 of a type word: the field is locked. In an annotation it is refused.
pub const LOCKED: u32 = 0x8000_0000;

/// The kind of a type word, its bits 30 to 24.
#[derive(Clone, Copy, Debug, PartialEq, Eq, Hash)]
#[repr(u32)]
pub enum Kind {
    Any = 0,
    Ref = 1,
    Maybe = 2,
    Tagged = 3,
    Present = 4,
    Same = 5,
    Run = 6,
    From = 7,
    In = 8,
}

impl Kind {
    pub const ALL: [Kind; 9] =
        [Kind::Any, Kind::Ref, Kind::Maybe, Kind::Tagged, Kind::Present, Kind::Same, Kind::Run, Kind::From, Kind::In];

    /// The kind of a type word, locked or not; none where it is unknown.
    pub const fn of(word: u32) -> Option<Kind> {
        let kind = ((word & !LOCKED) >> 24) as usize;
        if kind < Kind::ALL.len() {
            Some(Kind::ALL[kind])
        } else {
            None
        }
    }

    pub const fn name(self) -> &'static str {
        match self {
            Kind::Any => "Any",
            Kind::Ref => "Ref",
            Kind::Maybe => "Maybe",
            Kind::Tagged => "Tagged",
            Kind::Present => "Present",
            Kind::Same => "Same",
            Kind::Run => "Run",
            Kind::From => "From",
            Kind::In => "In",
        }
    }
}

impl fmt::Display for Kind {
    fn fmt(&self, f: &mut fmt::Formatter<'_>) -> fmt::Result {
        f.write_str(self.name())
    }
}

/// The opcode of an instruction, its bits 31 to 24.
#[derive(Clone, Copy, Debug, PartialEq, Eq, Hash)]
#[repr(u32)]
pub enum Opcode {
    Halt = 0,
    Constant = 1,
    Copy = 2,
    Add = 3,
    Subtract = 4,
    Multiply = 5,
    Divide = 6,
    Move = 7,
    Load = 8,
    Store = 9,
    Jump = 10,
    IfEqual = 11,
    IfLess = 12,
}

impl Opcode {
    pub const ALL: [Opcode; 13] = [
        Opcode::Halt,
        Opcode::Constant,
        Opcode::Copy,
        Opcode::Add,
        Opcode::Subtract,
        Opcode::Multiply,
        Opcode::Divide,
        Opcode::Move,
        Opcode::Load,
        Opcode::Store,
        Opcode::Jump,
        Opcode::IfEqual,
        Opcode::IfLess,
    ];

    /// The opcode of an instruction; none where it is unknown.
    pub const fn of(word: u32) -> Option<Opcode> {
        let opcode = (word >> 24) as usize;
        if opcode < Opcode::ALL.len() {
            Some(Opcode::ALL[opcode])
        } else {
            None
        }
    }

    pub const fn name(self) -> &'static str {
        match self {
            Opcode::Halt => "halt",
            Opcode::Constant => "constant",
            Opcode::Copy => "copy",
            Opcode::Add => "add",
            Opcode::Subtract => "subtract",
            Opcode::Multiply => "multiply",
            Opcode::Divide => "divide",
            Opcode::Move => "move",
            Opcode::Load => "load",
            Opcode::Store => "store",
            Opcode::Jump => "jump",
            Opcode::IfEqual => "if equal",
            Opcode::IfLess => "if less",
        }
    }
}

impl fmt::Display for Opcode {
    fn fmt(&self, f: &mut fmt::Formatter<'_>) -> fmt::Result {
        f.write_str(self.name())
    }
}

// ---- what a type depends on

const fn below(limit: u32, part: u32) -> u32 {
    if part < limit {
        part
    } else {
        NO_WORD
    }
}

/// A field of the same record, in a record type.
pub const fn of_field(field: u32) -> u32 {
    below(limit::FIELDS, field)
}

/// A register, in an annotation.
pub const fn of_register(register: u32) -> u32 {
    below(limit::REGISTERS as u32, register)
}

/// A constant, 0 to 247.
pub const fn of_constant(constant: u32) -> u32 {
    if constant <= 255 - CONSTANTS {
        constant + CONSTANTS
    } else {
        NO_WORD
    }
}

// ---- type words

/// A type word of its parts: kind in bits 30 to 24, record type in 23 to 16, dependency d in 15 to 8, dependency e in 7 to 0.
pub const fn type_word(kind: Kind, record: u32, d: u32, e: u32) -> u32 {
    if record > 255 || d > 255 || e > 255 {
        return NO_WORD;
    }
    (kind as u32) << 24 | record << 16 | d << 8 | e
}

/// Every word.
pub const fn type_any() -> u32 {
    type_word(Kind::Any, 0, 0, 0)
}

/// The start of a record of the type.
pub const fn type_ref(record: u32) -> u32 {
    type_word(Kind::Ref, record, 0, 0)
}

/// That, or 0.
pub const fn type_maybe(record: u32) -> u32 {
    type_word(Kind::Maybe, record, 0, 0)
}

/// 0, or the start of a record of the type that tag d stands for.
pub const fn type_tagged(d: u32) -> u32 {
    type_word(Kind::Tagged, 0, d, 0)
}

/// That, and not 0.
pub const fn type_present(d: u32) -> u32 {
    type_word(Kind::Present, 0, d, 0)
}

/// The word that d is.
pub const fn type_same(d: u32) -> u32 {
    type_word(Kind::Same, 0, d, 0)
}

/// Whole records away from d, where records of the type lie one after the other from d up to e, one at least; it may be outside them.
pub const fn type_run(record: u32, d: u32, e: u32) -> u32 {
    type_word(Kind::Run, record, d, e)
}

/// That, and not below d.
pub const fn type_from(record: u32, d: u32, e: u32) -> u32 {
    type_word(Kind::From, record, d, e)
}

/// That, and below e: the start of one of these records.
pub const fn type_in(record: u32, d: u32, e: u32) -> u32 {
    type_word(Kind::In, record, d, e)
}

/// The same type, of a field that is locked: routines load it, and one that stores to it is refused.
pub const fn type_locked(word: u32) -> u32 {
    word | LOCKED
}

// ---- rows

/// A row of the type table: the field count and the type words of the fields, then zeros. More than 8 fields are not in it; their
/// count is, for the check to refuse.
pub const fn row_of_type(fields: &[u32]) -> [u32; limit::ROW_WORDS] {
    let mut row = [0; limit::ROW_WORDS];
    row[0] = if fields.len() > u32::MAX as usize { u32::MAX } else { fields.len() as u32 };
    let mut k = 0;
    while fields.len() <= limit::TYPE_WORDS && k < fields.len() {
        row[1 + k] = fields[k];
        k += 1;
    }
    row
}

/// A row of the block table: the number of instructions, 1 to 32, and the type words of r0 to r7.
pub const fn row_of_block(length: u32, registers: [u32; limit::REGISTERS]) -> [u32; limit::ROW_WORDS] {
    let [r0, r1, r2, r3, r4, r5, r6, r7] = registers;
    [length, r0, r1, r2, r3, r4, r5, r6, r7]
}

/// A row of the block table whose annotation is left blank: the number of instructions, 1 to 32, and eight blank words.
pub const fn row_of_blank(length: u32) -> [u32; limit::ROW_WORDS] {
    row_of_block(length, [BLANK_WORD; limit::REGISTERS])
}

/// A row of the allocations: the address of the record's first word, and its type.
pub const fn row_of_allocation(start: u32, record: u32) -> [u32; limit::ALLOCATION_WORDS] {
    [start, record]
}

// ---- instructions

/// An instruction of its parts: opcode, a in bits 23 to 20, b in 19 to 16, c in 15 to 0; a and b are registers, and 0 where not used.
pub const fn code_word(opcode: Opcode, a: u32, b: u32, c: u32) -> u32 {
    if a > 7 || b > 7 || c > 65535 {
        return NO_WORD;
    }
    (opcode as u32) << 24 | a << 20 | b << 16 | c
}

/// The routine's end.
pub const fn code_halt() -> u32 {
    code_word(Opcode::Halt, 0, 0, 0)
}

/// ra := c, 0 to 65,535.
pub const fn code_constant(a: u32, c: u32) -> u32 {
    code_word(Opcode::Constant, a, 0, c)
}

/// ra := rb.
pub const fn code_copy(a: u32, b: u32) -> u32 {
    code_word(Opcode::Copy, a, b, 0)
}

/// ra := rb + rc, modulo 2^32 as all arithmetic; c is a register here and in the next two.
pub const fn code_add(a: u32, b: u32, c: u32) -> u32 {
    code_word(Opcode::Add, a, b, of_register(c))
}

/// ra := rb - rc.
pub const fn code_subtract(a: u32, b: u32, c: u32) -> u32 {
    code_word(Opcode::Subtract, a, b, of_register(c))
}

/// ra := rb * rc.
pub const fn code_multiply(a: u32, b: u32, c: u32) -> u32 {
    code_word(Opcode::Multiply, a, b, of_register(c))
}

/// ra := rb / c, c a constant, 1 to 65,535; no word for 0.
pub const fn code_divide(a: u32, b: u32, c: u32) -> u32 {
    if c == 0 {
        return NO_WORD;
    }
    code_word(Opcode::Divide, a, b, c)
}

/// ra := rb + c, c a constant, -32,768 to 32,767.
pub const fn code_move(a: u32, b: u32, c: i32) -> u32 {
    if c < -32768 || c > 32767 {
        return NO_WORD;
    }
    code_word(Opcode::Move, a, b, c as u32 & 65535)
}

/// ra := field c of the record that rb starts.
pub const fn code_load(a: u32, b: u32, c: u32) -> u32 {
    code_word(Opcode::Load, a, b, c)
}

/// Field c of the record that rb starts := ra.
pub const fn code_store(a: u32, b: u32, c: u32) -> u32 {
    code_word(Opcode::Store, a, b, c)
}

/// On to the block.
pub const fn code_jump(block: u32) -> u32 {
    code_word(Opcode::Jump, 0, 0, block)
}

/// Where ra is the constant, 0 to 255, on to the block, else to the next one.
pub const fn code_if_equal(a: u32, constant: u32, block: u32) -> u32 {
    if constant > 255 || block > 255 {
        return NO_WORD;
    }
    code_word(Opcode::IfEqual, a, 0, constant << 8 | block)
}

/// Where ra < rb, unsigned, on to the block, else to the next one.
pub const fn code_if_less(a: u32, b: u32, block: u32) -> u32 {
    code_word(Opcode::IfLess, a, b, block)
}

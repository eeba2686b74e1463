//! The answers: what the number of a verdict or of a run stands for.

use std::fmt;

/// What a call answers. 0 has two: a check that passed, and a run that halted. Later versions may have more answers.
#[derive(Clone, Copy, Debug, PartialEq, Eq, Hash)]
#[non_exhaustive]
pub enum Answer {
    Passed,
    Halted,
    TableLength,
    FieldCount,
    FieldType,
    Tag,
    BlockLength,
    Annotation,
    Instruction,
    BlockEnd,
    Target,
    Reference,
    Offset,
    OtherRecord,
    OpenRecord,
    TakenEdge,
    UntakenEdge,
    StartBlock,
    MemoryLength,
    Address,
    Allocation,
    Field,
    Register,
    LockedField,
    OfferedRows,
    NoChoice,
    Paused,
}

struct Row {
    answer: Answer,
    number: u32,
    name: &'static str,
    meaning: &'static str,
}

const fn row(answer: Answer, number: u32, name: &'static str, meaning: &'static str) -> Row {
    Row { answer, number, name, meaning }
}

// In the order of the enum, so that an answer is the place of its row. A test holds name and meaning against docs/REFUSALS.md.
const ROWS: [Row; 27] = [
    row(Answer::Passed, 0, "passed", "no question of the check has a no"),
    row(Answer::Halted, 0, "halted", "the run carried out a halt"),
    row(
        Answer::TableLength,
        1,
        "table length",
        "a table is not whole rows, or too short or too long: types are 1 to 64 rows of 9 words, tags 0 to 64 words, blocks 1 to \
         256 rows of 9 words, code 1 to 8,192 words",
    ),
    row(Answer::FieldCount, 2, "field count", "a record type has no field, or more than 8"),
    row(
        Answer::FieldType,
        3,
        "field type",
        "a field's type word has an unknown kind, a record type that is not in the table, a dependency that is no field of the \
         record, or something in a part that its kind does not use; or a word past the last field is not 0",
    ),
    row(Answer::Tag, 4, "tag", "a tag stands for a record type that is not in the table"),
    row(
        Answer::BlockLength,
        5,
        "block length",
        "a block is not 1 to 32 instructions long, or ends past the code; or code is left over after the last block, and the row is \
         the block count",
    ),
    row(
        Answer::Annotation,
        6,
        "annotation",
        "a type word of a block's annotation has an unknown kind, a record type that is not in the table, or something in a part \
         that its kind does not use; or it has the mark of a locked field",
    ),
    row(
        Answer::Instruction,
        7,
        "instruction",
        "the opcode is unknown, a part that it does not use is not 0, a register is not 0 to 7, or a divisor is 0",
    ),
    row(Answer::BlockEnd, 8, "block end", "a halt, jump or branch stands inside a block, or a block's last instruction is none of them"),
    row(Answer::Target, 9, "target", "the block that a jump or branch goes to does not exist, or the block after a branch does not"),
    row(Answer::Reference, 10, "reference", "the base of a load or store is not known to be a reference"),
    row(Answer::Offset, 11, "offset", "the offset of a load or store is not below the record's size"),
    row(
        Answer::OtherRecord,
        12,
        "other record",
        "a record is half written, and the base of a load or store is not the very value that it was opened through",
    ),
    row(Answer::OpenRecord, 13, "open record", "a record is half written at a block's end"),
    row(
        Answer::TakenEdge,
        14,
        "taken edge",
        "the registers are not known to meet the annotation of the block that a jump or a taken branch goes to",
    ),
    row(
        Answer::UntakenEdge,
        15,
        "untaken edge",
        "the registers are not known to meet the annotation of the block after a branch that is not taken",
    ),
    row(Answer::StartBlock, 16, "start block", "the block to start at does not exist"),
    row(Answer::MemoryLength, 17, "memory length", "memory is not 1 to 16,384 words long"),
    row(Answer::Address, 18, "address", "a load or store of a run goes past memory"),
    row(
        Answer::Allocation,
        19,
        "allocation",
        "the list is not whole rows of 2 words, or is longer than 4,096 rows; or a record has a type that is not in the table, \
         starts at 0 or before the end of the record before it, or ends past memory",
    ),
    row(Answer::Field, 20, "field", "a word of a record does not meet its field's type"),
    row(Answer::Register, 21, "register", "a register does not meet the annotation of the block to start at"),
    row(Answer::LockedField, 23, "locked field", "a store goes to a field that is locked: routines load it, and none may write it"),
    row(
        Answer::OfferedRows,
        32,
        "offered rows",
        "more than 3 annotations are left blank; or some are, and the offered list is not 0 to 8 whole rows of 8 words, or a row of it \
         has a type word that an annotation may not have",
    ),
    row(
        Answer::NoChoice,
        33,
        "no choice",
        "no choice of offered rows for the annotations that are left blank makes the check accept the routine",
    ),
    row(Answer::Paused, 40, "paused", "the budget of blocks is finished, and the routine has not halted"),
];

impl Answer {
    /// Every answer, in the order of the numbers.
    pub const ALL: [Answer; ROWS.len()] = {
        let mut all = [Answer::Passed; ROWS.len()];
        let mut k = 0;
        while k < all.len() {
            all[k] = ROWS[k].answer;
            k += 1;
        }
        all
    };

    pub const fn number(self) -> u32 {
        ROWS[self as usize].number
    }

    pub const fn name(self) -> &'static str {
        ROWS[self as usize].name
    }

    pub const fn meaning(self) -> &'static str {
        ROWS[self as usize].meaning
    }

    /// The answer that a check gives by a number; none for a number that no call gives.
    pub const fn of_check(number: u32) -> Option<Answer> {
        let mut k = 0;
        while k < ROWS.len() {
            if ROWS[k].number == number {
                return Some(ROWS[k].answer);
            }
            k += 1;
        }
        None
    }

    /// The answer that a run gives by a number: the check's, but for 0.
    pub const fn of_run(number: u32) -> Option<Answer> {
        match Answer::of_check(number) {
            Some(Answer::Passed) => Some(Answer::Halted),
            other => other,
        }
    }
}

/// Name and meaning, as in docs/REFUSALS.md.
impl fmt::Display for Answer {
    fn fmt(&self, f: &mut fmt::Formatter<'_>) -> fmt::Result {
        write!(f, "{}: {}", self.name(), self.meaning())
    }
}

//! The names and words of the binding, held against docs/REFUSALS.md, the C header and the words written by hand for it.

use ramdulsi::word::*;
use ramdulsi::{limit, Answer, Kind, Opcode};

const REFUSALS: &str = include_str!("../../../docs/REFUSALS.md");
const HEADER: &str = include_str!("../../include/ramdulsi.h");
const WORDS: &str = include_str!("../../c/words.out");

/// The constants of the header whose names begin so, as name and number; the beginning is left out.
fn defined(prefix: &str) -> Vec<(String, u64)> {
    let line = format!("#define RAMDULSI_{prefix}");
    let constants = HEADER.lines().filter_map(|l| l.strip_prefix(&line)).filter_map(|l| l.split_once(' '));
    constants.map(|(name, value)| (name.to_string(), value.trim_end_matches('u').parse().expect("a number"))).collect()
}

/// A name in words as the header writes it.
fn constant(name: &str) -> String {
    name.to_uppercase().replace(' ', "_")
}

#[test]
fn answers_are_those_of_the_document() {
    let rows = REFUSALS.lines().filter_map(|line| {
        let mut cells = line.strip_prefix("| ")?.split(" | ");
        let number: u32 = cells.next()?.parse().ok()?;
        Some((number, format!("{}: {}", cells.next()?, cells.next()?)))
    });
    let known = Answer::ALL.map(|answer| (answer.number(), answer.to_string()));
    assert_eq!(rows.collect::<Vec<_>>(), known);
}

#[test]
fn numbers_are_those_of_the_header() {
    let answers = Answer::ALL.map(|answer| (constant(answer.name()), u64::from(answer.number())));
    assert_eq!(defined("ANSWER_"), answers);
    let kinds = Kind::ALL.map(|kind| (constant(kind.name()), kind as u64));
    assert_eq!(defined("KIND_")[..9], kinds);
    let others = [("CONSTANTS", CONSTANTS), ("LOCKED", LOCKED)];
    assert_eq!(defined("KIND_")[9..], others.map(|(name, value)| (name.to_string(), u64::from(value))));
    let opcodes = Opcode::ALL.map(|opcode| (constant(opcode.name()), opcode as u64));
    assert_eq!(defined("OPCODE_"), opcodes);
    let stack = [("", limit::STACK), ("_CHECKING_MEMORY", limit::STACK_CHECKING_MEMORY)];
    assert_eq!(defined("STACK"), stack.map(|(name, bytes)| (name.to_string(), bytes as u64)));
    assert!(HEADER.contains(&format!("#define RAMDULSI_VERSION \"{}\"", ramdulsi::VERSION)));
    assert!(HEADER.contains(&format!("#define RAMDULSI_NO_WORD {NO_WORD:#x}u")));
    assert!(HEADER.contains(&format!("#define RAMDULSI_BLANK_WORD {BLANK_WORD}u")));
}

#[test]
fn limits_are_those_of_the_header() {
    let limits = [
        ("ROW_WORDS", limit::ROW_WORDS),
        ("TYPE_WORDS", limit::TYPE_WORDS),
        ("ALLOCATION_WORDS", limit::ALLOCATION_WORDS),
        ("OFFERED_WORDS", limit::OFFERED_WORDS),
        ("TYPES", limit::TYPES),
        ("TAGS", limit::TAGS),
        ("BLOCKS", limit::BLOCKS),
        ("CODE", limit::CODE),
        ("ALLOCATIONS", limit::ALLOCATIONS),
        ("MEMORY", limit::MEMORY),
        ("OFFERED", limit::OFFERED),
        ("BLANKS", limit::BLANKS),
        ("FIELDS", limit::FIELDS as usize),
        ("BLOCK_LENGTH", limit::BLOCK_LENGTH as usize),
        ("FIRST_START", limit::FIRST_START),
        ("REGISTERS", limit::REGISTERS),
    ];
    assert_eq!(defined("LIMIT_"), limits.map(|(name, value)| (name.to_string(), value as u64)));
}

#[test]
fn an_answer_is_found_by_its_number() {
    for answer in Answer::ALL {
        let of_check = if answer == Answer::Halted { Answer::Passed } else { answer };
        let of_run = if answer == Answer::Passed { Answer::Halted } else { answer };
        assert_eq!(Answer::of_check(answer.number()), Some(of_check));
        assert_eq!(Answer::of_run(answer.number()), Some(of_run));
    }
    assert_eq!((Answer::of_check(22), Answer::of_run(41)), (None, None));
}

/// Each call as it is written, with its word.
macro_rules! shown {
    ($($call:expr),* $(,)?) => { [$((stringify!($call), $call)),*] };
}

/// The words of the calls that C and Rust write alike. Kind and opcode are numbers in C alone, so the two functions that take them are not
/// here; neither is the number of blocks finished, which is one number in Rust.
#[rustfmt::skip]
fn words() -> Vec<(&'static str, u32)> {
    let types = shown![
        of_field(0), of_field(7), of_field(8), of_register(7), of_register(8), of_constant(0), of_constant(247), of_constant(248),
        of_constant(0xffffffff), type_any(), type_ref(2), type_maybe(63), type_tagged(of_field(1)), type_tagged(of_constant(248)),
        type_present(of_register(2)), type_same(of_constant(1)), type_run(2, of_register(3), of_register(4)),
        type_from(2, of_constant(1), of_constant(7)), type_in(2, of_register(5), of_register(8)),
        type_in(2, of_register(5), of_register(6)), type_locked(type_any()), type_locked(type_tagged(of_field(1))),
        type_locked(type_ref(256)),
    ];
    let code = shown![
        code_constant(1, 65535), code_copy(2, 3), code_add(1, 2, 3), code_add(1, 2, 8), code_subtract(4, 5, 6),
        code_subtract(4, 5, 8), code_multiply(7, 0, 1), code_multiply(7, 0, 8), code_divide(5, 5, 86), code_divide(5, 5, 0),
        code_move(1, 2, 3), code_move(1, 2, -1), code_move(1, 2, -32768), code_move(1, 2, 32767), code_move(1, 2, -32769),
        code_move(1, 2, 32768), code_load(2, 1, 0), code_store(7, 1, 1), code_jump(255), code_if_equal(3, 1, 2),
        code_if_equal(3, 256, 2), code_if_equal(3, 1, 256), code_if_less(3, 4, 255), code_halt(),
    ];
    [&types[..], &code[..]].concat()
}

#[test]
fn words_are_those_written_by_hand() {
    let by_hand = WORDS.replace("ramdulsi_", "");
    let differs = |call: &str| ["type(", "code(", "finished("].iter().any(|start| call.starts_with(start));
    // a row and a name have no word before them
    let worded = |line: &&str| !line.starts_with("row_") && !line.starts_with("name_of_");
    let lines = by_hand.lines().filter(worded).map(|line| line.split_once(' ').expect("word and call"));
    let by_hand: Vec<_> = lines.filter(|(_, call)| !differs(call)).collect();
    let made: Vec<_> = words().into_iter().map(|(call, word)| (format!("{word:08x}"), call)).collect();
    assert_eq!(by_hand, made.iter().map(|(word, call)| (word.as_str(), *call)).collect::<Vec<_>>());
}

#[test]
fn words_of_parts() {
    assert_eq!(type_word(Kind::In, 63, 1, 255), 0x083f01ff);
    for (record, d, e) in [(256, 0, 0), (0, 256, 0), (0, 0, 256)] {
        assert_eq!(type_word(Kind::In, record, d, e), NO_WORD);
    }
    assert_eq!(code_word(Opcode::IfLess, 7, 6, 65535), 0x0c76ffff);
    for (a, b, c) in [(8, 0, 0), (0, 8, 0), (0, 0, 65536)] {
        assert_eq!(code_word(Opcode::Load, a, b, c), NO_WORD);
    }
    assert_eq!((Kind::of(0x083f01ff), Kind::of(0x09000000), Kind::of(NO_WORD)), (Some(Kind::In), None, None));
    assert_eq!((Opcode::of(0x0c76ffff), Opcode::of(0x0d000000), Opcode::of(NO_WORD)), (Some(Opcode::IfLess), None, None));
}

#[test]
fn rows() {
    let eight = [1, 2, 3, 4, 5, 6, 7, 8];
    assert_eq!(row_of_type(&eight[..2]), [2, 1, 2, 0, 0, 0, 0, 0, 0]);
    assert_eq!(row_of_type(&eight), [8, 1, 2, 3, 4, 5, 6, 7, 8]);
    assert_eq!(row_of_type(&[1; 9]), [9, 0, 0, 0, 0, 0, 0, 0, 0]);
    assert_eq!(row_of_block(32, eight), [32, 1, 2, 3, 4, 5, 6, 7, 8]);
    assert_eq!(row_of_blank(31), row_of_block(31, [u32::MAX; 8]));
    assert_eq!(row_of_allocation(16383, 63), [16383, 63]);
}

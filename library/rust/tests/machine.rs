//! The words that the binding makes, as the archive reads them: an instruction of each opcode carried out, a type of each kind checked, what
//! checks cost, and what they choose.

use ramdulsi::word::*;
use ramdulsi::{check, check_offered, entry_check, fill, memory_check, run, Answer, Kind};

const ANY: u32 = type_any();
const NOTHING: [u32; 8] = [ANY; 8];
const TYPES: [u32; 9] = row_of_type(&[ANY]);

/// Registers and memory after a run that halts at the end of its second block.
fn carried_out(code: &[u32], first: u32, memory: &mut [u32]) -> [u32; 8] {
    let second = code.len() as u32 - first;
    let blocks = [row_of_block(first, NOTHING), row_of_block(second, NOTHING)].concat();
    let end = run(&blocks, code, memory, 0, [0, 1, 2, 3, 4, 5, 6, 7], 10);
    assert_eq!((end.answer(), end.block, end.index as usize, end.finished), (Some(Answer::Halted), 1, code.len() - 1, 2));
    end.registers
}

#[test]
fn arithmetic() {
    let code = [
        code_constant(0, 8600),
        code_copy(1, 0),
        code_constant(2, 78),
        code_add(3, 0, 2),
        code_subtract(4, 2, 0),
        code_multiply(5, 1, 2),
        code_divide(6, 5, 86),
        code_move(7, 2, -79),
        code_jump(1),
        code_halt(),
    ];
    let registers = carried_out(&code, 9, &mut [0]);
    assert_eq!(registers, [8600, 8600, 78, 8678, 78u32.wrapping_sub(8600), 670_800, 7800, u32::MAX]);
}

#[test]
fn memory_and_branches() {
    let mut memory = [0, 10, 20, 30];
    let registers = carried_out(&[code_load(7, 1, 1), code_if_equal(7, 20, 1), code_store(7, 2, 1), code_halt()], 2, &mut memory);
    assert_eq!((registers[7], memory), (20, [0, 10, 20, 20]));
    carried_out(&[code_if_less(1, 2, 1), code_halt()], 1, &mut memory);
}

/// Two records of two words each, at 1 and 3; each kind with a word that is of that type, and one that is not. A span starts at the second
/// record, so that a word before it tells Run from From.
#[test]
fn kinds() {
    let types = row_of_type(&[ANY, ANY]);
    let allocations = [row_of_allocation(1, 0), row_of_allocation(3, 0)].concat();
    let (start, end) = (of_constant(3), of_constant(5));
    let cases = [
        (type_ref(0), 3, 2),
        (type_maybe(0), 0, 2),
        (type_tagged(of_constant(0)), 0, 2),
        (type_present(of_constant(0)), 1, 0),
        (type_same(of_register(1)), 9, 8),
        (type_run(0, start, end), 1, 2),
        (type_from(0, start, end), 5, 1),
        (type_in(0, start, end), 3, 5),
    ];
    for (word, yes, no) in cases {
        let blocks = row_of_block(1, [word, ANY, ANY, ANY, ANY, ANY, ANY, ANY]);
        let code = [code_halt()];
        assert!(check(&types, &[0], &blocks, &code).passed());
        let entry = |r0| entry_check(&types, &[0], &allocations, &[0; 5], &blocks, &code, 0, [r0, 9, 0, 0, 0, 0, 0, 0]).answer();
        assert_eq!(entry(yes), Some(Answer::Passed), "{word:08x} of {yes}");
        assert_eq!(entry(no), Some(Answer::Register), "{word:08x} of {no}");
    }
}

/// A record of a locked weight and a note: the weight is loaded, and never stored; a locked word has the meaning of its kind.
#[test]
fn locked_fields() {
    let types = row_of_type(&[type_locked(type_ref(0)), ANY]);
    let blocks = row_of_block(2, [ANY, type_ref(0), ANY, ANY, ANY, ANY, ANY, ANY]);
    let answer = |code| check(&types, &[], &blocks, &[code, code_halt()]).answer();
    assert_eq!(answer(code_load(2, 1, 0)), Some(Answer::Passed));
    assert_eq!(answer(code_store(2, 1, 1)), Some(Answer::Passed));
    assert_eq!(answer(code_store(1, 1, 0)), Some(Answer::LockedField));
    assert_eq!(memory_check(&types, &[], &row_of_allocation(1, 0), &[0, 1, 0]).answer(), Some(Answer::Passed));
    assert_eq!(memory_check(&types, &[], &row_of_allocation(1, 0), &[0, 2, 0]).answer(), Some(Answer::Field));
    let annotated = row_of_block(1, [type_locked(ANY); 8]);
    assert_eq!(check(&TYPES, &[], &annotated, &[code_halt()]).answer(), Some(Answer::Annotation));
    assert_eq!((Kind::of(types[1]), Kind::of(NO_WORD)), (Some(Kind::Ref), None));
}

/// Records of each size: a store counts their fields, whether the record is whole after it or open, unless it is refused itself.
#[test]
fn costs_of_stores() {
    for n in 1..=8u32 {
        let mut last_refers = vec![ANY; n as usize];
        last_refers[n as usize - 1] = type_ref(0);
        let types = [last_refers, vec![ANY; n as usize], vec![type_locked(ANY); n as usize]].map(|fields| row_of_type(&fields)).concat();
        let cost = |code: &[u32]| {
            let blocks = row_of_block(code.len() as u32, [ANY, type_ref(0), type_ref(1), type_ref(2), ANY, ANY, ANY, ANY]);
            let checked = check(&types, &[], &blocks, code);
            (checked.answer(), checked.asked)
        };
        let (opens, closes) = (code_store(4, 1, n - 1), code_store(1, 1, n - 1));
        assert_eq!(cost(&[code_load(4, 1, 0), code_halt()]), (Some(Answer::Passed), 0));
        assert_eq!(cost(&[closes, code_halt()]), (Some(Answer::Passed), n));
        assert_eq!(cost(&[opens, closes, code_store(4, 2, 0), code_halt()]), (Some(Answer::Passed), 3 * n));
        assert_eq!(cost(&[closes, code_store(1, 4, 0), code_halt()]), (Some(Answer::Reference), n));
        assert_eq!(cost(&[closes, code_store(1, 1, n), code_halt()]), (Some(Answer::Offset), n));
        assert_eq!(cost(&[closes, code_store(1, 3, 0), code_halt()]), (Some(Answer::LockedField), n));
        assert_eq!(cost(&[opens, code_store(4, 2, 0), code_halt()]), (Some(Answer::OtherRecord), n));
        assert_eq!(cost(&[opens, code_jump(0)]), (Some(Answer::OpenRecord), n));
    }
}

/// Block 1 wants a type of r0. An edge counts eight, also one that fails; after a taken one that fails the untaken one is not asked about.
#[test]
fn costs_of_edges() {
    let cost = |wanted, code| {
        let blocks = [row_of_block(1, NOTHING), row_of_block(1, [wanted, ANY, ANY, ANY, ANY, ANY, ANY, ANY])].concat();
        let checked = check(&TYPES, &[], &blocks, &[code, code_halt()]);
        (checked.answer(), checked.asked)
    };
    let reference = type_ref(0);
    assert_eq!(cost(reference, code_halt()), (Some(Answer::Passed), 0));
    assert_eq!(cost(ANY, code_jump(1)), (Some(Answer::Passed), 8));
    assert_eq!(cost(ANY, code_if_equal(2, 0, 1)), (Some(Answer::Passed), 16));
    assert_eq!(cost(ANY, code_jump(2)), (Some(Answer::Target), 0));
    assert_eq!(cost(reference, code_jump(1)), (Some(Answer::TakenEdge), 8));
    assert_eq!(cost(reference, code_if_equal(2, 0, 1)), (Some(Answer::TakenEdge), 8));
    assert_eq!(cost(reference, code_if_less(2, 3, 0)), (Some(Answer::UntakenEdge), 16));
    assert_eq!(cost(NO_WORD, code_jump(1)), (Some(Answer::Annotation), 0));
}

/// Block 0 leads to block 1, which loads through r1 and leads to block 2, which halts; over a record type of one field.
const LEADS: [u32; 4] = [code_jump(1), code_load(2, 1, 0), code_jump(2), code_halt()];
const REFERS: [u32; 8] = [ANY, type_ref(0), ANY, ANY, ANY, ANY, ANY, ANY];

/// Number, place and cost, and the choice, for the rows given and those offered; filling answers the same.
fn chosen(rows: [[u32; 9]; 3], offered: &[[u32; 8]]) -> ([u32; 4], [u32; 3], Vec<u32>) {
    let (mut blocks, offered) = (rows.concat(), offered.concat());
    let a = check_offered(&TYPES, &[], &blocks, &LEADS, &offered);
    assert_eq!(fill(&TYPES, &[], &mut blocks, &LEADS, &offered), a);
    ([a.number, a.first, a.second, a.asked], a.choice, blocks)
}

#[test]
fn blank_rows() {
    let (first, last) = (row_of_block(1, REFERS), row_of_block(1, NOTHING));
    let (whole, blank) = ([first, row_of_block(2, REFERS), last], [first, row_of_blank(2), row_of_blank(1)]);
    // block 1 has need of the reference, block 2 of nothing, so the first row that is offered does
    let filled = [first, row_of_block(2, REFERS), row_of_block(1, NOTHING)].concat();
    assert_eq!(chosen(blank, &[NOTHING, REFERS]), ([0, 0, 0, 16], [1, 0, 0], filled));
    let filled = [first, row_of_block(2, REFERS), row_of_block(1, REFERS)].concat();
    assert_eq!(chosen(blank, &[REFERS, NOTHING]), ([0, 0, 0, 16], [0, 0, 0], filled));
    let filled = [row_of_block(1, REFERS), row_of_block(2, REFERS), row_of_block(1, NOTHING)].concat();
    let all = [row_of_blank(1), row_of_blank(2), row_of_blank(1)];
    assert_eq!(chosen(all, &[NOTHING, REFERS]), ([0, 0, 0, 16], [1, 1, 0], filled));
    // no row is blank, and the list is not looked at
    assert_eq!(chosen(whole, &[[NO_WORD; 8]]), ([0, 0, 0, 16], [0; 3], whole.concat()));
}

#[test]
fn blank_rows_refused() {
    let (first, last) = (row_of_block(1, REFERS), row_of_block(1, NOTHING));
    let blank = [first, row_of_blank(2), last];
    let refused = |offered: &[[u32; 8]]| {
        let (answer, choice, blocks) = chosen(blank, offered);
        assert_eq!((choice, blocks), ([0; 3], blank.concat()));
        answer
    };
    assert_eq!(refused(&[]), [33, 1, 0, 0]);
    assert_eq!(refused(&[NOTHING]), [33, 1, 0, 0]);
    assert_eq!(refused(&[REFERS, [NO_WORD; 8]]), [32, 1, 0, 0]);
    assert_eq!(refused(&[[type_locked(ANY); 8], REFERS]), [32, 0, 0, 0]);
    assert_eq!(refused(&[REFERS; 9]), [32, 0, 0, 0]);
    let blocks = blank.concat();
    let answer = |blocks: &[u32], code: &[u32], offered: &[u32]| check_offered(&TYPES, &[], blocks, code, offered).answer();
    assert_eq!(answer(&blocks, &LEADS, &[ANY; 7]), Some(Answer::OfferedRows));
    let four = [row_of_blank(1); 4].concat();
    assert_eq!(check_offered(&TYPES, &[], &four, &[code_halt(); 4], &[]).verdict(), ramdulsi::Verdict { number: 32, first: 3, second: 0 });
    // seven words are no blank row, and to the check without a list none is
    let mut seven = blocks.clone();
    seven[10] = ANY;
    assert_eq!(answer(&seven, &LEADS, &REFERS), Some(Answer::Annotation));
    assert_eq!(check(&TYPES, &[], &blocks, &LEADS).answer(), Some(Answer::Annotation));
    assert_eq!(answer(&blocks, &[NO_WORD; 4], &REFERS), Some(Answer::NoChoice));
}

#[test]
fn no_word_is_refused() {
    let field = row_of_type(&[NO_WORD]);
    assert_eq!(memory_check(&field, &[], &[], &[0]).answer(), Some(Answer::FieldType));
    let annotated = row_of_block(1, [NO_WORD; 8]);
    assert_eq!(check(&TYPES, &[], &annotated, &[code_halt()]).answer(), Some(Answer::Annotation));
    let plain = row_of_block(1, NOTHING);
    assert_eq!(check(&TYPES, &[], &plain, &[NO_WORD]).answer(), Some(Answer::Instruction));
    assert_eq!(run(&plain, &[NO_WORD], &mut [0], 0, [0; 8], 1).answer(), Some(Answer::Instruction));
}

//! The rows of the check with an offered list: three blank rows and eight that are offered.

use crate::row::{body, ins, nine, onward, routine, ty, Call, Input, Row};
use ramdulsi_reference::generate::Case;
use ramdulsi_reference::tables::{BLANK, OFFERED, REF};

/// Every block loads through r0, a record of type 0; r1 is a reference that no block uses.
const KNOWN: [u32; 8] = [ty(REF, 0, 0, 0), ty(REF, 1, 0, 0), 0, 0, 0, 0, 0, 0];
/// The same without the other reference.
const LESS: [u32; 8] = [ty(REF, 0, 0, 0), 0, 0, 0, 0, 0, 0, 0];

/// A routine with three annotations left blank.
fn blank(routine: Case, blanks: [usize; 3], offered: &[[u32; 8]]) -> Case {
    let mut case = Case { types: [nine(8, &[]), nine(1, &[])].concat(), offered: offered.concat(), ..routine };
    for b in blanks {
        case.blocks[b * 9 + 1..][..8].fill(BLANK);
    }
    case
}

fn loads() -> Vec<u32> {
    body(|i| ins(8, 2 + i % 5, 0, i % 8))
}

/// Blocks in a row, three of them blank and apart from each other. All that is offered is met, so the first choice is accepted.
fn apart(part: usize) -> Case {
    let n = 64 * part;
    blank(routine(n, &KNOWN, &loads(), onward), [n / 4, n / 2, 3 * n / 4], &[KNOWN; OFFERED])
}

/// Three blocks in the middle are blank, and lead to each other alone; each other block leads to one of them, the last three each to another.
/// Seven of the offered rows want the other reference, which all but the last three blocks know: so these choices are left to the end, and
/// then no choice but the last.
fn together(part: usize) -> Case {
    let n = 64 * part;
    let blanks = [n / 2, n / 2 + 1, n / 2 + 2];
    let end = |b: usize, last: bool| match b {
        _ if last || b == blanks[2] => ins(10, 0, 0, blanks[if last { 2 } else { 0 }] as u32),
        _ if b == blanks[0] => ins(12, 2, 3, blanks[2] as u32),
        _ if b == blanks[1] => ins(12, 2, 3, blanks[0] as u32),
        _ => ins(12, 2, 3, blanks[(b + 3 - n % 3) % 3] as u32),
    };
    let mut all = routine(n, &KNOWN, &loads(), end);
    for row in all.blocks.chunks_exact_mut(9).rev().take(3) {
        row[1..].copy_from_slice(&LESS);
    }
    let mut offered = [KNOWN; OFFERED];
    offered[OFFERED - 1] = LESS;
    blank(all, blanks, &offered)
}

pub fn rows() -> [Row; 3] {
    let row = |name: &str, make: fn(usize) -> Case, answer: fn(usize) -> (u32, u32, u32)| {
        Row::new(&format!("check, three blank rows and eight offered, {name}"), "instruction", Call::Offered, move |part| {
            let case = make(part);
            Input { units: case.code.len(), case, answer: answer(part) }
        })
    };
    // the last block's end is no instruction, so the fault hangs on no choice
    let none = |part: usize| {
        let mut case = together(part);
        case.code.pop();
        case.code.push(BLANK);
        case
    };
    [
        row("the first choice accepted", apart, |_| (0, 0, 0)),
        row("the last choice accepted", together, |_| (0, 0, 0)),
        row("no choice accepted", none, |part| (33, 32 * part as u32, 0)),
    ]
}

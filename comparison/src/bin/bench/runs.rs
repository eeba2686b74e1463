//! The rows of the run.

use crate::row::{around, body, ins, nine, onward, routine, Call, Input, Row};
use ramdulsi_reference::generate::{Case, Random};

const REGISTERS: [u32; 8] = [1, 2, 3, 4, 5, 6, 7, 8];

pub fn rows() -> Vec<Row> {
    let mut rows = vec![correcting()];
    rows.extend(turning());
    rows.push(jumps());
    rows.extend(mixes());
    rows.extend(alone());
    rows.push(branches());
    rows.push(Row::new("run, budget 0", "block of the table", Call::Run, |part| {
        let case = Case { memory: vec![0; 64], ..routine(64 * part, &[], &arithmetic(), onward) };
        Input { units: 64 * part, case, answer: (40, 0, 0) }
    }));
    rows
}

fn arithmetic() -> Vec<u32> {
    body(|i| ins(3 + i % 3, 2 + i % 5, 2, 3))
}

/// A loop over records of two words: load, multiply, divide, store, move on, test.
fn correcting() -> Row {
    let work = [ins(8, 2, 1, 0), ins(5, 2, 2, 4), ins(6, 2, 2, 86), ins(9, 2, 1, 1), ins(7, 1, 1, 2)];
    Row::new("run, load multiply divide store", "instruction", Call::Run, move |part| {
        let n = 2048 * part - 1;
        let mut case = routine(1, &[], &work, |_, _| ins(12, 1, 3, 0));
        case.blocks.extend(nine(1, &[]));
        case.code.push(0);
        case.memory = vec![8600; 2 + 2 * n];
        (case.registers, case.budget) = ([0, 1, 0, 1 + 2 * n as u32, 78, 0, 0, 0], u64::MAX);
        Input { units: 6 * n, case, answer: (0, 1, 6) }
    })
}

/// 1,024 blocks of 32 instructions; `case` gets a routine that comes back to block 0 within 256 blocks.
fn full_blocks(name: &str, case: impl Fn() -> Case + 'static) -> Row {
    Row::new(name, "instruction", Call::Run, move |part| {
        let budget = 256 * part as u64;
        let case = Case { memory: vec![5; 64], budget, registers: REGISTERS, ..case() };
        Input { units: 32 * budget as usize, case, answer: (40, 0, 0) }
    })
}

/// Two blocks that lead to each other.
fn turning() -> [Row; 2] {
    let copies = body(|i| ins(8 + i % 2, 2 + i % 5, 1, i % 8));
    [("run, arithmetic", arithmetic()), ("run, loads and stores", copies)]
        .map(|(name, body)| full_blocks(name, move || routine(2, &[], &body, around)))
}

fn jumps() -> Row {
    Row::new("run, jumps alone", "block", Call::Run, |part| {
        let n = 64 * part;
        let case = Case { memory: vec![0], budget: 16 * n as u64, ..routine(n, &[], &[], around) };
        Input { units: 16 * n, case, answer: (40, 0, 0) }
    })
}

/// An instruction of an opcode that ends no block. It leaves r0 and r1 alone, and r1 is the base of loads and stores.
fn drawn(r: &mut Random, op: u32) -> u32 {
    let (a, b) = (2 + r.below(6) as u32, 2 + r.below(6) as u32);
    let mut c = |n: usize| r.below(n) as u32;
    match op {
        1 => ins(1, a, 0, c(65536)),
        2 => ins(2, a, b, 0),
        3..=5 => ins(op, a, b, 2 + c(6)),
        6 => ins(6, a, b, 1 + c(50)),
        7 => ins(7, a, b, c(65536)),
        _ => ins(op, a, 1, c(32)),
    }
}

/// Full blocks, one after the other and around again, of instructions drawn from some opcodes; the same on every machine.
fn random(blocks: usize, ops: &[u32]) -> Case {
    let mut r = Random::new(1);
    let mut c = routine(blocks, &[], &body(|_| 0), around);
    for (i, w) in c.code.iter_mut().enumerate() {
        if i % 32 != 31 {
            let op = r.pick(ops);
            *w = drawn(&mut r, op);
        }
    }
    c
}

fn mixes() -> Vec<Row> {
    let all = [1, 2, 3, 4, 5, 6, 7, 8, 9];
    let plain = [1, 2, 3, 4, 5, 7];
    let mut rows = vec![];
    for (name, ops) in [("all plain opcodes", &all[..]), ("opcodes 1 2 3 4 5 7", &plain[..])] {
        for blocks in [4, 256] {
            let ops = ops.to_vec();
            rows.push(full_blocks(&format!("run, random code of {name}, {blocks} blocks"), move || random(blocks, &ops)));
        }
    }
    rows
}

fn alone() -> [Row; 5] {
    [("constant", 1), ("copy", 2), ("add", 3), ("divide", 6), ("move", 7)]
        .map(|(name, op)| full_blocks(&format!("run, {name} alone"), move || random(4, &[op])))
}

/// Two lanes of 128 blocks of two instructions. Every second block changes lanes or not by the highest bit of a product, so no
/// branch predictor knows it; the others compare the product with a byte. The last of each lane leads back to block 0.
fn branches() -> Row {
    const LANE: u32 = 128;
    Row::new("run, blocks of two, branches on data", "instruction", Call::Run, |part| {
        let product = [ins(5, 2, 2, 4)];
        let end = |b: usize, _: bool| {
            let (lane, k) = (b as u32 / LANE, b as u32 % LANE);
            let across = (1 - lane) * LANE + k + 1;
            match k {
                _ if k + 1 == LANE => ins(10, 0, 0, 0),
                _ if k % 2 == 0 => ins(12, 2, 3, across),
                _ => ins(11, 2, 0, k << 8 | across),
            }
        };
        let budget = u64::from(LANE) * 16 * part as u64;
        let registers = [0, 0, 1, 1 << 31, 2_654_435_761, 0, 0, 0];
        let case = Case { memory: vec![0], budget, registers, ..routine(2 * LANE as usize, &[], &product, end) };
        Input { units: 2 * budget as usize, case, answer: (40, 0, 0) }
    })
}

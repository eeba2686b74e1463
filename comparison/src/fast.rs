//! The run written for speed alone, in safe Rust: what the benchmark holds the proved run against beside the plain one. It answers as
//! document 01 has it for any input, and the vectors and the differential test hold it to that.
//!
//! The first time that a block is reached in a call, Q7 to Q9 are asked of each instruction as it is carried out; from then on the block is
//! known to be sound, and its words are carried out as they stand. The ends of sound blocks are kept, so that a jump waits for one load.
//! While few blocks were met, a jump table over the opcodes is fastest: the processor learns what comes next. Of many it learns nothing,
//! and each miss costs more than an instruction; then the opcodes that only compute are told apart without a branch.
//!
//! Tried besides, all in one process on an Intel Xeon: ns an instruction in the loop of a correction; in random code of all plain opcodes, 4
//! blocks; 256 blocks; and over all rows of run the geometric mean of the ratio to the plain one.
//! - this one: 1.7; 1.6; 4.5; 0.42
//! - decoded once a block to an enum, a match over it: 2.0; 1.3; 13.3; 0.51
//! - decoded once a block to a struct, a jump table over its opcode: 1.9; 1.6; 10.6; 0.54
//! - not decoded, each instruction asked each time, then a jump table: 2.3; 2.4; 10.1; 0.64
//! - not decoded, each instruction asked each time, then told apart without a branch, as the proved run has it: 2.7; 2.5; 3.7; 0.60
//! - a block asked before it is first carried out, then a jump table: 1.8; 1.8; 11.9; 0.54
//! - a block asked before it is first carried out, then no branch: 3.0; 2.0; 4.9; 0.52
//! - the last without a branch for loads and stores either, each instruction touching a word of memory: 3.2; 2.7; 7.1; 0.69

use ramdulsi_reference::generate::Case;
use ramdulsi_reference::machine::{form, parts};
use ramdulsi_reference::protocol::Answer;
use ramdulsi_reference::RunAnswer;
use std::hint::select_unpredictable as select;

/// Up to so many blocks of 32 instructions a processor foresees which opcode comes next.
const FORESEEN: usize = 16;

/// For each opcode that ends no block the bits of an instruction word that must be zero; sixteen, so that no index is out of range.
const ZERO: [u32; 16] =
    [0, 0x8f_0000, 0x88_ffff, 0x88_fff8, 0x88_fff8, 0x88_fff8, 0x88_0000, 0x88_0000, 0x88_0000, 0x88_0000, 0, 0, 0, 0, 0, 0];

/// The end of a block that was not reached yet; no opcode is so large.
const UNKNOWN: u32 = u32::MAX;

/// The run's answers to a case, with the memory that it leaves: as it is, and with any block taken for one of many, since few cases
/// have so many.
pub fn answers(c: &Case) -> [Answer; 2] {
    [run, run_foreseeing::<0>].map(|run| {
        let mut memory = c.memory.clone();
        let a = run(&c.blocks, &c.code, &mut memory, c.block, c.registers, c.budget);
        Answer::Ran(a, memory)
    })
}

pub fn run(blocks: &[u32], code: &[u32], memory: &mut [u32], block: u32, registers: [u32; 8], budget: u64) -> RunAnswer {
    run_foreseeing::<FORESEEN>(blocks, code, memory, block, registers, budget)
}

fn run_foreseeing<const FEW: usize>(
    blocks: &[u32],
    code: &[u32],
    memory: &mut [u32],
    block: u32,
    registers: [u32; 8],
    budget: u64,
) -> RunAnswer {
    let mut starts = [0u32; 257];
    if let Err((number, first)) = opening(blocks, code, memory.len(), block, &mut starts) {
        return RunAnswer { number, block: first, index: 0, finished: 0, registers };
    }
    let count = blocks.len() / 9;
    let mut ends = [UNKNOWN; 256];
    let mut met = 0;
    let mut r = registers;
    let mut b = block as usize % 256;
    let mut finished = 0;
    while finished < budget {
        let (from, to) = (starts[b] as usize, starts[b + 1] as usize);
        let stop = |number: u32, i: usize, finished: u64, registers: [u32; 8]| RunAnswer {
            number,
            block: b as u32,
            index: (from + i) as u32,
            finished,
            registers,
        };
        let body = &code[from..to - 1];
        let mut end = ends[b];
        let stopped = if end == UNKNOWN {
            met += 1;
            end = code[to - 1];
            ends[b] = end;
            first_time(body, &mut r, memory).or_else(|| no(body.len(), form(parts(end), true, b, count)))
        } else if met <= FEW {
            carried_out(body, &mut r, memory, by_table)
        } else {
            carried_out(body, &mut r, memory, by_selects)
        };
        if let Some((i, number)) = stopped {
            return stop(number, i, finished, r);
        }
        finished += 1;
        let (a, c) = ((end >> 20) as usize % 8, end % 65536);
        let (taken, target) = match end >> 24 {
            10 => (true, c),
            12 => (r[a] < r[(end >> 16) as usize % 8], c),
            11 => (r[a] == c / 256, c % 256),
            _ => return stop(0, body.len(), finished, r),
        };
        b = (if taken { target as usize } else { b + 1 }) % 256;
    }
    RunAnswer { number: 40, block: b as u32, index: starts[b], finished, registers: r }
}

/// Q1, Q5, Q16 and Q17, and where each block starts; number and first place of the first no.
fn opening(blocks: &[u32], code: &[u32], memory: usize, block: u32, starts: &mut [u32; 257]) -> Result<(), (u32, u32)> {
    if blocks.is_empty() || blocks.len() > 9 * 256 || blocks.len() % 9 != 0 {
        return Err((1, 2));
    }
    if code.is_empty() || code.len() > 8192 {
        return Err((1, 3));
    }
    let mut sum = 0;
    for (k, row) in blocks.chunks_exact(9).enumerate() {
        if !(1..=32).contains(&row[0]) || sum + row[0] > code.len() as u32 {
            return Err((5, k as u32));
        }
        sum += row[0];
        starts[k + 1] = sum;
    }
    let count = (blocks.len() / 9) as u32;
    match () {
        _ if sum as usize != code.len() => Err((5, count)),
        _ if block >= count => Err((16, 0)),
        _ if memory == 0 || memory > 16384 => Err((17, 0)),
        _ => Ok(()),
    }
}

/// A number and its offset, if it is one of a no.
fn no(i: usize, number: u32) -> Option<(usize, u32)> {
    (number != 0).then_some((i, number))
}

/// Asks and carries out the instructions before a block's end; gives the first no. Not inlined, so that the loop over blocks stays small.
#[inline(never)]
fn first_time(body: &[u32], r: &mut [u32; 8], memory: &mut [u32]) -> Option<(usize, u32)> {
    for (i, &w) in body.iter().enumerate() {
        let op = w >> 24;
        let divisor = op != 6 || w % 65536 != 0;
        if !((op.wrapping_sub(1) < 9) & (w & ZERO[op as usize % 16] == 0) & divisor) {
            return no(i, form(parts(w), false, 0, 0));
        }
        if !by_selects(w, r, memory) {
            return Some((i, 18));
        }
    }
    None
}

/// Carries out the instructions before the end of a block known to be sound; gives the first no, which is one of Q18.
#[inline(always)]
fn carried_out(
    body: &[u32],
    r: &mut [u32; 8],
    memory: &mut [u32],
    step: impl Fn(u32, &mut [u32; 8], &mut [u32]) -> bool,
) -> Option<(usize, u32)> {
    body.iter().position(|&w| !step(w, r, memory)).map(|i| (i, 18))
}

/// A well-formed instruction that ends no block, by a jump table; false if its address is outside memory.
#[inline(always)]
fn by_table(w: u32, r: &mut [u32; 8], memory: &mut [u32]) -> bool {
    let (a, c) = ((w >> 20) as usize % 8, w % 65536);
    let (x, y) = (r[(w >> 16) as usize % 8], r[c as usize % 8]);
    r[a] = match w >> 24 {
        1 => c,
        2 => x,
        3 => x.wrapping_add(y),
        4 => x.wrapping_sub(y),
        5 => x.wrapping_mul(y),
        6 => x / c.max(1),
        7 => moved(x, c),
        8 => match memory.get(x.wrapping_add(c) as usize) {
            Some(&v) => v,
            None => return false,
        },
        _ => match memory.get_mut(x.wrapping_add(c) as usize) {
            Some(v) => {
                *v = r[a];
                return true;
            }
            None => return false,
        },
    };
    true
}

/// The same with branches for opcodes 6, 8 and 9 alone.
#[inline(always)]
fn by_selects(w: u32, r: &mut [u32; 8], memory: &mut [u32]) -> bool {
    let (op, a, c) = (w >> 24, (w >> 20) as usize % 8, w % 65536);
    let (x, y) = (r[(w >> 16) as usize % 8], r[c as usize % 8]);
    if op >= 8 {
        let Some(v) = memory.get_mut(x.wrapping_add(c) as usize) else {
            return false;
        };
        // register and word are alike after a load and after a store
        *v = select(op == 8, *v, r[a]);
        r[a] = *v;
        return true;
    }
    if op == 6 {
        r[a] = x / c.max(1);
        return true;
    }
    let sum = select(op == 3, x.wrapping_add(y), x.wrapping_sub(y));
    let pair = select(op == 5, x.wrapping_mul(y), sum);
    let more = select(op == 7, moved(x, c), pair);
    let plain = select(op == 1, c, x);
    r[a] = select(op < 3, plain, more);
    true
}

/// x moved by c, which is read as a signed 16-bit number.
fn moved(x: u32, c: u32) -> u32 {
    x.wrapping_add(c as i16 as u32)
}

//! The machine: the form of an instruction (Q7 to Q9) and a run.

use crate::tables::{q1_code, q5, Routine};
use crate::{Asked, Verdict};

/// The parts of an instruction word, and the word without its opcode.
#[derive(Clone, Copy)]
pub struct Parts {
    pub op: u32,
    pub a: usize,
    pub b: usize,
    pub c: u32,
    rest: u32,
}

pub fn parts(w: u32) -> Parts {
    Parts { op: w >> 24, a: (w >> 20 & 15) as usize, b: (w >> 16 & 15) as usize, c: w & 65535, rest: w & 0xff_ffff }
}

pub fn ends_block(op: u32) -> bool {
    op == 0 || op >= 10
}

/// For each opcode the bits of an instruction word that must be zero.
const ZERO: [u32; 13] = {
    const NO_C: u32 = 0x00_ffff;
    const A: u32 = 0x80_0000;
    const B: u32 = 0x08_0000;
    const NO_B: u32 = 0x0f_0000;
    [
        0xff_ffff,
        A | NO_B,
        A | B | NO_C,
        A | B | 0xfff8,
        A | B | 0xfff8,
        A | B | 0xfff8,
        A | B,
        A | B,
        A | B,
        A | B,
        0xff_0000,
        A | NO_B,
        A | B,
    ]
};

fn well_formed(p: Parts) -> bool {
    ZERO.get(p.op as usize).is_some_and(|zero| p.rest & zero == 0) && (p.op != 6 || p.c != 0)
}

/// The number of the first no of Q7, Q8 and Q9, 0 where there is none.
pub fn form(p: Parts, last: bool, block: usize, count: usize) -> u32 {
    if !well_formed(p) {
        return 7;
    }
    if ends_block(p.op) != last {
        return 8;
    }
    let target = if p.op == 11 { p.c & 255 } else { p.c } as usize;
    let exists = match p.op {
        10 => target < count,
        11 | 12 => target < count && block + 1 < count,
        _ => true,
    };
    if exists {
        0
    } else {
        9
    }
}

#[derive(Clone, Debug, PartialEq, Eq)]
pub struct RunAnswer {
    pub number: u32,
    pub block: u32,
    pub index: u32,
    pub finished: u64,
    pub registers: [u32; 8],
}

fn opening(r: Routine, memory: usize, block: u32) -> Asked {
    q1_code(r.rows, r.code)?;
    q5(r)?;
    if block as usize >= r.count() {
        return crate::no(16, 0, 0);
    }
    q17(memory)
}

pub fn q17(length: usize) -> Asked {
    if length == 0 || length > 16384 {
        return crate::no(17, 0, 0);
    }
    Ok(())
}

fn value(p: Parts, regs: &[u32; 8]) -> u32 {
    let rb = regs[p.b & 7];
    let rc = regs[(p.c & 7) as usize];
    match p.op {
        1 => p.c,
        2 => rb,
        3 => rb.wrapping_add(rc),
        4 => rb.wrapping_sub(rc),
        5 => rb.wrapping_mul(rc),
        6 => rb / p.c,
        _ => rb.wrapping_add(p.c as u16 as i16 as i32 as u32),
    }
}

pub fn run(blocks: &[u32], code: &[u32], memory: &mut [u32], block: u32, registers: [u32; 8], budget: u64) -> RunAnswer {
    let r = Routine { rows: blocks, code };
    if let Err(Verdict { number, first, second }) = opening(r, memory.len(), block) {
        return RunAnswer { number, block: first, index: second, finished: 0, registers };
    }
    let starts = r.starts();
    let count = r.count();
    let mut regs = registers;
    let mut b = block as usize;
    let mut finished = 0u64;
    loop {
        if finished == budget {
            return RunAnswer { number: 40, block: b as u32, index: starts[b] as u32, finished, registers: regs };
        }
        let (from, to) = (starts[b], starts[b + 1]);
        for i in from..to {
            let stop = |number: u32, finished: u64, regs: [u32; 8]| RunAnswer {
                number,
                block: b as u32,
                index: i as u32,
                finished,
                registers: regs,
            };
            let p = parts(code[i]);
            let number = form(p, i + 1 == to, b, count);
            if number != 0 {
                return stop(number, finished, regs);
            }
            match p.op {
                0 => return stop(0, finished + 1, regs),
                8 | 9 => {
                    let x = regs[p.b].wrapping_add(p.c) as usize;
                    if x >= memory.len() {
                        return stop(18, finished, regs);
                    }
                    if p.op == 8 {
                        regs[p.a] = memory[x];
                    } else {
                        memory[x] = regs[p.a];
                    }
                }
                10 => b = p.c as usize,
                11 => b = if regs[p.a] == p.c >> 8 { (p.c & 255) as usize } else { b + 1 },
                12 => b = if regs[p.a] < regs[p.b] { p.c as usize } else { b + 1 },
                _ => regs[p.a] = value(p, &regs),
            }
        }
        finished += 1;
    }
}

//! Two routines as stations write them, over document 01's plots on trial: a correction for moisture and a ranking. Each walks a run of
//! plots, which begins at word 1 and whose end is in r6. Both are accepted, with memory and registers in type.

use crate::row::{constant, ins, nine, ty, Call, Input, Row};
use ramdulsi_comparison::Proved;
use ramdulsi_reference::generate::{Case, Random};
use ramdulsi_reference::tables::{FROM, IN, PRESENT, TAGGED};
use ramdulsi_reference::{Loader, Plain};

const RAW: u32 = 0;
const CORRECTED: u32 = 1;
const PLOT: u32 = 2;

/// A place in the run of plots, In it or From its start.
const fn plot(kind: u32) -> u32 {
    ty(kind, PLOT, constant(1), 6)
}

/// A place in the run of free corrected records, from r4 to r7.
const fn free(kind: u32) -> u32 {
    ty(kind, CORRECTED, 4, 7)
}

/// Blocks 0 to 3 of both routines: load stage and pointer of the plot in r0 and go to block 4 if the stage is the one wanted; move on to
/// the next plot and ask whether it is still in the run; halt. The stage is in r1, the pointer in r2, and r3 is for use.
fn walk(stage: u32, others: [u32; 8]) -> Vec<([u32; 8], Vec<u32>)> {
    let at = |kind: u32| {
        let mut all = others;
        all[0] = plot(kind);
        all
    };
    vec![
        (at(IN), vec![ins(8, 1, 0, 0), ins(8, 2, 0, 1), ins(11, 1, 0, stage << 8 | 4)]),
        (at(IN), vec![ins(7, 0, 0, 2), ins(1, 3, 0, 1), ins(12, 0, 3, 3)]),
        (at(FROM), vec![ins(12, 0, 6, 0)]),
        ([0; 8], vec![0]),
    ]
}

/// For a raw plot that has its record: weight times dry share over 86 into the next free corrected record, which is in r5, then stage and
/// pointer in one block, then the next free record.
fn correction() -> Vec<([u32; 8], Vec<u32>)> {
    let with = |pointer: u32, next: u32| [plot(IN), 0, pointer, 0, 0, next, 0, 0];
    let mut blocks = walk(RAW, with(0, free(IN)));
    blocks.extend([
        (with(ty(TAGGED, 0, constant(RAW), 0), free(IN)), vec![ins(11, 2, 0, 1)]),
        (
            with(ty(PRESENT, 0, constant(RAW), 0), free(IN)),
            vec![
                ins(8, 1, 2, 0),
                ins(8, 3, 2, 1),
                ins(1, 2, 0, 100),
                ins(4, 2, 2, 3),
                ins(5, 1, 1, 2),
                ins(6, 1, 1, 86),
                ins(9, 1, 5, 0),
                ins(1, 2, 0, CORRECTED),
                ins(9, 2, 0, 0),
                ins(9, 5, 0, 1),
                ins(7, 5, 5, 1),
                ins(12, 5, 4, 3),
            ],
        ),
        (with(0, free(FROM)), vec![ins(12, 5, 7, 1)]),
        ([0; 8], vec![0]),
    ]);
    blocks
}

/// Counts in r5 the corrected plots whose weight is at least r7, and keeps the greatest weight in r4.
fn ranking() -> Vec<([u32; 8], Vec<u32>)> {
    let with = |pointer: u32| [plot(IN), 0, pointer, 0, 0, 0, 0, 0];
    let mut blocks = walk(CORRECTED, with(0));
    blocks.extend([
        (with(ty(TAGGED, 0, constant(CORRECTED), 0)), vec![ins(11, 2, 0, 1)]),
        (with(ty(PRESENT, 0, constant(CORRECTED), 0)), vec![ins(8, 3, 2, 0), ins(12, 3, 7, 1)]),
        (with(0), vec![ins(7, 5, 5, 1), ins(12, 3, 4, 1)]),
        (with(0), vec![ins(2, 4, 3, 0), ins(10, 0, 0, 1)]),
    ]);
    blocks
}

/// n plots from word 1 on, then n free corrected records, then the records that the plots point to. Of 16 plots one has no record yet;
/// `corrected` of the others, drawn at random, are corrected.
fn trial(n: usize, corrected: usize) -> Case {
    let mut r = Random::new(1);
    let mut c = Case { types: [nine(2, &[]), nine(1, &[]), nine(2, &[0, ty(TAGGED, 0, 0, 0)])].concat(), ..Case::default() };
    (c.tags, c.memory) = (vec![RAW, CORRECTED], vec![0; 1 + 3 * n]);
    let free = 1 + 2 * n;
    c.allocations.extend((0..n).flat_map(|k| [1 + 2 * k as u32, PLOT]));
    c.allocations.extend((0..n).flat_map(|k| [(free + k) as u32, CORRECTED]));
    for k in 0..n {
        let (stage, at) = (if r.below(16) < corrected { CORRECTED } else { RAW }, c.memory.len() as u32);
        let missing = r.chance(16);
        (c.memory[1 + 2 * k], c.memory[2 + 2 * k]) = (stage, if missing { 0 } else { at });
        if !missing {
            c.allocations.extend([at, stage]);
            c.memory.push(5000 + r.below(5000) as u32);
            if stage == RAW {
                c.memory.push(12 + r.below(20) as u32);
            }
        }
    }
    c.registers = [1, 0, 0, 0, free as u32, free as u32, free as u32, (free + n) as u32];
    c.budget = u64::MAX;
    c
}

/// Copies of a routine, one after the other.
fn copies(c: &mut Case, blocks: &[([u32; 8], Vec<u32>)], times: usize) {
    for k in 0..times {
        let by = (k * blocks.len()) as u32;
        for (annotation, code) in blocks {
            c.blocks.extend(nine(code.len(), annotation));
            c.code.extend(code.iter().map(|&w| if w >> 24 >= 10 { w + by } else { w }));
        }
    }
}

fn passes<L: Loader>(c: &Case) -> bool {
    let numbers = [
        L::check(&c.types, &c.tags, &c.blocks, &c.code).number,
        L::memory_check(&c.types, &c.tags, &c.allocations, &c.memory).number,
        L::entry_check(&c.types, &c.tags, &c.allocations, &c.memory, &c.blocks, &c.code, c.block, c.registers).number,
    ];
    numbers == [0; 3]
}

/// The case, once all three checks of both libraries passed it.
fn accepted(c: Case) -> Case {
    assert!(passes::<Proved>(&c) && passes::<Plain>(&c), "a station's routine is accepted");
    c
}

fn corrected(part: usize, times: usize) -> Case {
    let mut c = trial(125 * part, 2);
    copies(&mut c, &correction(), times);
    accepted(c)
}

fn ranked(part: usize, times: usize) -> Case {
    let mut c = trial(125 * part, 14);
    (c.registers[4], c.registers[5], c.registers[7]) = (0, 0, 7500);
    copies(&mut c, &ranking(), times);
    accepted(c)
}

/// The check of as many copies as a block table has room for.
pub fn checks() -> [Row; 2] {
    [("check, a moisture correction", corrected as fn(usize, usize) -> Case), ("check, a ranking", ranked)].map(|(name, make)| {
        Row::new(name, "instruction", Call::Check, move |part| {
            let case = make(4, 8 * part);
            Input { units: case.code.len(), case, answer: (0, 0, 0) }
        })
    })
}

/// The run over 500 plots.
pub fn runs() -> [Row; 2] {
    [("run, a moisture correction", corrected as fn(usize, usize) -> Case), ("run, a ranking", ranked)].map(|(name, make)| {
        Row::new(name, "plot", Call::Run, move |part| {
            let case = make(part, 1);
            Input { units: 125 * part, case, answer: (0, 3, 7) }
        })
    })
}

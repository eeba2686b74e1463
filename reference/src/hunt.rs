//! A hunt for a broken promise: accepted routines take turns over one memory that passed its check, and both checks are asked again
//! after every turn, mostly of one block. Some of the routines had annotations left blank, and take turns with the rows that were chosen.
//! What a routine's check costs is looked at whether it accepts or refuses, and so is what it chooses.

use crate::generate::{another, case, change, leave_blank, random, Case, Random};
use crate::protocol::line;
use crate::tables::{Routine, Types};
use crate::{CheckAnswer, Loader, OfferedAnswer};
use std::fmt::Write;
use std::ops::RangeInclusive;

/// What a hunt has seen.
#[derive(Clone, Copy, Default)]
pub struct Seen {
    /// routines accepted, with memory and registers that passed
    pub routines: u64,
    pub turns: u64,
    /// memories that the routines changed
    pub changed: u64,
    /// locked words in these memories
    pub locked: u64,
    /// fit questions that checks put, also those that refused
    pub asked: u64,
    /// routines whose blank annotations were filled
    pub filled: u64,
}

/// Whether c's registers meet its block's annotation over a memory.
fn entered<L: Loader>(c: &Case, memory: &[u32]) -> bool {
    L::entry_check(&c.types, &c.tags, &c.allocations, memory, &c.blocks, &c.code, c.block, c.registers).number == 0
}

fn fits<L: Loader>(c: &Case, memory: &[u32]) -> bool {
    L::memory_check(&c.types, &c.tags, &c.allocations, memory).number == 0
}

/// The memory with each word inside a record replaced by 0.
fn outside(c: &Case, memory: &[u32]) -> Vec<u32> {
    let mut rest = memory.to_vec();
    for row in c.allocations.chunks_exact(2) {
        let (start, n) = (row[0] as usize, c.types[row[1] as usize * 9] as usize);
        rest[start..start + n].fill(0);
    }
    rest
}

/// The words of locked fields.
fn locked(c: &Case, memory: &[u32]) -> Vec<u32> {
    let types = Types { rows: &c.types, tags: &c.tags };
    let rows = c.allocations.chunks_exact(2).map(|row| (row[0] as usize, row[1] as usize));
    rows.flat_map(|(start, t)| (0..types.size(t)).filter(move |&f| types.locked(t, f)).map(move |f| memory[start + f])).collect()
}

/// The promise that a turn of task i with a budget broke, if any; the tasks and the memory are left as the turn leaves them.
fn turn<L: Loader>(tasks: &mut Vec<(usize, Case)>, memory: &mut [u32], i: usize, budget: u64, said: &mut String) -> Option<&'static str> {
    let before = memory.to_vec();
    let (name, t) = &mut tasks[i];
    let a = L::run(&t.blocks, &t.code, memory, t.block, t.registers, budget);
    writeln!(said, "turn of routine {name}, budget {budget}: {a:?}, memory {memory:?}").expect("a string takes all");
    if !matches!(a.number, 0 | 40) {
        return Some("a turn halts or pauses");
    }
    if a.number == 40 && a.finished != budget || a.finished > budget {
        return Some("a turn pauses after its budget of blocks");
    }
    if budget == 0 && (before != memory || a.registers != t.registers || a.block != t.block) {
        return Some("budget 0 changes nothing");
    }
    if outside(t, &before) != outside(t, memory) {
        return Some("words outside the records stay");
    }
    if locked(t, &before) != locked(t, memory) {
        return Some("locked words stay");
    }
    if !fits::<L>(t, memory) {
        return Some("the records fit");
    }
    (t.block, t.registers) = (a.block, a.registers);
    if a.number == 0 {
        tasks.remove(i);
    }
    (!tasks.iter().all(|(_, t)| entered::<L>(t, memory))).then_some("each routine's registers fit")
}

/// Leaves annotations of a routine blank, and has rows chosen for them; where no choice is accepted, it stays as it was.
fn refill<L: Loader>(r: &mut Random, c: &mut Case) {
    let mut blank = leave_blank(r, c);
    if L::fill(&blank.types, &blank.tags, &mut blank.blocks, &blank.code, &blank.offered).number == 0 {
        *c = blank;
    }
}

/// Lets the accepted among some routines over c's memory take turns. An error has the whole story.
pub fn turns<L: Loader>(r: &mut Random, c: &Case, seen: &mut Seen) -> Result<(), String> {
    if !fits::<L>(c, &c.memory) {
        return Ok(());
    }
    let mut tasks = vec![c.clone(), another(r, c), another(r, c)];
    for t in &mut tasks {
        if r.chance(3) {
            refill::<L>(r, t);
        }
    }
    tasks.retain(|t| L::check(&t.types, &t.tags, &t.blocks, &t.code).number == 0 && entered::<L>(t, &t.memory));
    seen.routines += tasks.len() as u64;
    let start: String = tasks.iter().map(|t| line("check", t) + "\n" + &line("entry", t) + "\n").collect();
    let mut said = line("memory", c) + "\n" + &start;
    let mut tasks: Vec<(usize, Case)> = tasks.into_iter().enumerate().collect();
    let mut memory = c.memory.clone();
    for _ in 0..30 * tasks.len() {
        if tasks.is_empty() {
            break;
        }
        let i = r.below(tasks.len());
        let budget = if r.chance(6) { r.below(5) as u64 } else { 1 };
        if let Some(promise) = turn::<L>(&mut tasks, &mut memory, i, budget, &mut said) {
            return Err(format!("broken: {promise}\n{said}"));
        }
        seen.turns += 1;
    }
    if memory != c.memory {
        seen.changed += 1;
        seen.locked += locked(c, &memory).len() as u64;
    }
    Ok(())
}

/// How many instructions a check examined: all where it accepts, none where it refuses a table, else those up to its place.
fn examined(c: &Case, a: CheckAnswer) -> usize {
    match a.number {
        0 => c.code.len(),
        1..=6 => 0,
        _ => a.second as usize + 1,
    }
}

/// What a check can cost by its answer and the code alone: these do not tell which of the types the record of a store has.
fn possible(c: &Case, a: CheckAnswer) -> RangeInclusive<u64> {
    // an instruction that is refused counts for nothing but its edges, up to the one that fails
    let (passed, put) = match a.number {
        0..=6 => (examined(c, a), 0),
        14 => (a.second as usize, 1),
        15 => (a.second as usize, 2),
        _ => (a.second as usize, 0),
    };
    let opcodes = || c.code.iter().take(passed).map(|w| w >> 24);
    let jumps = opcodes().filter(|op| *op == 10).count();
    let branches = opcodes().filter(|op| matches!(op, 11 | 12)).count();
    let edges = 8 * (jumps + 2 * branches + put) as u64;
    let stores = opcodes().filter(|op| *op == 9).count() as u64;
    let sizes = || c.types.chunks_exact(9).map(|row| u64::from(row[0]));
    edges + stores * sizes().min().unwrap_or(0)..=edges + stores * sizes().max().unwrap_or(0)
}

/// Looks at what the check of a case costs.
pub fn cost<L: Loader>(c: &Case, seen: &mut Seen) -> Result<(), String> {
    let a = L::check(&c.types, &c.tags, &c.blocks, &c.code);
    let asked = u64::from(a.asked);
    seen.asked += asked;
    let broken = if asked > 16 * examined(c, a) as u64 {
        "a check's count is at most 16 times the instructions examined"
    } else if !possible(c, a).contains(&asked) {
        "a check counts eight for each edge, and for each store the size of a record"
    } else {
        return Ok(());
    };
    Err(format!("broken: {broken}\n{}\n{a:?}", line("check", c)))
}

/// The same of a case, of some that it is changed to, most of them refused, and of a random one.
pub fn costs<L: Loader>(r: &mut Random, c: &Case, seen: &mut Seen) -> Result<(), String> {
    let mut c = c.clone();
    for _ in 0..4 {
        cost::<L>(&c, seen)?;
        change(r, &mut c);
    }
    cost::<L>(&random(r), seen)
}

/// Whether all rows of one block table that are blank in another are offered.
fn offers(c: &Case, blank: &Case) -> bool {
    let (own, left) = (Routine { rows: &c.blocks, code: &c.code }, Routine { rows: &blank.blocks, code: &blank.code });
    left.blanks().iter().all(|&b| blank.offered.chunks_exact(8).any(|row| row == own.annotation(b)))
}

/// What a choice for a case's blank rows breaks, if anything; `blocks` is the table as filling left it.
fn chosen_wrong<L: Loader>(c: &Case, a: OfferedAnswer, blocks: &[u32]) -> Option<&'static str> {
    let blanks = Routine { rows: &c.blocks, code: &c.code }.blanks();
    if a.number != 0 {
        let nothing = a.choice == [0; 3] && blocks == c.blocks;
        return (!nothing).then_some("a refusal chooses nothing and fills nothing");
    }
    let mut rows = c.blocks.clone();
    for (&b, k) in blanks.iter().zip(a.choice) {
        rows[b * 9 + 1..][..8].copy_from_slice(&c.offered[k as usize * 8..][..8]);
    }
    if rows != blocks {
        return Some("the filled table has the chosen rows, and else its own");
    }
    let filled = L::check(&c.types, &c.tags, blocks, &c.code);
    ((filled.number, filled.asked) != (0, a.asked)).then_some("the filled table is accepted, at the same cost")
}

/// Looks at what is chosen for a case whose annotations were partly left blank.
pub fn choice<L: Loader>(r: &mut Random, c: &Case, seen: &mut Seen) -> Result<(), String> {
    let blank = leave_blank(r, c);
    let mut blocks = blank.blocks.clone();
    let a = L::fill(&blank.types, &blank.tags, &mut blocks, &blank.code, &blank.offered);
    let accepted = || L::check(&c.types, &c.tags, &c.blocks, &c.code).number == 0;
    let broken = match chosen_wrong::<L>(&blank, a, &blocks) {
        None if a.number == 33 && offers(c, &blank) && accepted() => "rows that make a routine accepted are found where they are offered",
        None => {
            seen.filled += u64::from(blocks != blank.blocks);
            return Ok(());
        }
        Some(broken) => broken,
    };
    Err(format!("broken: {broken}\n{}\n{a:?}", line("check", &blank)))
}

/// The case that a seed and a number give, and the random numbers that go on from there.
pub fn numbered(seed: u64, k: u64) -> (Random, Case) {
    let mut r = Random::new(seed.wrapping_mul(1_000_003).wrapping_add(k));
    let c = case(&mut r);
    (r, c)
}

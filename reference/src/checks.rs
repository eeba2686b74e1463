//! The check of a routine, the memory check and the entry check.

use crate::machine::{form, parts, q17};
use crate::reading::Reading;
use crate::tables::*;
use crate::{no, verdict, Asked, Verdict};
use std::ops::Range;

// ---- the check

/// Number and place of the check of a routine, and 'the fit questions that the rules put' up to there.
#[derive(Clone, Copy, Debug, PartialEq, Eq)]
pub struct CheckAnswer {
    pub number: u32,
    pub first: u32,
    pub second: u32,
    pub asked: u32,
}

/// '8 for each edge put to Q14 or Q15, counted whole even where one fails'.
const EDGE: u32 = 8;

fn instruction(r: Routine, reading: &mut Reading, b: usize, index: usize, last: bool, asked: &mut u32) -> Asked {
    let p = parts(r.code[index]);
    let (a, base, c) = (p.a, p.b, p.c);
    let number = form(p, last, b, r.count());
    if number != 0 {
        return no(number, b, index);
    }
    match p.op {
        1 => reading.constant(a, c),
        2 => reading.copy(a, base),
        3..=6 => reading.unknown(a),
        7 => reading.moved(a, base, c),
        8 | 9 => {
            let Some(t) = reading.reference(base) else {
                return no(10, b, index);
            };
            if c as usize >= reading.types.size(t) {
                return no(11, b, index);
            }
            if p.op == 9 && reading.types.locked(t, c as usize) {
                return no(23, b, index);
            }
            if !reading.may_touch(base) {
                return no(12, b, index);
            }
            if p.op == 8 {
                reading.load(a, base, c as usize, t);
            } else {
                // 'n for each store that passes Q12 (n the record's size)'
                *asked += reading.types.size(t) as u32;
                reading.store(a, base, c as usize, t);
            }
        }
        _ => return block_end(r, reading, b, index, asked),
    }
    Ok(())
}

fn block_end(r: Routine, reading: &mut Reading, b: usize, index: usize, asked: &mut u32) -> Asked {
    let p = parts(r.code[index]);
    if reading.open.is_some() {
        return no(13, b, index);
    }
    if p.op == 0 {
        return Ok(());
    }
    *asked += EDGE;
    let taken = match p.op {
        10 => reading.meets(r.annotation(p.c as usize)),
        11 => reading.meets_equal(r.annotation((p.c & 255) as usize), p.a, p.c >> 8),
        _ => reading.meets_less(r.annotation(p.c as usize), p.a, p.b),
    };
    if !taken {
        return no(14, b, index);
    }
    if p.op == 10 {
        return Ok(());
    }
    *asked += EDGE;
    let untaken = match p.op {
        11 => reading.meets_not_equal(r.annotation(b + 1), p.a, p.c >> 8),
        _ => reading.meets_not_less(r.annotation(b + 1), p.a, p.b),
    };
    if !untaken {
        return no(15, b, index);
    }
    Ok(())
}

/// Q7 to Q15 of blocks that follow each other, the first of which begins at a code index. A whole check and that of one block are the same
/// function, so that its loops are compiled once, and as one.
#[inline(never)]
pub fn judge(r: Routine, reading: &mut Reading, blocks: Range<usize>, start: usize, asked: &mut u32) -> Asked {
    let mut index = start;
    for b in blocks {
        reading.enter(r.annotation(b));
        let end = index + r.long(b);
        while index < end {
            instruction(r, reading, b, index, index + 1 == end, asked)?;
            index += 1;
        }
    }
    Ok(())
}

fn check_asked(types: &[u32], tags: &[u32], blocks: &[u32], code: &[u32], asked: &mut u32) -> Asked {
    q1_types(types, tags)?;
    q1_code(blocks, code)?;
    let ts = Types { rows: types, tags };
    let r = Routine { rows: blocks, code };
    q2_to_q4(ts)?;
    q5(r)?;
    q6(ts, r)?;
    judge(r, &mut Reading::new(ts), 0..r.count(), 0, asked)
}

pub fn check(types: &[u32], tags: &[u32], blocks: &[u32], code: &[u32]) -> CheckAnswer {
    let mut asked = 0;
    let Verdict { number, first, second } = verdict(check_asked(types, tags, blocks, code, &mut asked));
    CheckAnswer { number, first, second, asked }
}

// ---- the check with an offered list

/// What the check of a routine answers whose table may have blank rows: as [`CheckAnswer`], and the places in the offered list of the rows
/// chosen for the blank blocks, the lowest block's first; 0 for a blank block that there is not, and in a refusal.
#[derive(Clone, Copy, Debug, PartialEq, Eq)]
pub struct OfferedAnswer {
    pub number: u32,
    pub first: u32,
    pub second: u32,
    pub asked: u32,
    pub choice: [u32; BLANKS],
}

impl OfferedAnswer {
    pub fn new(a: CheckAnswer, choice: [u32; BLANKS]) -> Self {
        OfferedAnswer { number: a.number, first: a.first, second: a.second, asked: a.asked, choice }
    }

    /// A refusal before any choice is judged, or since none is accepted: 'Card 9's count is .. 0 under 33'.
    pub fn refused(Verdict { number, first, second }: Verdict) -> Self {
        OfferedAnswer { number, first, second, asked: 0, choice: [0; BLANKS] }
    }
}

/// The questions before the choice, of a table with blank rows.
pub fn before_choice(types: &[u32], tags: &[u32], blocks: &[u32], code: &[u32], offered: &[u32]) -> Asked {
    q1_types(types, tags)?;
    q1_code(blocks, code)?;
    let ts = Types { rows: types, tags };
    let r = Routine { rows: blocks, code };
    q2_to_q4(ts)?;
    q5(r)?;
    q6_but_blank(ts, r)?;
    q32(ts, &r.blanks(), offered)
}

/// The table with an offered row for each blank block.
fn filled(blocks: &[u32], offered: &[u32], blanks: &[usize], choice: [u32; BLANKS]) -> Vec<u32> {
    let mut blocks = blocks.to_vec();
    lay(&mut blocks, offered, blanks, choice);
    blocks
}

/// Lays an offered row into each blank block's.
pub fn lay(blocks: &mut [u32], offered: &[u32], blanks: &[usize], choice: [u32; BLANKS]) {
    for (&b, k) in blanks.iter().zip(choice) {
        blocks[b * 9 + 1..b * 9 + 9].copy_from_slice(&offered[k as usize * 8..][..8]);
    }
}

/// The choice of so many places below a limit that comes next, the last place counting least; none after the last.
fn next(mut choice: [u32; BLANKS], count: usize, limit: usize) -> Option<[u32; BLANKS]> {
    for k in (0..count).rev() {
        choice[k] += 1;
        if (choice[k] as usize) < limit {
            return Some(choice);
        }
        choice[k] = 0;
    }
    None
}

pub fn check_offered(types: &[u32], tags: &[u32], blocks: &[u32], code: &[u32], offered: &[u32]) -> OfferedAnswer {
    let blanks = Routine { rows: blocks, code }.blanks();
    if blanks.is_empty() {
        // 'A table with no blank row is judged as before, the list unread'
        return OfferedAnswer::new(check(types, tags, blocks, code), [0; BLANKS]);
    }
    if let Err(no) = before_choice(types, tags, blocks, code, offered) {
        return OfferedAnswer::refused(no);
    }
    // 'first by the lowest blank block's list place, then the next'
    let mut choice = (!offered.is_empty()).then_some([0; BLANKS]);
    while let Some(places) = choice {
        let a = check(types, tags, &filled(blocks, offered, &blanks, places), code);
        if a.number == 0 {
            return OfferedAnswer::new(a, places);
        }
        choice = next(places, blanks.len(), offered.len() / 8);
    }
    OfferedAnswer::refused(Verdict { number: 33, first: blanks[0] as u32, second: 0 })
}

/// The same, with the chosen rows laid into the table of a routine that is accepted: 'every other call takes the filled table'.
pub fn fill(types: &[u32], tags: &[u32], blocks: &mut [u32], code: &[u32], offered: &[u32]) -> OfferedAnswer {
    let a = check_offered(types, tags, blocks, code, offered);
    if a.number == 0 {
        let blanks = Routine { rows: blocks, code }.blanks();
        lay(blocks, offered, &blanks, a.choice);
    }
    a
}

// ---- allocations and meanings

/// By address: the type of the record that starts there, and where the records of its type that follow each other from there on end.
struct Owners {
    types: Vec<u8>,
    ends: Vec<u16>,
}

/// No type: there are at most 64.
const FREE: u8 = u8::MAX;

impl Owners {
    fn new(types: Types, allocations: &[u32], top: usize) -> Self {
        let mut owners = Owners { types: vec![FREE; top], ends: vec![0; top] };
        let mut next = (usize::MAX, 0, 0);
        for row in allocations.chunks_exact(2).rev() {
            let (start, t) = (row[0] as usize, row[1]);
            let end = start + types.size(t as usize);
            let last = if next.0 == end && next.1 == t { next.2 } else { end as u16 };
            owners.types[start] = t as u8;
            owners.ends[start] = last;
            next = (start, t, last);
        }
        owners
    }

    fn is(&self, p: u32, t: usize) -> bool {
        self.types.get(p as usize).is_some_and(|&o| usize::from(o) == t)
    }

    /// Whether records of type t follow each other from d to e.
    fn follow(&self, d: u32, e: u32, t: usize) -> bool {
        self.is(d, t) && e <= u32::from(self.ends[d as usize])
    }
}

fn meets(types: Types, owners: &Owners, w: u32, words: &[u32], p: u32) -> bool {
    let at = |x: usize| if x < 8 { words[x] } else { x as u32 - 8 };
    let t = record(w);
    let tagged = || types.tags.get(at(first(w)) as usize).is_some_and(|&t| owners.is(p, t as usize));
    match kind(w) {
        ANY => true,
        REF => owners.is(p, t),
        MAYBE => p == 0 || owners.is(p, t),
        TAGGED => p == 0 || tagged(),
        PRESENT => p != 0 && tagged(),
        SAME => p == at(first(w)),
        k => {
            let (d, e, n) = (at(first(w)), at(second(w)), types.size(t) as u32);
            let run = d < e && owners.follow(d, e, t) && (e - d) % n == 0 && p.wrapping_sub(d) % n == 0;
            run && (k == RUN || d <= p) && (k != IN || p < e)
        }
    }
}

fn q19(types: Types, allocations: &[u32], top: usize) -> Asked {
    if allocations.len() % 2 != 0 || allocations.len() > 8192 {
        return no(19, 0, 0);
    }
    let mut low = 1u64;
    for (r, row) in allocations.chunks_exact(2).enumerate() {
        let (start, t) = (row[0] as u64, row[1] as usize);
        if t >= types.count() || start < low || start + types.size(t) as u64 > top as u64 {
            return no(19, r, 0);
        }
        low = start + types.size(t) as u64;
    }
    Ok(())
}

fn layout(types: Types, allocations: &[u32], top: usize) -> Asked {
    q1_types(types.rows, types.tags)?;
    q2_to_q4(types)?;
    q17(top)?;
    q19(types, allocations, top)
}

fn memory_asked(types: Types, allocations: &[u32], memory: &[u32]) -> Asked {
    layout(types, allocations, memory.len())?;
    let owners = Owners::new(types, allocations, memory.len());
    for (r, row) in allocations.chunks_exact(2).enumerate() {
        let (start, t) = (row[0] as usize, row[1] as usize);
        let words = &memory[start..start + types.size(t)];
        for (f, (&w, &p)) in types.fields(t).iter().zip(words).enumerate() {
            if w != 0 && !meets(types, &owners, w, words, p) {
                return no(20, r, f);
            }
        }
    }
    Ok(())
}

pub fn memory_check(types: &[u32], tags: &[u32], allocations: &[u32], memory: &[u32]) -> Verdict {
    verdict(memory_asked(Types { rows: types, tags }, allocations, memory))
}

#[allow(clippy::too_many_arguments)]
pub fn entry_check(
    types: &[u32],
    tags: &[u32],
    allocations: &[u32],
    memory: &[u32],
    blocks: &[u32],
    code: &[u32],
    block: u32,
    registers: [u32; 8],
) -> Verdict {
    let ts = Types { rows: types, tags };
    let r = Routine { rows: blocks, code };
    let asked = || {
        layout(ts, allocations, memory.len())?;
        q1_code(blocks, code)?;
        q5(r)?;
        q6(ts, r)?;
        if block as usize >= r.count() {
            return no(16, 0, 0);
        }
        let owners = Owners::new(ts, allocations, memory.len());
        for (i, &w) in r.annotation(block as usize).iter().enumerate() {
            if !meets(ts, &owners, w, &registers, registers[i]) {
                return no(21, i, 0);
            }
        }
        Ok(())
    };
    verdict(asked())
}

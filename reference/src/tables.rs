//! Rows, type words and the questions Q1 to Q6.

use crate::{no, Asked};

pub const ANY: u32 = 0;
pub const REF: u32 = 1;
pub const MAYBE: u32 = 2;
pub const TAGGED: u32 = 3;
pub const PRESENT: u32 = 4;
pub const SAME: u32 = 5;
pub const RUN: u32 = 6;
pub const FROM: u32 = 7;
pub const IN: u32 = 8;

/// 'Bit 31 of a record's type word now marks a field locked'.
pub const LOCKED: u32 = 1 << 31;

/// 'Up to 3 rows may have all eight type words 4,294,967,295'.
pub const BLANKS: usize = 3;
pub const BLANK: u32 = u32::MAX;

/// 'a second list offers 0 to 8 annotation rows of eight words'.
pub const OFFERED: usize = 8;

/// 'the remaining seven bits of that byte are the kind'.
pub fn kind(w: u32) -> u32 {
    w >> 24 & 127
}

/// The type word with another kind, and no mark.
pub fn with_kind(w: u32, kind: u32) -> u32 {
    w & 0xff_ffff | kind << 24
}

pub fn record(w: u32) -> usize {
    (w >> 16 & 255) as usize
}

pub fn first(w: u32) -> usize {
    (w >> 8 & 255) as usize
}

pub fn second(w: u32) -> usize {
    (w & 255) as usize
}

/// The record types, with the tags.
#[derive(Clone, Copy)]
pub struct Types<'a> {
    pub rows: &'a [u32],
    pub tags: &'a [u32],
}

impl<'a> Types<'a> {
    pub fn count(&self) -> usize {
        self.rows.len() / 9
    }

    pub fn size(&self, t: usize) -> usize {
        self.rows[t * 9] as usize
    }

    pub fn fields(&self, t: usize) -> &'a [u32] {
        &self.rows[t * 9 + 1..t * 9 + 9]
    }

    /// Whether field f of a record of type t is locked.
    pub fn locked(&self, t: usize, f: usize) -> bool {
        self.fields(t)[f] & LOCKED != 0
    }

    /// Whether k is a tag of t.
    pub fn tag_of(&self, k: u32, t: usize) -> bool {
        (k as usize) < self.tags.len() && self.tags[k as usize] as usize == t
    }
}

/// The blocks of a routine with its code.
#[derive(Clone, Copy)]
pub struct Routine<'a> {
    pub rows: &'a [u32],
    pub code: &'a [u32],
}

impl<'a> Routine<'a> {
    pub fn count(&self) -> usize {
        self.rows.len() / 9
    }

    pub fn long(&self, b: usize) -> usize {
        self.rows[b * 9] as usize
    }

    pub fn annotation(&self, b: usize) -> &'a [u32] {
        &self.rows[b * 9 + 1..b * 9 + 9]
    }

    pub fn is_blank(&self, b: usize) -> bool {
        self.annotation(b).iter().all(|&w| w == BLANK)
    }

    /// The blocks whose annotation is left blank, the lowest first.
    pub fn blanks(&self) -> Vec<usize> {
        (0..self.count()).filter(|&b| self.is_blank(b)).collect()
    }

    /// Where each block starts, and the end of the last.
    pub fn starts(&self) -> Vec<usize> {
        let mut at = 0;
        let mut all = Vec::with_capacity(self.count() + 1);
        for b in 0..self.count() {
            all.push(at);
            at += self.long(b);
        }
        all.push(at);
        all
    }
}

fn whole_rows(length: usize, most: usize) -> bool {
    length % 9 == 0 && length >= 9 && length <= 9 * most
}

pub fn q1_types(types: &[u32], tags: &[u32]) -> Asked {
    if !whole_rows(types.len(), 64) {
        return no(1, 0, 0);
    }
    if tags.len() > 64 {
        return no(1, 1, 0);
    }
    Ok(())
}

pub fn q1_code(blocks: &[u32], code: &[u32]) -> Asked {
    if !whole_rows(blocks.len(), 256) {
        return no(1, 2, 0);
    }
    if code.is_empty() || code.len() > 8192 {
        return no(1, 3, 0);
    }
    Ok(())
}

fn dependency(x: usize, n: usize) -> bool {
    x < n || x >= 8
}

/// The mark is not looked at: 'Q3 allows the mark, Q6 does not'.
fn well_made(w: u32, count: usize, n: usize) -> bool {
    let (t, d, e) = (record(w), first(w), second(w));
    match kind(w) {
        ANY => t == 0 && d == 0 && e == 0,
        REF | MAYBE => t < count && d == 0 && e == 0,
        TAGGED | PRESENT | SAME => t == 0 && dependency(d, n) && e == 0,
        RUN | FROM | IN => t < count && dependency(d, n) && dependency(e, n),
        _ => false,
    }
}

/// Q2 to Q4.
pub fn q2_to_q4(types: Types) -> Asked {
    let count = types.count();
    for t in 0..count {
        if !(1..=8).contains(&types.rows[t * 9]) {
            return no(2, t, 0);
        }
    }
    for t in 0..count {
        let n = types.size(t);
        for (f, &w) in types.fields(t).iter().enumerate() {
            let good = if f < n { well_made(w, count, n) } else { w == 0 };
            if !good {
                return no(3, t, 0);
            }
        }
    }
    for (k, &t) in types.tags.iter().enumerate() {
        if t as usize >= count {
            return no(4, k, 0);
        }
    }
    Ok(())
}

pub fn q5(r: Routine) -> Asked {
    let mut sum = 0;
    for b in 0..r.count() {
        let l = r.rows[b * 9];
        if !(1..=32).contains(&l) || sum + l as usize > r.code.len() {
            return no(5, b, 0);
        }
        sum += l as usize;
    }
    if sum != r.code.len() {
        return no(5, r.count(), 0);
    }
    Ok(())
}

fn annotation_well_made(types: Types, row: &[u32]) -> bool {
    row.iter().all(|&w| w & LOCKED == 0 && well_made(w, types.count(), 8))
}

pub fn q6(types: Types, r: Routine) -> Asked {
    for b in 0..r.count() {
        if !annotation_well_made(types, r.annotation(b)) {
            return no(6, b, 0);
        }
    }
    Ok(())
}

/// 'This check's Q6 alone skips blank rows'.
pub fn q6_but_blank(types: Types, r: Routine) -> Asked {
    for b in 0..r.count() {
        if !r.is_blank(b) && !annotation_well_made(types, r.annotation(b)) {
            return no(6, b, 0);
        }
    }
    Ok(())
}

/// '32, at the fourth blank block, else at row 0 for an offered list of wrong length, else at the first offered row badly made'.
pub fn q32(types: Types, blanks: &[usize], offered: &[u32]) -> Asked {
    if let Some(&fourth) = blanks.get(BLANKS) {
        return no(32, fourth, 0);
    }
    if offered.len() % 8 != 0 || offered.len() > 8 * OFFERED {
        return no(32, 0, 0);
    }
    for (k, row) in offered.chunks_exact(8).enumerate() {
        if !annotation_well_made(types, row) {
            return no(32, k, 0);
        }
    }
    Ok(())
}

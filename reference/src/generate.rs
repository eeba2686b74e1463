//! Inputs for the differential tests: tables, routines, memories and registers that are valid by repair, nearly valid and random.

use crate::tables::*;
use crate::{check, entry_check, memory_check};

/// A small generator of random numbers, the same on every machine.
pub struct Random(u64);

impl Random {
    pub fn new(seed: u64) -> Self {
        Random(seed.wrapping_mul(0x9e37_79b9_7f4a_7c15) ^ 0x2545_f491_4f6c_dd1d)
    }

    pub fn draw(&mut self) -> u64 {
        self.0 ^= self.0 << 13;
        self.0 ^= self.0 >> 7;
        self.0 ^= self.0 << 17;
        self.0.wrapping_mul(0x2545_f491_4f6c_dd1d)
    }

    /// A number below n.
    pub fn below(&mut self, n: usize) -> usize {
        ((self.draw() >> 33) % n.max(1) as u64) as usize
    }

    pub fn chance(&mut self, one_in: usize) -> bool {
        self.below(one_in) == 0
    }

    pub fn pick<T: Copy>(&mut self, from: &[T]) -> T {
        from[self.below(from.len())]
    }

    pub fn shuffle<T>(&mut self, all: &mut [T]) {
        for i in (1..all.len()).rev() {
            all.swap(i, self.below(i + 1));
        }
    }

    /// A word, often a small or a telling one.
    pub fn word(&mut self) -> u32 {
        match self.below(4) {
            0 => self.below(4) as u32,
            1 => self.below(64) as u32,
            2 => self.pick(&[u32::MAX, 1 << 31, (1 << 31) - 1, 1 << 24, 65535, 65536, 16384, 16383]),
            _ => self.draw() as u32,
        }
    }
}

#[derive(Clone, Debug, Default)]
pub struct Case {
    pub types: Vec<u32>,
    pub tags: Vec<u32>,
    pub allocations: Vec<u32>,
    pub memory: Vec<u32>,
    pub blocks: Vec<u32>,
    pub code: Vec<u32>,
    pub offered: Vec<u32>,
    pub block: u32,
    pub registers: [u32; 8],
    pub budget: u64,
}

fn type_word(kind: u32, t: usize, d: usize, e: usize) -> u32 {
    kind << 24 | (t as u32) << 16 | (d as u32) << 8 | e as u32
}

/// A well-made type word over n names.
fn any_type(r: &mut Random, count: usize, n: usize) -> u32 {
    let name = |r: &mut Random| if r.chance(6) { 8 + r.below(4) } else { r.below(n) };
    match r.below(16) {
        0..=5 => 0,
        6..=8 => type_word(REF, r.below(count), 0, 0),
        9 => type_word(MAYBE, r.below(count), 0, 0),
        10 | 11 => type_word(TAGGED, 0, name(r), 0),
        12 => type_word(PRESENT, 0, name(r), 0),
        13 => type_word(SAME, 0, name(r), 0),
        _ => {
            let (kind, t, d, e) = (RUN + r.below(3) as u32, r.below(count), name(r), name(r));
            type_word(kind, t, d, e)
        }
    }
}

/// Two or more of n places, in a random order.
fn some_places(r: &mut Random, n: usize) -> Vec<usize> {
    let mut places: Vec<usize> = (0..n).collect();
    r.shuffle(&mut places);
    places.truncate(2 + r.below(n - 1));
    places
}

/// Makes the words at some places of a row a chain: each is Same of the next, and the last is Same of the end, if there is one.
fn chain(row: &mut [u32], places: &[usize], end: Option<usize>) {
    let next = places[1..].iter().copied().chain(end);
    for (&place, d) in places.iter().zip(next) {
        row[place] = type_word(SAME, 0, d, 0);
    }
}

/// Now and then some of the fields are locked, so that stores are mostly to others.
fn lock(r: &mut Random, fields: &mut [u32]) {
    if r.chance(3) {
        for w in fields {
            *w |= if r.chance(3) { LOCKED } else { 0 };
        }
    }
}

/// The eight type words of a record of n words; now and then some are a chain, which may end in a constant or a circle.
fn fields(r: &mut Random, count: usize, n: usize) -> Vec<u32> {
    let mut row: Vec<u32> = (0..8).map(|f| if f < n { any_type(r, count, n) } else { 0 }).collect();
    if n > 1 && r.chance(5) {
        let places = some_places(r, n);
        let end = match r.below(4) {
            0 => Some(8 + r.below(4)),
            1 => Some(r.pick(&places)),
            _ => None,
        };
        if r.chance(2) {
            row.fill(0);
        }
        chain(&mut row, &places, end);
    }
    lock(r, &mut row[..n]);
    row
}

fn types(r: &mut Random) -> (Vec<u32>, Vec<u32>) {
    let count = 1 + r.below(4);
    let mut rows = Vec::new();
    for _ in 0..count {
        let n = if r.chance(4) { 1 + r.below(8) } else { 1 + r.below(3) };
        rows.push(n as u32);
        rows.extend(fields(r, count, n));
    }
    let tags = (0..if r.chance(5) { 0 } else { 1 + r.below(4) }).map(|_| r.below(count) as u32).collect();
    (rows, tags)
}

fn plain(r: &mut Random) -> u32 {
    let (a, b) = (r.below(8) as u32, r.below(8) as u32);
    let (op, b, c) = match r.below(12) {
        0 => (1, 0, r.below(20) as u32),
        1 => (2, b, 0),
        2 => (3 + r.below(3) as u32, b, r.below(8) as u32),
        3 => (6, b, 1 + r.below(9) as u32),
        4 | 5 => (7, b, r.pick(&[0, 1, 2, 3, 4, 5, 6, 8, 65535, 65534, 65533, 65532])),
        6..=8 => (8, b, r.below(4) as u32),
        _ => (9, b, r.below(4) as u32),
    };
    op << 24 | a << 20 | b << 16 | c
}

fn ending(r: &mut Random, count: usize, last: bool) -> u32 {
    let (a, b, t) = (r.below(8) as u32, r.below(8) as u32, r.below(count) as u32);
    match if last { r.below(2) } else { r.below(8) } {
        0 => 0,
        1 => 10 << 24 | t,
        2..=4 => 11 << 24 | a << 20 | (if r.chance(2) { 0 } else { r.below(4) as u32 }) << 8 | t,
        _ => 12 << 24 | a << 20 | b << 16 | t,
    }
}

/// A routine that goes through a run by the size of its records: a Run in block 0, From in block 1, In in block 3, where the step is made
/// after instructions that leave place and bounds alone. Place, start and end are registers in a row. Now and then the two after them are a
/// chain to one of the bounds, and the test is of the first of these in its stead.
fn walk(r: &mut Random, types: &[u32]) -> (Vec<u32>, Vec<u32>) {
    let t = r.below(types.len() / 9);
    let (size, place) = (types[t * 9], r.below(8));
    let [start, end, known, link] = [1, 2, 3, 4].map(|i| (place + i) % 8);
    let mut shared: Vec<u32> = (0..8).map(|_| any_type(r, types.len() / 9, 8)).collect();
    let (kept, bound) = if r.chance(3) { (5, r.pick(&[start, end])) } else { (3, known) };
    if kept == 5 {
        chain(&mut shared, &[known, link], Some(bound));
    }
    let body: Vec<u32> = (0..r.below(6)).map(|_| walk_step(r, place, kept, size)).collect();
    let mut blocks = Vec::new();
    for (n, kind) in [(1, RUN), (1, FROM), (1, 0), (body.len() + 2, IN)] {
        blocks.push(n as u32);
        let at_place = if kind == 0 { 0 } else { type_word(kind, t, start, end) };
        blocks.extend((0..8).map(|i| if i == place { at_place } else { shared[i] }));
    }
    let if_less = |b: usize, to: u32| 12 << 24 | (place as u32) << 20 | (if b == bound { known } else { b } as u32) << 16 | to;
    let step = if r.chance(6) { size * r.below(4) as u32 } else { size };
    let mut code = vec![if_less(start, 2), if_less(end, 3), 0];
    code.extend(body);
    code.extend([7 << 24 | (place as u32) << 20 | (place as u32) << 16 | step, 10 << 24 | 1]);
    (blocks, code)
}

/// An instruction inside a walk, which leaves some registers from its place on alone: often a load or store of the record that the walk has
/// come to.
fn walk_step(r: &mut Random, place: usize, kept: usize, size: u32) -> u32 {
    let w = plain(r);
    let (op, a) = (w >> 24, (w >> 20 & 7) as usize);
    let w = if op >= 8 && !r.chance(3) { w & 0xfff0_0000 | (place as u32) << 16 | r.below(size as usize) as u32 } else { w };
    if op != 9 && (a + 8 - place) % 8 < kept {
        return w & 0xff0f_ffff | (((place + kept + r.below(8 - kept)) % 8) as u32) << 20;
    }
    w
}

/// What all blocks of a routine know of their registers: some, the members, are equal to each other and perhaps to a constant.
struct Shared {
    members: Vec<usize>,
    constants: Vec<usize>,
    /// the registers' types; of the members only the first has one, and where no constant is known
    types: Vec<u32>,
}

impl Shared {
    /// The first register that is no member refers to a record, of a known tag or else with a field that is Same.
    fn new(r: &mut Random, rows: &[u32], tags: &[u32]) -> Self {
        let members = some_places(r, 8);
        let constants = if r.chance(2) { vec![r.below(4)] } else { vec![] };
        let mut types: Vec<u32> = (0..8).map(|_| any_type(r, rows.len() / 9, 8)).collect();
        if r.chance(2) {
            types[members[0]] = 0;
        }
        let tagged = constants.first().and_then(|&k| tags.get(k)).map(|&t| t as usize);
        let same = |t: &usize| rows[t * 9 + 1..t * 9 + 9].iter().any(|&w| kind(w) == SAME);
        let base = (0..8).find(|i| !members.contains(i));
        if let (Some(base), Some(t)) = (base, tagged.or_else(|| (0..rows.len() / 9).find(same))) {
            types[base] = type_word(REF, t, 0, 0);
        }
        Shared { members, constants, types }
    }

    /// The type word said otherwise: what is known equal to a member stands for it, and a reference to a record of a known tag is said by the
    /// tag, or the other way round.
    fn otherwise(&self, r: &mut Random, w: u32, tags: &[u32]) -> u32 {
        let names: Vec<usize> = self.members.iter().copied().chain(self.constants.iter().map(|k| 8 + k)).collect();
        let k = (!self.constants.is_empty()).then(|| r.pick(&self.constants));
        let tagged = k.and_then(|k| tags.get(k)).map(|&t| t as usize).filter(|_| r.chance(2));
        let name = r.pick(&names);
        let mut other = |x: usize| if names.contains(&x) { r.pick(&names) } else { x };
        let (d, e) = (other(first(w)), other(second(w)));
        match (kind(w), tagged) {
            (REF, Some(t)) if t == record(w) => type_word(PRESENT, 0, name, 0),
            (MAYBE, Some(t)) if t == record(w) => type_word(TAGGED, 0, name, 0),
            (PRESENT, Some(t)) if names.contains(&d) => type_word(REF, t, 0, 0),
            (TAGGED, Some(t)) if names.contains(&d) => type_word(MAYBE, t, 0, 0),
            (TAGGED | PRESENT | SAME, _) => type_word(kind(w), 0, d, 0),
            (RUN | FROM | IN, _) => type_word(kind(w), record(w), d, e),
            _ => w,
        }
    }

    /// An annotation that says this in its own way. Its chain leads through the members to the first of them, and may end in a constant or a
    /// circle.
    fn annotation(&self, r: &mut Random, tags: &[u32]) -> Vec<u32> {
        let mut row: Vec<u32> = self.types.iter().map(|&w| self.otherwise(r, w, tags)).collect();
        let mut places = self.members.clone();
        r.shuffle(&mut places[1..]);
        places.reverse();
        let end = if !self.constants.is_empty() {
            Some(8 + r.pick(&self.constants))
        } else if self.types[self.members[0]] == 0 && r.chance(2) {
            Some(r.pick(&places))
        } else {
            None
        };
        chain(&mut row, &places, end);
        row
    }

    /// An instruction that keeps this: it sets a register of which nothing is said, or a member to another.
    fn step(&self, r: &mut Random) -> u32 {
        let w = plain(r);
        let a = (w >> 20 & 7) as usize;
        if w >> 24 == 9 || self.types[a] == 0 && !self.members.contains(&a) {
            return w;
        }
        2 << 24 | (r.pick(&self.members[1..]) as u32) << 20 | (r.pick(&self.members) as u32) << 16
    }

    /// Now and then stores of members to each field of a record, or loads of all members from fields that a chain leads through.
    fn accesses(&self, r: &mut Random, rows: &[u32]) -> Vec<u32> {
        let bases: Vec<usize> = (0..8).filter(|i| kind(self.types[*i]) == REF && !self.members.contains(i)).collect();
        if bases.is_empty() || r.chance(2) {
            return vec![];
        }
        let base = r.pick(&bases);
        let row = &rows[record(self.types[base]) * 9..][..9];
        let one = |op: u32, a: usize, c: usize| op << 24 | (a as u32) << 20 | (base as u32) << 16 | c as u32;
        if self.constants.is_empty() && self.types[self.members[0]] == 0 && r.chance(2) {
            let fields = trail(&row[1..], r.below(row[0] as usize));
            return self.members.iter().map(|&a| one(8, a, r.pick(&fields))).collect();
        }
        (0..row[0] as usize).map(|c| one(9, r.pick(&self.members), c)).collect()
    }
}

/// The fields that a chain of Same leads through from one on.
fn trail(row: &[u32], mut field: usize) -> Vec<usize> {
    let mut fields = Vec::new();
    while field < 8 && !fields.contains(&field) {
        fields.push(field);
        field = if kind(row[field]) == SAME { first(row[field]) } else { field };
    }
    fields
}

/// A routine whose blocks know some registers equal through a chain of Same, each in its own way. Block 0 tests a member, and what the test
/// tells is known in the last block, where no other edge leads to.
fn chained(r: &mut Random, rows: &[u32], tags: &[u32]) -> (Vec<u32>, Vec<u32>) {
    let mut shared = Shared::new(r, rows, tags);
    let (tested, k) = (r.pick(&shared.members) as u32, r.below(4));
    let last = 2 + r.below(3);
    let (mut blocks, mut code) = (Vec::new(), Vec::new());
    for b in 0..=last {
        if b == last {
            shared.constants.push(k);
        }
        let mut body: Vec<u32> = (0..r.below(5)).map(|_| shared.step(r)).collect();
        body.extend(shared.accesses(r, rows));
        blocks.push(body.len() as u32 + 1);
        blocks.extend(shared.annotation(r, tags));
        code.extend(body);
        code.push(if b == 0 { 11 << 24 | tested << 20 | (k << 8 | last) as u32 } else { ending(r, last, b + 1 >= last) });
    }
    (blocks, code)
}

/// A routine that stores much and often branches. All blocks know references in some registers, and nothing of r7, which alone is set: so
/// their edges are met, but where a block, now and then, wants something else of a register.
fn storing(r: &mut Random, types: &[u32]) -> (Vec<u32>, Vec<u32>) {
    let type_count = types.len() / 9;
    let bases = some_places(r, 7);
    let mut shared: Vec<u32> = (0..8).map(|i| if i == 7 { 0 } else { any_type(r, type_count, 8) }).collect();
    for &base in &bases {
        shared[base] = type_word(REF, r.below(type_count), 0, 0);
    }
    let count = 1 + r.below(5);
    let (mut blocks, mut code) = (Vec::new(), Vec::new());
    for b in 0..count {
        let start = code.len();
        for _ in 0..r.below(6) {
            let base = r.pick(&bases);
            code.extend(stored(r, base, types[record(shared[base]) * 9]));
        }
        code.push(ending(r, count, b + 1 == count));
        blocks.push((code.len() - start) as u32);
        blocks.extend(shared.iter().map(|&w| if r.chance(20) { any_type(r, type_count, 8) } else { w }));
    }
    (blocks, code)
}

/// A store to a field of the record that a register refers to: of any register's word, or of the field's own, loaded before.
fn stored(r: &mut Random, base: usize, size: u32) -> Vec<u32> {
    let field = r.below(size as usize) as u32;
    let at = |op: u32, a: u32| op << 24 | a << 20 | (base as u32) << 16 | field;
    if r.chance(2) {
        vec![at(8, 7), at(9, 7)]
    } else {
        vec![at(9, r.below(8) as u32)]
    }
}

fn routine(r: &mut Random, types: &[u32], tags: &[u32]) -> (Vec<u32>, Vec<u32>) {
    match r.below(14) {
        0 | 1 => return walk(r, types),
        2 => return chained(r, types, tags),
        3 | 4 => return storing(r, types),
        _ => (),
    }
    let type_count = types.len() / 9;
    let count = 1 + r.below(5);
    let (mut blocks, mut code) = (Vec::new(), Vec::new());
    let shared: Vec<u32> = (0..8).map(|_| any_type(r, type_count, 8)).collect();
    for b in 0..count {
        let n = 1 + r.below(9);
        blocks.push(n as u32);
        blocks.extend(shared.iter().map(|&w| if r.chance(4) { any_type(r, type_count, 8) } else { w }));
        code.extend((1..n).map(|_| plain(r)));
        code.push(ending(r, count, b + 1 == count));
    }
    (blocks, code)
}

/// Changes what the check refuses until it accepts, or gives up: now and then soon, since a refusal has its count of fit questions too.
fn repair_routine(r: &mut Random, c: &mut Case) {
    let types = c.types.len() / 9;
    let rounds = if r.chance(8) { r.below(16) } else { 200 };
    for _ in 0..rounds {
        let v = check(&c.types, &c.tags, &c.blocks, &c.code);
        let (b, i) = (v.first as usize, v.second as usize);
        match v.number {
            10..=12 | 23 if !r.chance(6) => c.code[i] = c.code[i] >> 20 << 20 | (r.below(8) as u32) << 16 | r.below(3) as u32,
            7..=12 | 23 => c.code[i] = plain(r),
            13 if r.chance(2) && i > 0 => c.code[i - 1] = 9 << 24 | (r.below(8) as u32) << 20 | c.code[i - 1] & 0xf0000 | r.below(3) as u32,
            13 => {
                let start: usize = (0..b).map(|k| c.blocks[k * 9] as usize).sum();
                for w in &mut c.code[start..i] {
                    if *w >> 24 == 9 {
                        *w = plain(r);
                    }
                }
            }
            14 | 15 => {
                if r.chance(3) {
                    c.code[i] = ending(r, c.blocks.len() / 9, b + 1 == c.blocks.len() / 9);
                } else {
                    let w = c.code[i];
                    let taken = if w >> 24 == 11 { w & 255 } else { w & 65535 } as usize;
                    let to = if v.number == 14 { taken } else { b + 1 };
                    let at = to * 9 + 1 + r.below(8);
                    c.blocks[at] = if r.chance(2) { 0 } else { any_type(r, types, 8) };
                }
            }
            _ => return,
        }
    }
}

/// The start of some allocated record of type t, or 0.
fn some_start(r: &mut Random, c: &Case, t: usize) -> u32 {
    let starts: Vec<u32> = c.allocations.chunks(2).filter(|row| row[1] as usize == t).map(|row| row[0]).collect();
    if starts.is_empty() {
        0
    } else {
        r.pick(&starts)
    }
}

/// A run of records of type t that follow each other: where it starts and ends.
fn some_run(r: &mut Random, c: &Case, t: usize) -> (u32, u32) {
    let start = some_start(r, c, t);
    let n = c.types[t * 9];
    let mut end = start + n;
    while !r.chance(4) && c.allocations.chunks(2).any(|row| row[0] == end && row[1] as usize == t) {
        end += n;
    }
    (start, end)
}

/// Changes word i, and words it depends on, towards the meaning of its type.
fn settle(r: &mut Random, c: &Case, w: u32, i: usize, words: &mut [u32]) {
    let (t, d, e) = (record(w), first(w), second(w));
    if r.chance(10) {
        words[i] = r.pick(&[0, 1, 2, 3]);
        return;
    }
    match kind(w) {
        REF => words[i] = some_start(r, c, t),
        MAYBE => words[i] = if r.chance(3) { 0 } else { some_start(r, c, t) },
        TAGGED | PRESENT if !c.tags.is_empty() => {
            let k = if d < 8 { r.below(c.tags.len()) } else { d - 8 };
            if d < words.len() {
                words[d] = k as u32;
            }
            words[i] = c.tags.get(k).map_or(0, |&t| some_start(r, c, t as usize));
        }
        SAME => words[i] = if d < 8 { words[d] } else { d as u32 - 8 },
        RUN | FROM | IN => {
            let (start, end) = some_run(r, c, t);
            if d < words.len() {
                words[d] = start;
            }
            if e < words.len() {
                words[e] = end;
            }
            words[i] = start + c.types[t * 9] * r.below(((end - start) / c.types[t * 9]) as usize) as u32;
        }
        _ => words[i] = 0,
    }
}

fn memory(r: &mut Random, c: &mut Case) {
    let count = c.types.len() / 9;
    let top = 2 + r.below(90);
    let mut at = 1 + r.below(3);
    let mut t = count;
    loop {
        t = if t > 0 && t <= count && c.allocations.len() < 2 * count {
            t - 1
        } else if r.chance(2) {
            r.below(count)
        } else {
            t.min(count - 1)
        };
        let n = c.types[t * 9] as usize;
        if at + n > top || r.chance(20) {
            break;
        }
        c.allocations.extend([at as u32, t as u32]);
        at += n + if r.chance(5) { r.below(3) } else { 0 };
    }
    c.memory = (0..top).map(|_| if r.chance(2) { 0 } else { r.word() }).collect();
    for _ in 0..150 {
        let v = memory_check(&c.types, &c.tags, &c.allocations, &c.memory);
        if v.number != 20 {
            return;
        }
        let (s, t) = (c.allocations[v.first as usize * 2] as usize, c.allocations[v.first as usize * 2 + 1] as usize);
        let n = c.types[t * 9] as usize;
        let f = v.second as usize;
        let mut words = c.memory[s..s + n].to_vec();
        settle(r, c, c.types[t * 9 + 1 + f], f, &mut words);
        c.memory[s..s + n].copy_from_slice(&words);
    }
}

fn registers(r: &mut Random, c: &mut Case) {
    c.block = r.below(c.blocks.len() / 9) as u32;
    c.registers = std::array::from_fn(|_| if r.chance(2) { r.below(20) as u32 } else { r.word() });
    for _ in 0..80 {
        let v = entry_check(&c.types, &c.tags, &c.allocations, &c.memory, &c.blocks, &c.code, c.block, c.registers);
        if v.number != 21 {
            return;
        }
        let i = v.first as usize;
        let mut words = c.registers;
        settle(r, c, c.blocks[c.block as usize * 9 + 1 + i], i, &mut words);
        c.registers = words;
    }
}

/// A case that is valid as far as repair comes.
pub fn case(r: &mut Random) -> Case {
    let mut c = Case::default();
    (c.types, c.tags) = types(r);
    (c.blocks, c.code) = routine(r, &c.types, &c.tags);
    c.budget = r.below(12) as u64;
    repair_routine(r, &mut c);
    memory(r, &mut c);
    registers(r, &mut c);
    c
}

/// Another routine over the same record types, tags and memory.
pub fn another(r: &mut Random, first: &Case) -> Case {
    let (blocks, code) = routine(r, &first.types, &first.tags);
    let mut c = Case { blocks, code, ..first.clone() };
    repair_routine(r, &mut c);
    registers(r, &mut c);
    c
}

/// An annotation to offer beside those that were there: of another block, a random one, or nothing known at all.
fn other_offer(r: &mut Random, c: &Case) -> Vec<u32> {
    let blocks = c.blocks.len() / 9;
    match r.below(3) {
        0 if blocks > 0 => c.blocks[r.below(blocks) * 9 + 1..][..8].to_vec(),
        1 => vec![0; 8],
        _ => (0..8).map(|_| any_type(r, c.types.len() / 9, 8)).collect(),
    }
}

/// Of an offered list, now and then: a row that must be refused, or a length.
fn spoil(r: &mut Random, offered: &mut Vec<u32>) {
    let rows = offered.len() / 8;
    match r.below(24) {
        0 => drop(offered.pop()),
        1 => offered.push(0),
        2 => offered.resize(8 * (OFFERED + 1), 0),
        3 => offered.clear(),
        4 if rows > 0 => offered[r.below(rows) * 8..][..8].fill(BLANK),
        5 if rows > 0 => offered[r.below(rows) * 8 + r.below(8)] |= LOCKED,
        6 if rows > 0 => offered[r.below(rows) * 8 + r.below(8)] = r.word(),
        _ => (),
    }
}

/// The case with one to three of its annotations left blank, now and then four, or one of them in seven words alone. They are offered among
/// others in any order, now and then without one of them.
pub fn leave_blank(r: &mut Random, c: &Case) -> Case {
    let mut c = c.clone();
    let mut places: Vec<usize> = (0..c.blocks.len() / 9).collect();
    r.shuffle(&mut places);
    places.truncate(if r.chance(5) { 4 } else { 1 + r.below(3) });
    let mut rows: Vec<Vec<u32>> = places.iter().map(|b| c.blocks[b * 9 + 1..][..8].to_vec()).collect();
    rows.truncate(if r.chance(6) { rows.len().saturating_sub(1) } else { rows.len() });
    let most = if r.chance(8) { OFFERED } else { rows.len().max(4) };
    for _ in 0..r.below(most - rows.len() + 1) {
        rows.push(other_offer(r, &c));
    }
    r.shuffle(&mut rows);
    c.offered = rows.concat();
    spoil(r, &mut c.offered);
    for b in places {
        c.blocks[b * 9 + 1..][..8].fill(BLANK);
        if r.chance(40) {
            c.blocks[b * 9 + 1 + r.below(8)] = 0;
        }
    }
    c
}

/// A table of random words: a few rows, none, as many as may be or one more, and now and then a part of a row.
fn words(r: &mut Random, width: usize, most: usize) -> Vec<u32> {
    let rows = match r.below(24) {
        0 => 0,
        1 => most,
        2 => most + 1,
        _ => 1 + r.below(6),
    };
    let n = rows * width + if r.chance(8) { r.below(width) } else { 0 };
    (0..n).map(|_| r.word()).collect()
}

/// A case of random words. Field counts and block lengths are mostly right, so that questions past them are reached, and so are
/// opcodes.
pub fn random(r: &mut Random) -> Case {
    let mut c = Case {
        types: words(r, 9, 64),
        tags: words(r, 1, 64),
        allocations: words(r, 2, 4096),
        memory: words(r, 1, 16384),
        ..Case::default()
    };
    let good = !r.chance(4);
    let count = c.types.len() / 9;
    for row in c.types.chunks_exact_mut(9).filter(|_| good) {
        row[0] = 1 + r.below(8) as u32;
        for f in 1..9 {
            row[f] = if f as u32 > row[0] { 0 } else { any_type(r, count, row[0] as usize) };
        }
        let n = row[0] as usize;
        lock(r, &mut row[1..=n]);
    }
    for row in c.allocations.chunks_exact_mut(2).filter(|_| good) {
        row[1] = r.below(count) as u32;
    }
    c.blocks = words(r, 9, 256);
    let mut length = 0;
    c.offered = if r.chance(4) { words(r, 8, OFFERED) } else { (0..8 * r.below(4)).map(|_| any_type(r, count, 8)).collect() };
    for row in c.blocks.chunks_exact_mut(9).filter(|_| good) {
        row[0] = 1 + r.below(32) as u32;
        length += row[0] as usize;
        for w in &mut row[1..] {
            *w = if r.chance(40) { *w } else { any_type(r, count, 8) };
        }
    }
    c.code = if good { (0..length).map(|_| r.word() & 0x77_ffff | (r.below(14) as u32) << 24).collect() } else { words(r, 1, 8192) };
    c.block = if r.chance(4) { r.word() } else { r.below(6) as u32 };
    c.registers = std::array::from_fn(|_| r.word());
    c.budget = r.below(64) as u64;
    c
}

/// A few words changed, or a table's length.
pub fn change(r: &mut Random, c: &mut Case) {
    for _ in 0..1 + r.below(3) {
        let word = r.word();
        let bit = 1 << r.below(32);
        let which = r.below(10);
        if which == 9 {
            c.block = if r.chance(2) { r.below(8) as u32 } else { word };
            continue;
        }
        if which == 8 {
            c.registers[r.below(8)] = word;
            continue;
        }
        let table = match which {
            0 => &mut c.types,
            1 => &mut c.tags,
            2 => &mut c.allocations,
            3 => &mut c.memory,
            4 => &mut c.blocks,
            5 => &mut c.offered,
            _ => &mut c.code,
        };
        match r.below(12) {
            0 => drop(table.pop()),
            1 => table.push(word),
            _ if table.is_empty() => table.push(word),
            k => {
                let at = r.below(table.len());
                table[at] = if k < 6 { word } else { table[at] ^ bit };
            }
        }
    }
}

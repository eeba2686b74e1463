//! How a block is read: values, known constants, fits, the open record, edges.

use crate::tables::*;

/// A value's name. A block makes at most 256: eight at its entry, eight with each of the 31 instructions before its last.
type Name = u8;

/// What a type may depend on, and what may be known equal: a value, or a constant.
#[derive(Clone, Copy, PartialEq, Eq)]
enum Dep {
    Value(Name),
    Constant(u16),
}

fn dep(x: usize, names: &[Name; 8]) -> Dep {
    if x < 8 {
        Dep::Value(names[x])
    } else {
        Dep::Constant(x as u16 - 8)
    }
}

#[derive(Clone, Copy)]
struct Value {
    /// its type word, whose names are eight values made together, this the first
    word: u32,
    siblings: Name,
    /// what stands for all that it is known equal to: their constant if they have one, else one of them
    class: Dep,
}

impl Value {
    fn dep(self, x: usize) -> Dep {
        if x < 8 {
            Dep::Value(self.siblings.wrapping_add(x as Name))
        } else {
            Dep::Constant(x as u16 - 8)
        }
    }

    fn d(self) -> Dep {
        self.dep(first(self.word))
    }

    fn e(self) -> Dep {
        self.dep(second(self.word))
    }
}

/// A place that no value has taken yet.
const UNTAKEN: Value = Value { word: 0, siblings: 0, class: Dep::Value(0) };

/// What a taken opcode 11 adds: what stood for ra, and the constant that ra is known to be.
type Fact = Option<(Dep, Dep)>;

pub struct Open {
    base: Name,
    fields: [Name; 8],
}

pub struct Reading<'a> {
    pub types: Types<'a>,
    values: [Value; 256],
    made: usize,
    registers: [Name; 8],
    /// bases read since the last close, with the first of the eight values of their fields
    views: Vec<(Name, Name)>,
    pub open: Option<Open>,
}

/// Eight values made together.
fn eight(first: Name) -> [Name; 8] {
    std::array::from_fn(|i| first.wrapping_add(i as Name))
}

impl<'a> Reading<'a> {
    pub fn new(types: Types<'a>) -> Self {
        Reading { types, values: [UNTAKEN; 256], made: 0, registers: [0; 8], views: Vec::with_capacity(31), open: None }
    }

    /// At entry each register holds its own value, typed by the annotation.
    pub fn enter(&mut self, annotation: &[u32]) {
        self.made = 0;
        self.views.clear();
        self.open = None;
        self.registers = eight(self.born(annotation));
    }

    /// Eight values typed by a row, each other's siblings; gives the first.
    fn born(&mut self, row: &[u32]) -> Name {
        let siblings = self.made as Name;
        for (i, &word) in row.iter().enumerate() {
            self.values[self.made + i] = Value { word, siblings, class: Dep::Value(siblings.wrapping_add(i as Name)) };
        }
        for (i, &word) in row.iter().enumerate() {
            if kind(word) == SAME {
                self.join(siblings.wrapping_add(i as Name));
            }
        }
        self.made += 8;
        siblings
    }

    /// A value of type Same is known equal to its dependency, and so are all that it stands for so far.
    fn join(&mut self, v: Name) {
        let value = self.value(v);
        let class = self.class(value.d(), None);
        for sibling in &mut self.values[value.siblings as usize..][..8] {
            if sibling.class == Dep::Value(v) {
                sibling.class = class;
            }
        }
    }

    fn value(&self, v: Name) -> Value {
        self.values[v as usize]
    }

    fn held(&self, a: usize) -> Value {
        self.value(self.registers[a])
    }

    /// A new value for register a, known equal to no other.
    fn fresh(&mut self, a: usize, word: u32, siblings: Name) -> &mut Value {
        let name = self.made as Name;
        self.made += 1;
        self.registers[a] = name;
        self.values[name as usize] = Value { word, siblings, class: Dep::Value(name) };
        &mut self.values[name as usize]
    }

    pub fn constant(&mut self, a: usize, c: u32) {
        self.fresh(a, 0, 0).class = Dep::Constant(c as u16);
    }

    pub fn copy(&mut self, a: usize, b: usize) {
        self.registers[a] = self.registers[b];
    }

    pub fn unknown(&mut self, a: usize) {
        self.fresh(a, 0, 0);
    }

    /// The kind that a value of this type word has after opcode 7, None for Any: In by the size of a record is From; a run by whole records
    /// of 1, 2, 4 or 8 words is Run.
    fn moved_kind(&self, word: u32, c: u32) -> Option<u32> {
        if kind(word) < RUN {
            return None;
        }
        let n = self.types.size(record(word)) as u32;
        if kind(word) == IN && c == n {
            return Some(FROM);
        }
        (n.is_power_of_two() && c % n == 0).then_some(RUN)
    }

    /// Opcode 7.
    pub fn moved(&mut self, a: usize, b: usize, c: u32) {
        let Value { word, siblings, .. } = self.held(b);
        match self.moved_kind(word, c) {
            Some(kind) => self.fresh(a, with_kind(word, kind), siblings),
            None => self.fresh(a, 0, 0),
        };
    }

    // ---- known constants, known equal

    /// What stands for all that x is known equal to, by 'the least relation with the three cases of 01 that is also symmetric and transitive'.
    fn class(&self, x: Dep, fact: Fact) -> Dep {
        let class = match x {
            Dep::Value(v) => self.value(v).class,
            Dep::Constant(_) => x,
        };
        match fact {
            Some((known, constant)) if class == known => constant,
            _ => class,
        }
    }

    fn equal(&self, x: Dep, y: Dep, fact: Fact) -> bool {
        x == y || self.class(x, fact) == self.class(y, fact)
    }

    /// Whether a known constant of x passes a test: 'a value known equal to one with a known constant has that constant; where it then has
    /// two, either serves'.
    fn some_constant(&self, x: Dep, fact: Fact, test: impl Fn(u32) -> bool) -> bool {
        let passes = |class: Dep| matches!(class, Dep::Constant(c) if test(u32::from(c)));
        let class = self.class(x, fact);
        passes(class) || fact.is_some_and(|(known, constant)| class == constant && passes(known))
    }

    fn known_tag(&self, d: Dep, t: usize, fact: Fact) -> bool {
        self.some_constant(d, fact, |k| self.types.tag_of(k, t))
    }

    // ---- fits

    fn fits_ref(&self, v: Name, t: usize, fact: Fact) -> bool {
        let value = self.value(v);
        match kind(value.word) {
            REF | IN => record(value.word) == t,
            PRESENT => self.known_tag(value.d(), t, fact),
            _ => false,
        }
    }

    /// Whether value v fits the type word w over names.
    fn fits(&self, v: Name, w: u32, names: &[Name; 8], fact: Fact) -> bool {
        let value = self.value(v);
        let (k, t) = (kind(value.word), record(w));
        let d = || dep(first(w), names);
        let zero = || self.some_constant(Dep::Value(v), fact, |c| c == 0);
        match kind(w) {
            ANY => true,
            SAME => self.equal(Dep::Value(v), d(), fact),
            REF => self.fits_ref(v, t, fact),
            MAYBE => {
                self.fits_ref(v, t, fact)
                    || zero()
                    || k == MAYBE && record(value.word) == t
                    || k == TAGGED
                        && self.some_constant(value.d(), fact, |k| self.types.tag_of(k, t) || k as usize >= self.types.tags.len())
            }
            TAGGED => {
                zero()
                    || k == TAGGED && self.equal(value.d(), d(), fact)
                    || k == MAYBE && self.known_tag(d(), record(value.word), fact)
                    || self.fits_present(v, d(), fact)
            }
            PRESENT => self.fits_present(v, d(), fact),
            wanted => {
                k >= wanted
                    && record(value.word) == t
                    && self.equal(value.d(), d(), fact)
                    && self.equal(value.e(), dep(second(w), names), fact)
            }
        }
    }

    fn fits_present(&self, v: Name, d: Dep, fact: Fact) -> bool {
        let value = self.value(v);
        match kind(value.word) {
            PRESENT => self.equal(value.d(), d, fact),
            REF | IN => self.known_tag(d, record(value.word), fact),
            _ => false,
        }
    }

    fn row_fits(&self, row: &[u32], names: &[Name; 8], fact: Fact) -> bool {
        row.iter().zip(names).all(|(&w, &v)| w == 0 || self.fits(v, w, names, fact))
    }

    // ---- loads and stores

    /// The T of the Ref T that the value in register b fits.
    pub fn reference(&self, b: usize) -> Option<usize> {
        let value = self.held(b);
        match kind(value.word) {
            REF | IN => Some(record(value.word)),
            PRESENT => match self.class(value.d(), None) {
                Dep::Constant(k) => self.types.tags.get(usize::from(k)).map(|&t| t as usize),
                Dep::Value(_) => None,
            },
            _ => None,
        }
    }

    pub fn may_touch(&self, b: usize) -> bool {
        self.open.as_ref().is_none_or(|o| o.base == self.registers[b])
    }

    /// The first of the eight values of the fields seen through value v, a reference to a record of type t.
    fn view(&mut self, v: Name, t: usize) -> Name {
        if let Some(&(_, first)) = self.views.iter().find(|view| view.0 == v) {
            return first;
        }
        let first = self.born(self.types.fields(t));
        self.views.push((v, first));
        first
    }

    pub fn load(&mut self, a: usize, b: usize, c: usize, t: usize) {
        self.registers[a] = match &self.open {
            Some(o) => o.fields[c],
            None => self.view(self.registers[b], t).wrapping_add(c as Name),
        };
    }

    pub fn store(&mut self, a: usize, b: usize, c: usize, t: usize) {
        let base = self.registers[b];
        let mut fields = match &self.open {
            Some(o) => o.fields,
            None => eight(self.view(base, t)),
        };
        fields[c] = self.registers[a];
        if self.row_fits(self.types.fields(t), &fields, None) {
            self.views.clear();
            self.open = None;
        } else {
            self.open = Some(Open { base, fields });
        }
    }

    // ---- edges

    /// Whether the registers meet an annotation.
    pub fn meets(&self, annotation: &[u32]) -> bool {
        self.row_fits(annotation, &self.registers, None)
    }

    /// The same with another kind of the value in register a.
    fn meets_as(&mut self, annotation: &[u32], a: usize, kind: u32) -> bool {
        let v = self.registers[a] as usize;
        let before = self.values[v].word;
        self.values[v].word = with_kind(before, kind);
        let met = self.meets(annotation);
        self.values[v].word = before;
        met
    }

    pub fn meets_equal(&self, annotation: &[u32], a: usize, k: u32) -> bool {
        self.row_fits(annotation, &self.registers, Some((self.held(a).class, Dep::Constant(k as u16))))
    }

    pub fn meets_not_equal(&mut self, annotation: &[u32], a: usize, k: u32) -> bool {
        match (k, kind(self.held(a).word)) {
            (0, MAYBE) => self.meets_as(annotation, a, REF),
            (0, TAGGED) => self.meets_as(annotation, a, PRESENT),
            _ => self.meets(annotation),
        }
    }

    pub fn meets_less(&mut self, annotation: &[u32], a: usize, b: usize) -> bool {
        let value = self.held(a);
        if kind(value.word) == FROM && self.equal(Dep::Value(self.registers[b]), value.e(), None) {
            return self.meets_as(annotation, a, IN);
        }
        self.meets(annotation)
    }

    pub fn meets_not_less(&mut self, annotation: &[u32], a: usize, b: usize) -> bool {
        let value = self.held(a);
        if kind(value.word) == RUN && self.equal(Dep::Value(self.registers[b]), value.d(), None) {
            return self.meets_as(annotation, a, FROM);
        }
        self.meets(annotation)
    }
}

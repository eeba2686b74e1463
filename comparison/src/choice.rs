//! The check with an offered list by the idea of the proved one, in plain Rust: what the benchmark holds the proved one against, since trying
//! one choice after another, as the plain implementation does, takes up to 512 checks. The differential test holds both to its answers.
//!
//! A block's questions read no annotations but its own, its target's and the next block's. So each block is judged once for every choice for
//! those of these that are blank, and where it is refused, all choices with these rows are struck out. The first that is left is the answer.

use ramdulsi_reference::checks::{before_choice, judge, lay};
use ramdulsi_reference::generate::Case;
use ramdulsi_reference::machine::parts;
use ramdulsi_reference::protocol::Answer;
use ramdulsi_reference::reading::Reading;
use ramdulsi_reference::tables::{Routine, Types, BLANKS};
use ramdulsi_reference::{check, CheckAnswer, OfferedAnswer, Verdict};

/// A set of choices for three blank blocks of eight offered rows: one bit for each, in the order of the choices.
#[derive(Clone, Copy)]
struct Choices([u64; 8]);

impl Choices {
    /// Those with a place for one of the three blocks, 0 the lowest.
    fn with(block: usize, place: usize) -> Self {
        Choices(std::array::from_fn(|high| match block {
            0 if high == place => u64::MAX,
            0 => 0,
            1 => 0xff << (8 * place),
            _ => 0x0101_0101_0101_0101 << place,
        }))
    }

    fn and(self, other: Self) -> Self {
        Choices(std::array::from_fn(|i| self.0[i] & other.0[i]))
    }

    fn without(self, other: Self) -> Self {
        Choices(std::array::from_fn(|i| self.0[i] & !other.0[i]))
    }

    fn or(self, other: Self) -> Self {
        Choices(std::array::from_fn(|i| self.0[i] | other.0[i]))
    }

    fn is_empty(self) -> bool {
        self.0 == [0; 8]
    }

    /// All for so many blank blocks and offered rows; the place for a block that there is not is 0.
    fn all(blanks: usize, rows: usize) -> Self {
        (0..BLANKS).fold(Choices([u64::MAX; 8]), |all, block| {
            let rows = if block < blanks { rows } else { 1 };
            all.and((0..rows).fold(Choices([0; 8]), |any, place| any.or(Choices::with(block, place))))
        })
    }

    fn first(self) -> Option<[u32; BLANKS]> {
        let high = self.0.iter().position(|&word| word != 0)?;
        let low = self.0[high].trailing_zeros();
        Some([high as u32, low / 8, low % 8])
    }
}

/// A routine with blank rows while its blocks are judged.
struct Search<'a> {
    code: &'a [u32],
    offered: &'a [u32],
    blanks: &'a [usize],
    /// the block table, in whose blank rows stands what is tried
    rows: Vec<u32>,
    left: Choices,
    /// fit questions of the block that was judged last, where it was not refused
    asked: u32,
}

impl Search<'_> {
    /// Which of the blank blocks have their annotations read by the questions of a block, whose last instruction this is.
    fn read(&self, b: usize, last: u32) -> Vec<usize> {
        let p = parts(last);
        let (target, next) = match p.op {
            10 => (p.c as usize, b),
            11 => (p.c as usize & 255, b + 1),
            12 => (p.c as usize, b + 1),
            _ => (b, b),
        };
        (0..self.blanks.len()).filter(|&i| [b, target, next].contains(&self.blanks[i])).collect()
    }

    /// Judges a block for each choice for the blank blocks that are given, among choices that agree in others; strikes out what is refused.
    fn judge(&mut self, reading: &mut Reading, b: usize, start: usize, given: &[usize], among: Choices) {
        let among = self.left.and(among);
        if among.is_empty() {
            return;
        }
        if let [block, more @ ..] = given {
            for place in 0..self.offered.len() / 8 {
                let row = self.blanks[*block] * 9 + 1;
                self.rows[row..row + 8].copy_from_slice(&self.offered[place * 8..][..8]);
                self.judge(reading, b, start, more, among.and(Choices::with(*block, place)));
            }
            return;
        }
        let mut asked = 0;
        match judge(Routine { rows: &self.rows, code: self.code }, reading, b..b + 1, start, &mut asked) {
            Ok(()) => self.asked = asked,
            Err(_) => self.left = self.left.without(among),
        }
    }

    /// Judges all blocks. The first choice that is left, and the fit questions of the blocks that are not blank: these are the same with
    /// every choice that is left.
    fn first(&mut self, reading: &mut Reading) -> Option<([u32; BLANKS], u32)> {
        let (mut start, mut asked) = (0, 0);
        for b in 0..self.rows.len() / 9 {
            let end = start + self.rows[b * 9] as usize;
            let given = self.read(b, self.code[end - 1]);
            self.judge(reading, b, start, &given, Choices([u64::MAX; 8]));
            if self.left.is_empty() {
                return None;
            }
            asked += if self.blanks.contains(&b) { 0 } else { self.asked };
            start = end;
        }
        Some((self.left.first()?, asked))
    }
}

/// The questions before the choice; then a way to choose for a routine with blank rows, which it gets with the table as it is.
fn answered(
    [types, tags, blocks, code, offered]: [&[u32]; 5],
    choose: impl FnOnce(&[usize]) -> Option<(CheckAnswer, [u32; BLANKS])>,
) -> OfferedAnswer {
    let blanks = Routine { rows: blocks, code }.blanks();
    if blanks.is_empty() {
        return OfferedAnswer::new(check(types, tags, blocks, code), [0; BLANKS]);
    }
    if let Err(no) = before_choice(types, tags, blocks, code, offered) {
        return OfferedAnswer::refused(no);
    }
    match choose(&blanks) {
        Some((answer, choice)) => OfferedAnswer::new(answer, choice),
        None => OfferedAnswer::refused(Verdict { number: 33, first: blanks[0] as u32, second: 0 }),
    }
}

fn search<'a>(blocks: &[u32], code: &'a [u32], offered: &'a [u32], blanks: &'a [usize]) -> Search<'a> {
    Search { code, offered, blanks, rows: blocks.to_vec(), left: Choices::all(blanks.len(), offered.len() / 8), asked: 0 }
}

/// The fit questions counted as the proved check does it: by one check of the filled table.
pub fn plain(types: &[u32], tags: &[u32], blocks: &[u32], code: &[u32], offered: &[u32]) -> OfferedAnswer {
    answered([types, tags, blocks, code, offered], |blanks| {
        let mut search = search(blocks, code, offered, blanks);
        let (choice, _) = search.first(&mut Reading::new(Types { rows: types, tags }))?;
        lay(&mut search.rows, offered, blanks, choice);
        Some((check(types, tags, &search.rows, code), choice))
    })
}

/// What is written for speed: the first choice is tried by a check, since where it is accepted nothing else is to be asked. Then the fit
/// questions are counted as the blocks are judged, and of the blank ones at the end.
pub fn fast(types: &[u32], tags: &[u32], blocks: &[u32], code: &[u32], offered: &[u32]) -> OfferedAnswer {
    answered([types, tags, blocks, code, offered], |blanks| {
        let mut search = search(blocks, code, offered, blanks);
        lay(&mut search.rows, offered, blanks, search.left.first()?);
        let tried = check(types, tags, &search.rows, code);
        if tried.number == 0 {
            return Some((tried, [0; BLANKS]));
        }
        let mut reading = Reading::new(Types { rows: types, tags });
        let (choice, mut asked) = search.first(&mut reading)?;
        lay(&mut search.rows, offered, blanks, choice);
        let filled = Routine { rows: &search.rows, code };
        let starts = filled.starts();
        for &b in blanks {
            judge(filled, &mut reading, b..b + 1, starts[b], &mut asked).expect("a choice that is left");
        }
        Some((CheckAnswer { number: 0, first: 0, second: 0, asked }, choice))
    })
}

/// The answers of both to a case.
pub fn answers(c: &Case) -> [Answer; 2] {
    [plain, fast].map(|check| Answer::Checked(check(&c.types, &c.tags, &c.blocks, &c.code, &c.offered)))
}

//! Requests and answers of the line protocol.

use crate::generate::Case;
use crate::{Loader, OfferedAnswer, Plain, RunAnswer, Verdict};
use std::fmt::{self, Write as _};
use std::io::{self, BufRead, Write};

/// The four requests.
pub const REQUESTS: [&str; 4] = ["check", "memory", "entry", "run"];

/// Words that a line may hold: those of its tables, BLOCK and the registers.
pub const POOL: u64 = 135_168;

fn blank(byte: &u8) -> bool {
    matches!(byte, b' ' | b'\t' | b'\r')
}

/// Whether a line gets no answer: it is empty, or a comment.
pub fn passed_over(line: &[u8]) -> bool {
    line.iter().find(|byte| !blank(byte)).is_none_or(|byte| *byte == b'#')
}

/// A line cut at its blanks, with the words of the pool that are left to it. What goes wrong is said by its place in the line.
struct Tokens<'a> {
    line: &'a [u8],
    at: usize,
    left: u64,
}

impl<'a> Tokens<'a> {
    /// The next token and its place; the line's length where there is none.
    fn token(&mut self) -> Result<(usize, &'a [u8]), usize> {
        let rest = &self.line[self.at..];
        let start = self.at + rest.iter().take_while(|byte| blank(byte)).count();
        let token = &self.line[start..];
        let token = &token[..token.iter().take_while(|byte| !blank(byte)).count()];
        self.at = start + token.len();
        if token.is_empty() {
            Err(self.line.len())
        } else {
            Ok((start, token))
        }
    }

    /// The request that the line names. A token that is none is wrong where it leaves the name that it begins like.
    fn request(&mut self) -> Result<&'static str, usize> {
        let (start, token) = self.token()?;
        let alike = |name: &str| token.iter().zip(name.bytes()).take_while(|(a, b)| *a == b).count();
        let named = REQUESTS.into_iter().find(|name| name.as_bytes() == token);
        named.ok_or_else(|| start + REQUESTS.into_iter().map(alike).max().unwrap_or(0))
    }

    fn number(&mut self, most: u64) -> Result<u64, usize> {
        let (start, token) = self.token()?;
        value(token, most).map_err(|i| start + i)
    }

    fn word(&mut self) -> Result<u32, usize> {
        Ok(self.number(u64::from(u32::MAX))? as u32)
    }

    /// A word that the line has no count for. Where the pool has no room left for it, reading stops at the number's end.
    fn single(&mut self) -> Result<u32, usize> {
        let word = self.word()?;
        if self.left == 0 {
            return Err(self.at);
        }
        self.left -= 1;
        Ok(word)
    }

    fn table(&mut self) -> Result<Vec<u32>, usize> {
        let n = self.number(self.left)?;
        self.left -= n;
        // the count is no reason to take memory: the line may not have the words
        let mut table = Vec::with_capacity((n as usize).min((self.line.len() - self.at) / 2));
        for _ in 0..n {
            table.push(self.word()?);
        }
        Ok(table)
    }

    fn registers(&mut self) -> Result<[u32; 8], usize> {
        let mut all = [0; 8];
        for r in &mut all {
            *r = self.single()?;
        }
        Ok(all)
    }

    /// A line has nothing after its request.
    fn end(&mut self) -> Result<(), usize> {
        match self.token() {
            Ok((start, _)) => Err(start),
            Err(_) => Ok(()),
        }
    }
}

/// A token's digits and what they count by: after `0x` hexadecimal ones, decimal ones otherwise.
fn digits(token: &[u8]) -> (usize, u32) {
    if token.starts_with(b"0x") {
        (2, 16)
    } else {
        (0, 10)
    }
}

/// A token's value, or where in the token it is no number of at most so much.
fn value(token: &[u8], most: u64) -> Result<u64, usize> {
    let (first, base) = digits(token);
    if token.len() == first {
        return Err(first);
    }
    let mut value = 0u64;
    for (i, byte) in token.iter().enumerate().skip(first) {
        let digit = (*byte as char).to_digit(base).ok_or(i)?;
        let next = value.checked_mul(u64::from(base)).and_then(|v| v.checked_add(u64::from(digit)));
        value = next.filter(|v| *v <= most).ok_or(i)?;
    }
    Ok(value)
}

/// A line's request and what it is about, or the place where the line is no request.
pub fn read(line: &[u8]) -> Result<(&'static str, Case), usize> {
    let t = &mut Tokens { line, at: 0, left: POOL };
    let request = t.request()?;
    let mut c = Case::default();
    match request {
        "check" => (c.types, c.tags, c.blocks, c.code, c.offered) = (t.table()?, t.table()?, t.table()?, t.table()?, t.table()?),
        "memory" => (c.types, c.tags, c.allocations, c.memory) = (t.table()?, t.table()?, t.table()?, t.table()?),
        "entry" => {
            (c.types, c.tags, c.allocations, c.memory) = (t.table()?, t.table()?, t.table()?, t.table()?);
            (c.blocks, c.code, c.block, c.registers) = (t.table()?, t.table()?, t.single()?, t.registers()?);
        }
        _ => {
            (c.blocks, c.code, c.memory, c.block) = (t.table()?, t.table()?, t.table()?, t.single()?);
            (c.registers, c.budget) = (t.registers()?, t.number(u64::MAX)?);
        }
    }
    t.end()?;
    Ok((request, c))
}

fn list(words: &[u32]) -> String {
    let mut text = String::new();
    for word in words {
        write!(text, " {word}").expect("a string takes all");
    }
    text
}

/// The line of a request about a case.
pub fn line(request: &str, c: &Case) -> String {
    let table = |t: &[u32]| format!(" {}{}", t.len(), list(t));
    let tables = |all: &[&[u32]]| all.iter().map(|t| table(t)).collect::<String>();
    match request {
        "check" => format!("check{}", tables(&[&c.types, &c.tags, &c.blocks, &c.code, &c.offered])),
        "memory" => format!("memory{}", tables(&[&c.types, &c.tags, &c.allocations, &c.memory])),
        "entry" => {
            let all = tables(&[&c.types, &c.tags, &c.allocations, &c.memory, &c.blocks, &c.code]);
            format!("entry{all} {}{}", c.block, list(&c.registers))
        }
        _ => format!("run{} {}{} {}", tables(&[&c.blocks, &c.code, &c.memory]), c.block, list(&c.registers), c.budget),
    }
}

/// What a call gives: the answer of a routine's check, the verdict of another check, or a run's answer with the memory that it leaves.
#[derive(Debug, PartialEq, Eq)]
pub enum Answer {
    Checked(OfferedAnswer),
    Verdict(Verdict),
    Ran(RunAnswer, Vec<u32>),
}

impl Answer {
    pub fn number(&self) -> u32 {
        match self {
            Answer::Checked(a) => a.number,
            Answer::Verdict(v) => v.number,
            Answer::Ran(a, _) => a.number,
        }
    }
}

/// The answer's line.
impl fmt::Display for Answer {
    fn fmt(&self, f: &mut fmt::Formatter) -> fmt::Result {
        match self {
            Answer::Checked(a) => write!(f, "{} {} {} {}{}", a.number, a.first, a.second, a.asked, list(&a.choice)),
            Answer::Verdict(v) => write!(f, "{} {} {}", v.number, v.first, v.second),
            Answer::Ran(RunAnswer { number, block, index, finished, registers }, memory) => {
                write!(f, "{number} {block} {index} {finished}{} {}{}", list(registers), memory.len(), list(memory))
            }
        }
    }
}

pub fn answer<L: Loader>(request: &str, c: &Case) -> Answer {
    match request {
        "check" => Answer::Checked(L::check_offered(&c.types, &c.tags, &c.blocks, &c.code, &c.offered)),
        "memory" => Answer::Verdict(L::memory_check(&c.types, &c.tags, &c.allocations, &c.memory)),
        "entry" => Answer::Verdict(L::entry_check(&c.types, &c.tags, &c.allocations, &c.memory, &c.blocks, &c.code, c.block, c.registers)),
        _ => {
            let mut memory = c.memory.clone();
            let a = L::run(&c.blocks, &c.code, &mut memory, c.block, c.registers, c.budget);
            Answer::Ran(a, memory)
        }
    }
}

/// The plain implementation's answer to a line, without a line end; nothing where the line gets none.
pub fn reply(line: &[u8]) -> Option<String> {
    if passed_over(line) {
        return None;
    }
    Some(match read(line) {
        Ok((request, case)) => answer::<Plain>(request, &case).to_string(),
        Err(place) => format!("malformed {place}"),
    })
}

/// Answers the lines of an input, each with its number before the answer where these are wanted.
pub fn serve(mut input: impl BufRead, mut output: impl Write, numbered: bool) -> io::Result<()> {
    let mut line = Vec::new();
    let mut number = 0;
    while input.read_until(b'\n', &mut line)? > 0 {
        number += 1;
        if let Some(reply) = reply(line.strip_suffix(b"\n").unwrap_or(&line)) {
            if numbered {
                write!(output, "{number} ")?;
            }
            writeln!(output, "{reply}")?;
        }
        line.clear();
    }
    output.flush()
}

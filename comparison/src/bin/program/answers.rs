//! What the program answers, held against the plain implementation line by line, with the places of malformed lines.

use crate::mutate::{mutate, random as random_line};
use crate::process::{alike, plain, vectors as stored, Program};
use crate::Outcome;
use ramdulsi_reference::generate::Random;
use ramdulsi_reference::protocol::POOL;
use std::time::Instant;

/// How many answers an input gets, and how many of them are for malformed lines.
fn counted(input: &[u8]) -> (usize, usize) {
    let answers = plain(input);
    let lines = answers.split(|byte| *byte == b'\n').filter(|line| !line.is_empty());
    let malformed = lines.clone().filter(|line| line.starts_with(b"malformed")).count();
    (lines.count(), malformed)
}

pub fn vectors(program: &Program) -> Outcome {
    let input = stored()?;
    program.compare(&[], &input, "crates/ramdulsi/stdin")?;
    Ok(format!("{} answers to crates/ramdulsi/stdin are those of the plain implementation", counted(&input).0))
}

/// The bytes with each one replaced.
fn replaced(bytes: &[u8], old: u8, new: &[u8]) -> Vec<u8> {
    bytes.iter().flat_map(|byte| if *byte == old { new } else { std::slice::from_ref(byte) }).copied().collect()
}

pub fn ends(program: &Program) -> Outcome {
    let input: Vec<u8> = stored()?.split_inclusive(|byte| *byte == b'\n').filter(|line| line.len() < 400).flatten().copied().collect();
    let carriage = replaced(&input, b'\n', b"\r\n");
    let tabs = replaced(&input, b' ', b"\t");
    let wide = replaced(&replaced(&input, b' ', b" \t\r "), b'\n', b" \t\n");
    for (what, input) in [("lines that end with CR LF", &carriage), ("tabs", &tabs), ("many blanks", &wide)] {
        program.compare(&[], input, what)?;
    }
    for last in ["check 0 0 0 0 0", "check 0 0 0 0 0\r", "run 0", "check 0 0 0 0 0x", "# end", " ", "\t#", "x", "check"] {
        let input = format!("check 0 0 0 0 0x0\n\n{last}");
        program.compare(&[], input.as_bytes(), &format!("a last line {last:?} without a line end"))?;
    }
    program.compare(&[], b"", "no input")?;
    program.compare(&[], b"\n\n\r\n \t\n", "empty lines")?;
    Ok("CR LF, tabs, many blanks, and last lines without a line end are read as the plain implementation reads them".into())
}

pub fn nul(program: &Program) -> Outcome {
    let line = b"check 0x1 5 0 0 0 0\n";
    let mut input = Vec::new();
    for byte in [0, 0x0b, 0x0c, 0x1a, 0x7f, 0x80, 0xa0, 0xff] {
        for at in 0..line.len() {
            input.extend(&line[..at]);
            input.push(byte);
            input.extend(&line[at..]);
        }
        input.extend([byte, b'\n', byte, b'#', b'\n', b' ', byte, b'\n']);
    }
    program.compare(&[], &input, "a byte that belongs to no request at each place")?;
    Ok(format!("NUL, other control bytes and bytes over 127 at each place: {} answers alike", counted(&input).0))
}

pub fn random(program: &Program) -> Outcome {
    let mut r = Random::new(program.seed);
    let mut input = Vec::new();
    for _ in 0..40_000 {
        input.extend(random_line(&mut r));
        input.push(b'\n');
    }
    program.compare(&[], &input, "random bytes")?;
    let (all, malformed) = counted(&input);
    Ok(format!("random bytes: {all} answers alike, {malformed} of them malformed"))
}

pub fn mutated(program: &Program) -> Outcome {
    let stored = stored()?;
    let lines: Vec<&[u8]> = stored.split(|byte| *byte == b'\n').filter(|line| (1..2000).contains(&line.len())).collect();
    let mut r = Random::new(program.seed);
    let mut input = Vec::new();
    for _ in 0..40_000 {
        let line = r.pick(&lines);
        if let Some(line) = mutate(&mut r, line) {
            input.extend(line);
            input.push(b'\n');
        }
    }
    program.compare(&[], &input, "changed vectors")?;
    let (all, malformed) = counted(&input);
    Ok(format!("changed vectors, a third of the numbers hexadecimal: {all} answers alike, {malformed} of them malformed"))
}

/// A request of a name whose last table has so many words, with what follows.
fn filled(before: &str, count: &str, words: u64, after: &str) -> String {
    format!("{before} {count}{} {after}\n", " 0".repeat(words as usize))
}

/// Tables that take the whole pool, or more than it.
pub fn limits(program: &Program) -> Outcome {
    let mut input = String::new();
    for count in [POOL - 1, POOL, POOL + 1, 10 * POOL] {
        let words = count.min(POOL + 1);
        for count in [format!("{count}"), format!("{count:#x}"), format!("000{count}"), format!("0x00{count:X}")] {
            input += &filled("check 0 0 0 0", &count, words, "");
        }
        input += &filled("memory 0 1 5 0", &(count - 1).to_string(), words - 1, "");
        input += &filled("check 0 2 0x5 6 0", &(count - 2).to_string(), words - 2, "0");
        input += &filled("check 0 0 0 0", &count.to_string(), words - 1, "");
        input += &filled("check 0 0 0 0", &count.to_string(), words + 1, "");
    }
    let (all, malformed) = counted(input.as_bytes());
    program.compare(&[], input.as_bytes(), "tables at the limit of the pool")?;
    Ok(format!("tables up to {POOL} words and beyond: {all} answers alike, {malformed} of them malformed"))
}

/// Lines whose tables leave few words of the pool to the nine numbers after them, or none.
pub fn room(program: &Program) -> Outcome {
    let mut input = String::new();
    for left in 0..12 {
        let count = POOL - left;
        for numbers in 8..11 {
            let numbers = " 0x1".repeat(numbers);
            input += &filled("entry 0 0 0 0 0", &count.to_string(), count, &numbers);
            input += &filled("run 0 0", &format!("{count:#X}").replace('X', "x"), count, &format!("{numbers} 7"));
        }
        input += &filled("run 0 0", &count.to_string(), count, "0");
        input += &filled("run 0 0", &count.to_string(), count, "x");
        input += &filled("run 0 0", &count.to_string(), count, "");
    }
    program.compare(&[], input.as_bytes(), "numbers after tables that leave them no room")?;
    let (all, malformed) = counted(input.as_bytes());
    Ok(format!("BLOCK R0 .. R7 after tables that leave 0 to 11 words: {all} answers alike, {malformed} of them malformed"))
}

/// Lines of 100 MB: wrong at the start, at the end, and not at all.
pub fn long(program: &Program) -> Outcome {
    const SIZE: usize = 100_000_000;
    let mut seconds = Vec::new();
    for (what, start, fill, end) in [
        ("a line of 100 MB, wrong at its start", "check y", b'x', "\ncheck 0 0 0 0 0\n"),
        ("a line of 100 MB of zeros, wrong at its end", "check 1 ", b'0', "x\ncheck 0 0 0 0 0\n"),
        ("a line of 100 MB of blanks, right", "check 0 0 0 0 0", b' ', "\ncheck 0 0 0 0 0x\n"),
        ("a comment of 100 MB", "#", b'#', "\ncheck 0 0 0 0 0"),
    ] {
        let mut input = start.as_bytes().to_vec();
        input.resize(SIZE, fill);
        input.extend(end.as_bytes());
        let began = Instant::now();
        let said = program.ask(&[], &input)?;
        seconds.push(format!("{what} {:.2} s", began.elapsed().as_secs_f64()));
        alike(&said.out, &plain(&input), &input).map_err(|wrong| format!("{what}: {wrong}"))?;
    }
    Ok(seconds.join(", "))
}

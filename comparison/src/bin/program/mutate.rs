//! Lines that are nearly requests: numbers written in other ways, other blanks, and a few bytes or numbers changed.

use ramdulsi_reference::generate::Random;
use ramdulsi_reference::protocol::read;

/// Bytes that a reader could take for others.
const BYTES: &[u8] = b"  \t\r00123456789xxXaAbBcCdDeEfFgG#-+.,:/@`\0\x0b\x0c\x7f\x80\xff";

/// Numbers at the limits, and what looks like a number.
const TOKENS: &str = "0 00 1 9 0x0 0x9 0x00A 4294967295 4294967296 0xffffffff 0xFfFfFfFf 0x100000000 0x00ffffffff 135168 135169 \
    0x21000 0x21001 0135168 18446744073709551615 18446744073709551616 0xffffffffffffffff 0x10000000000000000 0x 0X1 00x1 0xg 0x1g x1 \
    -1 +1 1e3 ff 0x0x1 #";

/// A run of more blocks than this is none for a test of reading.
const BUDGET: u64 = 1000;

/// A number's token, as another token of the same value.
fn spelled(r: &mut Random, token: &[u8]) -> Vec<u8> {
    let text = String::from_utf8_lossy(token);
    let Ok(value) = text.parse::<u64>() else { return token.to_vec() };
    let zeros = "0".repeat(if r.chance(4) { r.below(4) } else { 0 });
    match r.below(6) {
        0 => format!("0x{zeros}{value:x}"),
        1 => format!("0x{zeros}{value:X}"),
        2 => format!("{zeros}{value}"),
        _ => text.into_owned(),
    }
    .into_bytes()
}

/// One change of a line of tokens.
fn change(r: &mut Random, line: &mut Vec<u8>) {
    let at = r.below(line.len() + 1);
    match r.below(6) {
        0 if at < line.len() => line[at] = r.pick(BYTES),
        1 => line.insert(at, r.pick(BYTES)),
        2 if at < line.len() => drop(line.remove(at)),
        3 => line.truncate(at),
        4 if at < line.len() => line.insert(at, line[at]),
        _ => {
            // in the place of a token, where the change falls between two
            let end = at + line[at..].iter().take_while(|byte| !byte.is_ascii_whitespace()).count();
            let start = line[..at].iter().rposition(u8::is_ascii_whitespace).map_or(0, |i| i + 1);
            let tokens: Vec<&str> = TOKENS.split(' ').collect();
            line.splice(start..end, r.pick(&tokens).bytes());
        }
    }
}

/// A line like another, with no line end in it. A run that would take long is left out.
pub fn mutate(r: &mut Random, line: &[u8]) -> Option<Vec<u8>> {
    let mut new = Vec::new();
    let others = r.chance(2);
    for token in line.split(|byte| *byte == b' ') {
        if !new.is_empty() || r.chance(8) {
            new.extend_from_slice(if others { r.pick(&[" ", " ", " ", "\t", "  ", "\r", " \t "]) } else { " " }.as_bytes());
        }
        new.extend(spelled(r, token));
    }
    for _ in 0..r.below(4) {
        change(r, &mut new);
    }
    short(&new).then_some(new)
}

/// Whether a line is answered soon.
pub fn short(line: &[u8]) -> bool {
    read(line).map_or(true, |(request, case)| request != "run" || case.budget <= BUDGET)
}

/// A line of random bytes: any, or those that a request is made of.
pub fn random(r: &mut Random) -> Vec<u8> {
    let mut line = r.pick(&["", "check ", "run ", "memory", " entry 0x", "\r"]).as_bytes().to_vec();
    let any = r.chance(2);
    for _ in 0..r.below(60) {
        line.push(if any { r.draw() as u8 } else { r.pick(BYTES) });
    }
    line.retain(|byte| *byte != b'\n');
    line
}

//! Asks the proved library and the plain one the same, on valid, nearly valid and random inputs, each of them also with annotations left
//! blank and rows offered, a run of the one written for speed as well and a check of those that choose block by block, and lets accepted
//! routines take turns with both checks asked again: `compare [SEED [CASES [SECONDS]]]`. Without a seed it takes one from the clock. What a
//! routine's check costs is compared too, and held against the code and against its limit, and so is what it chooses. Before that it puts
//! instruction words to them, and compares with Q7 as document 01 words it. The first difference is shown whole, as lines that the program
//! `ramdulsi` and the plain `protocol` read.

use ramdulsi_comparison::{choice as by_blocks, fast, Proved};
use ramdulsi_reference::forms;
use ramdulsi_reference::generate::{change, leave_blank, random, Case, Random};
use ramdulsi_reference::hunt::{choice, cost, numbered, turns, Seen};
use ramdulsi_reference::protocol::{answer, line, Answer, REQUESTS};
use ramdulsi_reference::{CheckAnswer, Loader, OfferedAnswer, Plain};
use std::collections::BTreeSet;
use std::time::{Duration, Instant, SystemTime, UNIX_EPOCH};

/// Of each request, and of the check without a list, the answer numbers that occurred.
type Numbers = [BTreeSet<u32>; 5];

/// Answers of each case: ten inputs, each put to all six calls.
const ANSWERS: u64 = 60;

fn differ(request: &str, c: &Case, sides: [(&str, &dyn std::fmt::Display); 2]) -> String {
    let [(one, a), (other, b)] = sides;
    format!("the answers differ\n{}\n{one}: {a}\n{other}: {b}", line(request, c))
}

/// The number that all give to a request; an error shows how they answer differently.
fn number(request: &str, c: &Case) -> Result<u32, String> {
    let (a, b) = (answer::<Proved>(request, c), answer::<Plain>(request, c));
    if a != b {
        return Err(differ(request, c, [("proved", &a), ("plain", &b)]));
    }
    let others: Vec<Answer> = match request {
        "check" => by_blocks::answers(c).into(),
        "run" => fast::answers(c).into(),
        _ => vec![],
    };
    match others.iter().find(|other| **other != b) {
        Some(other) => Err(differ(request, c, [("another", other), ("plain", &b)])),
        None => Ok(a.number()),
    }
}

/// What the check without a list gives, and what filling gives and leaves in the block table.
fn without_request<L: Loader>(c: &Case) -> (CheckAnswer, OfferedAnswer, Vec<u32>) {
    let mut blocks = c.blocks.clone();
    let filled = L::fill(&c.types, &c.tags, &mut blocks, &c.code, &c.offered);
    (L::check(&c.types, &c.tags, &c.blocks, &c.code), filled, blocks)
}

/// Puts a case to all.
fn same(c: &Case, seen: &mut Seen, numbers: &mut Numbers) -> Result<(), String> {
    for (request, numbers) in REQUESTS.into_iter().zip(&mut *numbers) {
        numbers.insert(number(request, c)?);
    }
    let (a, b) = (without_request::<Proved>(c), without_request::<Plain>(c));
    if a != b {
        return Err(format!("check without a list, or filling, differs\n{}\nproved: {a:?}\nplain:  {b:?}", line("check", c)));
    }
    numbers[REQUESTS.len()].insert(a.0.number);
    cost::<Proved>(c, seen)
}

/// Puts a case to all, as it is and with annotations left blank.
fn same_and_blank(r: &mut Random, c: &Case, seen: &mut Seen, numbers: &mut Numbers) -> Result<(), String> {
    same(c, seen, numbers)?;
    same(&leave_blank(r, c), seen, numbers)
}

/// Puts words to all, each alone in a block and before a halt: 7 is the answer where document 01 has it so. Returns how many words.
fn same_forms() -> Result<u64, String> {
    let mut count = 0;
    for w in forms::words() {
        for code in [vec![w], vec![w, 0]] {
            let blocks = vec![code.len() as u32, 0, 0, 0, 0, 0, 0, 0, 0];
            let types = vec![1, 0, 0, 0, 0, 0, 0, 0, 0];
            let c = Case { types, blocks, code, memory: vec![0], budget: 1, ..Case::default() };
            for request in ["check", "run"] {
                if (number(request, &c)? == 7) == forms::well_formed(w) {
                    return Err(format!("document 01 says otherwise of Q7\n{}", line(request, &c)));
                }
            }
        }
        count += 1;
    }
    Ok(count)
}

/// One case of a seed: the case as it is, changed three times, and a random one, each of them also with annotations left blank.
fn compare(seed: u64, k: u64, seen: &mut Seen, numbers: &mut Numbers) -> Result<(), String> {
    let (mut r, mut c) = numbered(seed, k);
    turns::<Proved>(&mut r, &c, seen)?;
    choice::<Proved>(&mut r, &c, seen)?;
    for _ in 0..4 {
        same_and_blank(&mut r, &c, seen, numbers)?;
        change(&mut r, &mut c);
    }
    let c = random(&mut r);
    same_and_blank(&mut r, &c, seen, numbers)
}

fn main() {
    let mut words = std::env::args().skip(1).map(|w| w.parse::<u64>().expect("a number"));
    let clock = || SystemTime::now().duration_since(UNIX_EPOCH).map_or(1, |d| d.as_secs());
    let seed = words.next().unwrap_or_else(clock);
    let cases = words.next().unwrap_or(100_000);
    let limit = Duration::from_secs(words.next().unwrap_or(u64::MAX));
    match same_forms() {
        Ok(count) => println!("compare: {count} instruction words, each refused by Q7 where document 01 has it so"),
        Err(what) => {
            println!("compare: {what}");
            std::process::exit(1);
        }
    }
    println!("compare: seed {seed}");
    let began = Instant::now();
    let (mut seen, mut numbers) = (Seen::default(), Numbers::default());
    let mut k = 0;
    while k < cases && began.elapsed() < limit {
        if let Err(what) = compare(seed, k, &mut seen, &mut numbers) {
            println!("seed {seed}, case {k}: {what}");
            std::process::exit(1);
        }
        k += 1;
    }
    let Seen { routines, turns, changed, locked, asked, filled } = seen;
    println!("compare: {k} cases in {} s, {} answers alike", began.elapsed().as_secs(), ANSWERS * k);
    for (request, seen) in REQUESTS.iter().chain(&["check without a list"]).zip(numbers) {
        let all: String = seen.iter().map(|n| format!(" {n}")).collect();
        println!("compare: numbers of {request}:{all}");
    }
    println!("compare: {asked} fit questions counted, as stores and edges ask for, at most 16 for each instruction examined");
    println!("compare: {filled} routines whose blank annotations were filled, by rows that make them accepted");
    println!("compare: {routines} accepted routines took {turns} turns over checked memory, all safe; {changed} memories changed, {locked} locked words kept");
}

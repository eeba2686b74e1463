//! Tests of the program as a process, which no proof speaks of: what it reads and writes, how it waits, what it says when input or output
//! fails, and how it ends. `program [--always-0] SEED PATH [NAME ..]`: random lines from the seed, the program at the path, all tests or those
//! of these names. With `--always-0` the program is that of the crate ramdulsi, whose status is always 0.

mod answers;
mod failures;
mod mutate;
mod options;
mod process;
mod waiting;

use process::Program;
use std::process::ExitCode;
use std::time::Instant;

/// What was seen, or what is wrong.
pub type Outcome = Result<String, String>;

type Test = (&'static str, fn(&Program) -> Outcome);

const TESTS: [Test; 24] = [
    ("vectors", answers::vectors),
    ("ends", answers::ends),
    ("nul", answers::nul),
    ("random", answers::random),
    ("mutated", answers::mutated),
    ("limits", answers::limits),
    ("room", answers::room),
    ("long", answers::long),
    ("lines", options::lines),
    ("words", options::words),
    ("files", options::files),
    ("dashes", options::dashes),
    ("help", options::help),
    ("unknown", options::unknown),
    ("statuses", options::statuses),
    ("output", failures::output),
    ("input", failures::input),
    ("missing", failures::missing),
    ("gone", failures::gone),
    ("broken", failures::broken),
    ("cut", waiting::cut),
    ("pieces", waiting::pieces),
    ("nonblocking", waiting::nonblocking),
    ("before", waiting::before),
];

/// Runs the tests of these names, all where there is none; how many failed.
fn run(program: &Program, names: &[String]) -> usize {
    let mut failed = 0;
    for (name, test) in TESTS.iter().filter(|(name, _)| names.is_empty() || names.iter().any(|n| n == name)) {
        let began = Instant::now();
        match test(program) {
            Ok(seen) => println!("test: {name}: {seen} ({:.1} s)", began.elapsed().as_secs_f64()),
            Err(wrong) => {
                failed += 1;
                println!("test: {name}: FAILED\n{wrong}");
            }
        }
    }
    failed
}

fn main() -> ExitCode {
    let mut words: Vec<String> = std::env::args().skip(1).collect();
    let always_0 = words.first().is_some_and(|word| word == "--always-0");
    words.drain(..usize::from(always_0));
    let Some((seed, [path, names @ ..])) = words.split_first().and_then(|(seed, rest)| Some((seed.parse().ok()?, rest))) else {
        println!("program [--always-0] SEED PATH [NAME ..]");
        return ExitCode::from(2);
    };
    let began = Instant::now();
    let failed = run(&Program::at(path, always_0, seed), names);
    println!("test: {path} as a process, seed {seed}: {failed} of its tests failed, {:.1} s", began.elapsed().as_secs_f64());
    ExitCode::from(u8::from(failed > 0))
}

//! Prints a table: how fast the program answers bulk input, beside the plain implementation's reader on the same input, each as a process that
//! reads a file and whose answers nobody keeps; the least of some rounds in turn. `speed PATH` measures the program at the path. Both are
//! first asked with their answers kept, which must be alike. `speed --plain` is the plain one: it answers standard input.

use ramdulsi_reference::generate::Random;
use ramdulsi_reference::protocol::serve;
use std::ffi::OsStr;
use std::fmt::Write;
use std::fs::{self, File};
use std::io::{self, BufReader, BufWriter};
use std::path::Path;
use std::process::{Command, Stdio};
use std::time::Instant;

const ROUNDS: usize = 7;
const BYTES: usize = 20_000_000;
/// Words of a long table: with the other numbers of its line they nearly fill what a line may hold.
const WORDS: usize = 130_000;

/// The smallest routine's block and code.
const HALT: &str = "9 1 0 0 0 0 0 0 0 0 1 0";

/// A table's count and random words, written as asked.
fn table(r: &mut Random, hexadecimal: bool) -> String {
    let mut text = WORDS.to_string();
    for _ in 0..WORDS {
        let word = r.draw() as u32;
        let written = if hexadecimal { write!(text, " {word:#x}") } else { write!(text, " {word}") };
        written.expect("a string takes all");
    }
    text
}

/// Lines of a kind until they are as many bytes as the rows have.
fn filled(mut line: impl FnMut(&mut Random) -> String) -> String {
    let mut r = Random::new(5);
    let mut text = String::new();
    while text.len() < BYTES {
        text += &line(&mut r);
        text.push('\n');
    }
    text
}

/// Each row's name and input. A check without types is refused by its first question, so such a row is reading alone.
fn rows() -> [(&'static str, String); 7] {
    let numbers = |r: &mut Random| (0..8).map(|_| format!(" {}", r.draw() as u32)).collect::<String>();
    [
        ("long tables, decimal", filled(|r| format!("check 0 0 0 {} 0", table(r, false)))),
        ("long tables, hexadecimal", filled(|r| format!("check 0 0 0 {} 0", table(r, true)))),
        ("long memories, written back", filled(|r| format!("run {HALT} {} 0{} 0", table(r, false), numbers(r)))),
        ("short runs", filled(|r| format!("run {HALT} 1 7 0{} 1", numbers(r)))),
        ("small checks", filled(|_| format!("check 9 1 0 0 0 0 0 0 0 0 0 {HALT} 0"))),
        ("malformed lines", filled(|_| "check 9 1 0 0 0x 0 0".to_string())),
        ("comments", filled(|_| "# The smallest routine: a block that only halts, over a type with one Any field.".to_string())),
    ]
}

fn command(program: &OsStr, words: &[&str], input: &Path) -> Command {
    let mut command = Command::new(program);
    command.args(words).stdin(Stdio::from(File::open(input).expect("the input of a row")));
    command
}

/// The seconds of one process over an input.
fn seconds(program: &OsStr, words: &[&str], input: &Path) -> f64 {
    let mut command = command(program, words, input);
    let began = Instant::now();
    command.stdout(Stdio::null()).status().expect("a process");
    began.elapsed().as_secs_f64()
}

/// The least seconds of both over an input, once their answers are found alike.
fn least(name: &str, sides: &[(&OsStr, &[&str]); 2], input: &Path) -> [f64; 2] {
    let [given, wanted] = sides.map(|(program, words)| command(program, words, input).output().expect("a process").stdout);
    assert!(given == wanted, "{name}: the answers differ");
    let mut least = [f64::MAX; 2];
    for _ in 0..ROUNDS {
        for ((program, words), least) in sides.iter().zip(&mut least) {
            *least = least.min(seconds(program, words, input));
        }
    }
    least
}

fn measure(path: &str, plain: &OsStr) {
    println!("| input | MB | lines | proved ms | plain ms | to plain | proved MB/s | plain MB/s | proved lines/s | plain lines/s |");
    println!("|---|---|---|---|---|---|---|---|---|---|");
    let file = std::env::temp_dir().join(format!("ramdulsi-speed-{}", std::process::id()));
    for (name, input) in rows() {
        fs::write(&file, &input).expect("a file for a row");
        let [proved, plain] = least(name, &[(OsStr::new(path), &[]), (plain, &["--plain"])], &file);
        let (size, lines) = (input.len() as f64 / 1e6, input.lines().count());
        print!("| {name} | {size:.1} | {lines} | {:.1} | {:.1} | {:.2} |", proved * 1e3, plain * 1e3, proved / plain);
        let rate = |seconds| lines as f64 / seconds;
        println!(" {:.0} | {:.0} | {:.0} | {:.0} |", size / proved, size / plain, rate(proved), rate(plain));
    }
    fs::remove_file(&file).expect("the file of the rows");
}

fn main() -> io::Result<()> {
    match std::env::args().nth(1).as_deref() {
        Some("--plain") => serve(BufReader::with_capacity(1 << 16, io::stdin()), BufWriter::with_capacity(1 << 16, io::stdout()), false),
        Some(path) => {
            measure(path, std::env::current_exe()?.as_os_str());
            Ok(())
        }
        None => Err(io::Error::other("speed PATH")),
    }
}

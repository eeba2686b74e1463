//! Options, files and the status.

use crate::process::{alike, finish, numbered, plain, shown, vectors, Program, Said};
use crate::Outcome;
use std::fs::File;
use std::io::Seek;
use std::process::Stdio;

/// Requests with each kind of answer, comments and empty lines between them, and no line end after the last.
pub const INPUT: &str = "# a comment\n\
    check 0 0 0 0 0\n\n  \t\n\
    check 9 1 0 0 0 0 0 0 0 0 0 9 1 0 0 0 0 0 0 0 0 1 0 0\r\n\
    \t# another\n\
    run 0x9 1 0 0 0 0 0 0 0 0 1 0 1 0x7 0 1 2 3 4 5 6 7 8 0\n\
    checks\n\
    memory 9 0 0 0 0 0 0 0 0 0 0 0 0\n\
    run 9 1 0 0 0 0 0 0 0 0 1 0 1 7 0 1 2 3 4 5 6 7 0xFFFFFFFF 1";

/// One request that passes, and one that is refused.
pub const PASSED: &str = "check 9 1 0 0 0 0 0 0 0 0 0 9 1 0 0 0 0 0 0 0 0 1 0 0\n";
pub const REFUSED: &str = "check 0 0 0 0 0\n";

fn answered(program: &Program, said: &Said, wanted: &[u8], status: i32, what: &str) -> Result<(), String> {
    alike(&said.out, wanted, INPUT.as_bytes()).map_err(|wrong| format!("{what}: {wrong}"))?;
    if !said.err.is_empty() {
        return Err(format!("{what}: standard error: {}", said.err));
    }
    program.ended(said, status, what)
}

pub fn lines(program: &Program) -> Outcome {
    let said = program.ask(&["--lines"], INPUT.as_bytes())?;
    answered(program, &said, &numbered(INPUT.as_bytes()), 1, "--lines")?;
    Ok("--lines puts the number of the line before each answer".into())
}

/// The answers without their words; an error where a line has none.
fn without_words(out: &[u8]) -> Result<Vec<u8>, String> {
    let mut rest = Vec::new();
    for line in String::from_utf8_lossy(out).lines() {
        let (answer, text) = line.split_once("  # ").ok_or(format!("an answer without words: {line}"))?;
        if text.trim().is_empty() || !text.bytes().all(|byte| (b' '..=b'~').contains(&byte)) {
            return Err(format!("words that are none: {line}"));
        }
        rest.extend(format!("{answer}\n").bytes());
    }
    Ok(rest)
}

pub fn words(program: &Program) -> Outcome {
    let input = INPUT.as_bytes();
    let said = program.ask(&["--words"], input)?;
    let text = said.out.clone();
    answered(program, &Said { out: without_words(&said.out)?, ..said }, &plain(input), 1, "--words")?;
    let both = program.ask(&["--words", "--lines"], input)?;
    let turned = program.ask(&["--lines", "--words"], input)?;
    if both.out != turned.out {
        return Err("--words --lines and --lines --words differ".into());
    }
    let counts: Vec<String> = String::from_utf8_lossy(&numbered(input)).lines().map(|l| l.split(' ').take(1).collect()).collect();
    let wanted: String = counts.iter().zip(String::from_utf8_lossy(&text).lines()).map(|(n, line)| format!("{n} {line}\n")).collect();
    answered(program, &both, wanted.as_bytes(), 1, "--words --lines")?;
    program.ended(&turned, 1, "--lines --words")?;
    let stored = vectors()?;
    let said = program.ask(&["--lines", "--words"], &stored)?;
    alike(&without_words(&said.out)?, &numbered(&stored), &stored).map_err(|wrong| format!("--lines --words on the vectors: {wrong}"))?;
    Ok("--words adds words to each answer, with --lines too, and nothing else changes".into())
}

pub fn files(program: &Program) -> Outcome {
    let open = PASSED.trim_end();
    let parts = [("first", INPUT), ("empty", ""), ("open", open), ("blanks", "\n \n"), ("last", REFUSED)];
    for (name, content) in parts {
        program.file(name, content.as_bytes());
    }
    let names: Vec<&str> = parts.iter().map(|(name, _)| *name).collect();
    let all = |answers: fn(&[u8]) -> Vec<u8>| parts.iter().flat_map(|(_, content)| answers(content.as_bytes())).collect::<Vec<u8>>();
    answered(program, &program.ask(&names, b"check 1")?, &all(plain), 1, "several files")?;
    let options: Vec<&str> = ["--lines"].into_iter().chain(names).collect();
    answered(program, &program.ask(&options, b"check 1")?, &all(numbered), 1, "--lines and several files")?;

    let wanted: Vec<u8> = [open, INPUT, REFUSED].iter().flat_map(|content| numbered(content.as_bytes())).collect();
    let said = program.ask(&["--lines", "open", "-", "last"], INPUT.as_bytes())?;
    answered(program, &said, &wanted, 1, "standard input between two files")?;
    answered(program, &program.ask(&["empty"], b"check 1")?, b"", 0, "an empty file")?;
    let said = program.ask(&["open", "empty", "open"], b"")?;
    answered(program, &said, b"0 0 0 0 0 0 0\n0 0 0 0 0 0 0\n", 0, "a line without an end, then another file")?;
    answered(
        program,
        &program.ask(&["last", "open"], b"")?,
        b"1 0 0 0 0 0 0\n0 0 0 0 0 0 0\n",
        1,
        "a file with a refusal, then one without",
    )?;
    Ok("files are read in order, - is standard input, each begins on a new line with number 1, and an empty one gets no answer".into())
}

pub fn dashes(program: &Program) -> Outcome {
    for name in ["--words", "-x", "--", "-h"] {
        program.file(name, REFUSED.as_bytes());
    }
    let said = program.ask(&["--lines", "--", "--words", "-x", "--", "-h"], b"")?;
    answered(program, &said, b"1 1 0 0 0 0 0 0\n".repeat(4).as_slice(), 1, "files after --")?;
    answered(program, &program.ask(&["--"], REFUSED.as_bytes())?, b"1 0 0 0 0 0 0\n", 1, "-- alone")?;
    answered(program, &program.ask(&["--", "-"], REFUSED.as_bytes())?, b"1 0 0 0 0 0 0\n", 1, "-- and -")?;
    answered(program, &program.ask(&["-"], PASSED.as_bytes())?, b"0 0 0 0 0 0 0\n", 0, "- alone")?;
    Ok("-- ends the options, and - alone is standard input".into())
}

pub fn help(program: &Program) -> Outcome {
    let [short, long, version] = ["-h", "--help", "--version"].map(|word| program.ask(&[word], REFUSED.as_bytes()));
    let (short, long, version) = (short?, long?, version?);
    for (what, said) in [("-h", &short), ("--help", &long), ("--version", &version)] {
        if said.out.is_empty() || !said.out.ends_with(b"\n") || !said.err.is_empty() {
            return Err(format!("{what} writes {} and to standard error {:?}", shown(&said.out), said.err));
        }
        program.ended(said, 0, what)?;
    }
    let text = String::from_utf8_lossy(&long.out);
    if short.out != long.out {
        return Err("-h and --help differ".into());
    }
    for word in ["check", "memory", "entry", "run", "--words", "--lines", "--version", "--help"] {
        if !text.contains(word) {
            return Err(format!("--help says nothing of {word}"));
        }
    }
    if version.out.split(|byte| *byte == b'\n').count() != 2 {
        return Err(format!("--version writes {}", shown(&version.out)));
    }
    Ok("-h, --help and --version write to standard output and end with 0".into())
}

pub fn unknown(program: &Program) -> Outcome {
    let path = program.file("unread", INPUT.as_bytes());
    for words in [&["-x"][..], &["--word"], &["--lines=3"], &["--lines", "---"], &["-lw", "unread"], &["--words", "--Lines", "unread"]] {
        let mut file = File::open(&path).map_err(|e| e.to_string())?;
        let mut command = program.command(words);
        command.stdin(Stdio::from(file.try_clone().map_err(|e| e.to_string())?));
        let said = finish(command, b"")?;
        let wrong = words.iter().find(|word| !["--lines", "--words"].contains(word)).expect("an unknown one");
        let named = format!("ramdulsi: unknown option {wrong}\nusage: ");
        if !said.out.is_empty() || !said.err.starts_with(&named) {
            return Err(format!("{words:?}: writes {}, to standard error {:?}", shown(&said.out), said.err));
        }
        // the place in the file is the same for both, as they share it
        if file.stream_position().map_err(|e| e.to_string())? != 0 {
            return Err(format!("{words:?}: reads standard input, though an option is unknown"));
        }
        program.ended(&said, 2, &format!("{words:?}"))?;
    }
    Ok(format!("an unknown option is named on standard error with the usage, nothing is read, and the status is {}", program.status(2)))
}

pub fn statuses(program: &Program) -> Outcome {
    let paused = "run 9 1 0 0 0 0 0 0 0 0 1 0 1 7 0 1 2 3 4 5 6 7 8 0\n";
    let cases = [
        ("no input", String::new(), 0),
        ("comments alone", "# a\n\n \t\n#".into(), 0),
        ("passed", PASSED.into(), 0),
        ("paused", paused.into(), 0),
        ("passed and paused", format!("{PASSED}{paused}"), 0),
        ("refused", REFUSED.into(), 1),
        ("refused, then passed", format!("{REFUSED}{PASSED}"), 1),
        ("passed, then refused", format!("{PASSED}{REFUSED}"), 1),
        ("malformed", "check".into(), 1),
        ("malformed, then passed", format!("x\n{PASSED}"), 1),
        ("a run refused", "run 0 0 0 0 0 0 0 0 0 0 0 0 0\n".into(), 1),
    ];
    for (what, input, status) in &cases {
        for options in [&[][..], &["--words"], &["--lines"], &["--lines", "--words"]] {
            program.ended(&program.ask(options, input.as_bytes())?, *status, &format!("{what}, options {options:?}"))?;
        }
    }
    let which = if program.status(1) == 1 { "the status that their answers ask for" } else { "0, as this build always does" };
    Ok(format!("{} inputs end with {which}, with and without options", cases.len()))
}

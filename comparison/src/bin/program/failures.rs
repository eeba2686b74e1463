//! Input and output that fail: a message on standard error with the place and the reason, and status 3.

use crate::options::{INPUT, PASSED, REFUSED};
use crate::process::{finish, plain, shown, Program, Said};
use crate::Outcome;
use std::fs::{create_dir_all, File, OpenOptions};
use std::io::Write;
use std::os::fd::OwnedFd;
use std::os::unix::net::UnixStream;
use std::process::{Command, Stdio};

const FULL: &str = "No space left on device";
const CLOSED: &str = "Bad file descriptor";
const FOLDER: &str = "Is a directory";

/// The line number of a message `ramdulsi: NAME, line N: REASON`.
fn line(err: &str, name: &str, reason: &str) -> Option<u64> {
    let rest = err.strip_prefix("ramdulsi: ")?.strip_prefix(name)?.strip_prefix(", line ")?;
    let (number, said) = rest.split_once(": ")?;
    (said.strip_suffix('\n')? == reason).then(|| number.parse().ok())?
}

/// Fails unless the message is that of a name, a reason and one of some lines, and the status 3.
fn failed(program: &Program, said: &Said, name: &str, lines: std::ops::RangeInclusive<u64>, reason: &str) -> Result<(), String> {
    let what = format!("{name}: {reason}");
    if !line(&said.err, name, reason).is_some_and(|n| lines.contains(&n)) {
        return Err(format!("{what}: standard error: {:?}; wanted: {name}, line {lines:?}: {reason}", said.err));
    }
    program.ended(said, 3, &what)
}

fn full(mut command: Command) -> Result<Command, String> {
    let device = OpenOptions::new().write(true).open("/dev/full").map_err(|e| format!("/dev/full: {e}"))?;
    command.stdout(Stdio::from(device));
    Ok(command)
}

/// Output that takes nothing: a full device, a closed descriptor; with few answers and with many, from standard input and a file.
pub fn output(program: &Program) -> Outcome {
    let many = REFUSED.repeat(200_000);
    program.file("file", INPUT.as_bytes());
    for (input, lines) in [(INPUT, 10), (REFUSED, 2), (&many, 200_001)] {
        for options in [&[][..], &["--words", "--lines"]] {
            let (full, closed) = (full(program.command(options))?, program.redirected(options, ">&-"));
            let said = finish(full, input.as_bytes())?;
            failed(program, &said, "standard input", 1..=lines, &format!("standard output: {FULL}"))?;
            let said = finish(closed, input.as_bytes())?;
            failed(program, &said, "standard input", 1..=lines, &format!("standard output: {CLOSED}"))?;
        }
    }
    let said = finish(full(program.command(&["file", "-"]))?, b"")?;
    failed(program, &said, "file", 1..=11, &format!("standard output: {FULL}"))?;
    let said = finish(program.redirected(&["file"], ">&-"), b"")?;
    failed(program, &said, "file", 1..=11, &format!("standard output: {CLOSED}"))?;
    let said = finish(full(program.command(&["--help"]))?, b"")?;
    if !said.err.ends_with(&format!("standard output: {FULL}\n")) {
        return Err(format!("--help with a full device: standard error: {:?}", said.err));
    }
    program.ended(&said, 3, "--help with a full device")?;
    Ok(format!("a full device and a closed output are named with line and reason, and the status is {}", program.status(3)))
}

/// Input that cannot be read: closed, or a folder.
pub fn input(program: &Program) -> Outcome {
    create_dir_all(program.folder.join("folder")).map_err(|e| e.to_string())?;
    program.file("good", PASSED.as_bytes());
    let closed = finish(program.redirected(&[], "<&-"), b"")?;
    failed(program, &closed, "standard input", 1..=1, CLOSED)?;
    let closed = finish(program.redirected(&["good", "-", "good"], "<&-"), b"")?;
    failed(program, &closed, "standard input", 1..=1, CLOSED)?;
    let folder = program.ask(&["folder"], b"")?;
    failed(program, &folder, "folder", 1..=1, FOLDER)?;
    let mut command = program.command(&[]);
    command.stdin(Stdio::from(File::open(&program.folder).map_err(|e| e.to_string())?));
    failed(program, &finish(command, b"")?, "standard input", 1..=1, FOLDER)?;
    let after = program.ask(&["good", "folder", "good"], b"")?;
    failed(program, &after, "folder", 1..=1, FOLDER)?;
    for said in [&closed, &after] {
        if said.out != plain(PASSED.as_bytes()) {
            return Err(format!("a file before an input that fails: answers {}", shown(&said.out)));
        }
    }
    let unused = finish(program.redirected(&["good"], "<&-"), b"")?;
    if unused.out != plain(PASSED.as_bytes()) {
        return Err(format!("a closed input that is not asked for: answers {}, {}", shown(&unused.out), unused.err));
    }
    program.ended(&unused, 0, "a closed input that is not asked for")?;
    Ok(format!(
        "a closed input and a folder are named with line and reason, what was answered before is there, and the status is {}",
        program.status(3)
    ))
}

pub fn missing(program: &Program) -> Outcome {
    program.file("good", PASSED.as_bytes());
    for words in [&["none"][..], &["--lines", "none", "good"], &["good", "none", "good"]] {
        let said = program.ask(words, REFUSED.as_bytes())?;
        let answers = if words[0] == "good" { plain(PASSED.as_bytes()) } else { Vec::new() };
        if said.err != "ramdulsi: none: No such file or directory\n" || said.out != answers {
            return Err(format!("{words:?}: writes {}, to standard error {:?}", shown(&said.out), said.err));
        }
        program.ended(&said, 3, "a missing file")?;
    }
    Ok(format!("a missing file is named with the reason, what stands before it is answered, and the status is {}", program.status(3)))
}

/// A reader that goes away: the program ends, by the signal or with a message.
pub fn gone(program: &Program) -> Outcome {
    let input = REFUSED.repeat(1_000_000);
    let (reader, writer) = std::io::pipe().map_err(|e| e.to_string())?;
    drop(reader);
    let mut command = program.command(&[]);
    command.stdout(Stdio::from(writer));
    let said = finish(command, input.as_bytes())?;
    if said.status != Some(128 + 13) {
        failed(program, &said, "standard input", 1..=1_000_001, "standard output: Broken pipe")?;
    }
    Ok(format!("it ends when nobody reads its answers, with status {}", said.status.unwrap_or(0)))
}

/// A read that fails after two lines and a half: a socket whose other end is closed before it has read what it was sent.
pub fn broken(program: &Program) -> Outcome {
    let (mut theirs, mut ours) = UnixStream::pair().map_err(|e| e.to_string())?;
    theirs.write_all(b"unread").and_then(|()| ours.write_all(b"check 0 0 0 0 0\n# two\ncheck 0 0 0 0 0")).map_err(|e| e.to_string())?;
    drop(ours);
    let mut command = program.command(&["--lines"]);
    command.stdin(Stdio::from(OwnedFd::from(theirs)));
    let said = finish(command, b"")?;
    failed(program, &said, "standard input", 3..=3, "Connection reset by peer")?;
    if said.out != b"1 1 0 0 0 0 0 0\n" {
        return Err(format!("a read that fails in line 3: answers {}", shown(&said.out)));
    }
    Ok(format!("a read that fails within line 3 is named so, the lines before it are answered, and the status is {}", program.status(3)))
}

//! Input that comes in pieces, and descriptors that would block: nothing is lost, and what can be answered is answered before a wait.

use crate::options::{INPUT, PASSED};
use crate::process::{alike, plain, take, vectors, wanted_status, Program};
use crate::Outcome;
use ramdulsi_reference::generate::Random;
use std::fs::{File, OpenOptions};
use std::io::{self, Read, Write};
use std::os::fd::{AsRawFd, OwnedFd};
use std::os::unix::fs::OpenOptionsExt;
use std::os::unix::net::UnixStream;
use std::process::Stdio;
use std::thread::{self, sleep};
use std::time::Duration;

/// The flag of open for a descriptor that does not block, on Linux.
const NONBLOCKING: i32 = 0o4000;

fn text<T>(result: io::Result<T>) -> Result<T, String> {
    result.map_err(|e| e.to_string())
}

/// Gives the program the input in two pieces, the second after the answers to the lines of the first, and then its end.
fn in_two(program: &Program, input: &[u8], at: usize) -> Result<(), String> {
    let (first, second) = input.split_at(at);
    let whole = first.iter().rposition(|byte| *byte == b'\n').map_or(0, |i| i + 1);
    let mut early = vec![0; plain(&first[..whole]).len()];
    let mut child = text(program.command(&[]).spawn())?;
    let mut stdin = child.stdin.take().expect("a pipe");
    text(stdin.write_all(first))?;
    let read = child.stdout.as_mut().expect("a pipe").read_exact(&mut early);
    read.map_err(|_| format!("the answers to the first {at} bytes do not come while its input is open"))?;
    // nothing says that a piece without a whole line was read; a pause lets it be
    sleep(Duration::from_millis(if whole == at { 0 } else { 1 }));
    text(stdin.write_all(second))?;
    drop(stdin);
    let said = take(&mut child)?;
    let wanted = plain(input);
    alike(&[early, said.out].concat(), &wanted, input)?;
    if said.status != Some(program.status(wanted_status(&wanted))) {
        return Err(format!("status {:?}", said.status));
    }
    Ok(())
}

/// An input cut at each place, and one that ends there.
pub fn cut(program: &Program) -> Outcome {
    let input =
        format!("{INPUT}\nrun 0x9 0x00001 0 0 0 0 0 0 0 0 1 0 0x1 0xaF 0 1 2 3 4 5 6 7 8 18446744073709551615\ncheck 0 0 0 0 0x\n0x\n");
    let input = input.as_bytes();
    for at in 0..=input.len() {
        in_two(program, input, at).map_err(|wrong| format!("cut at byte {at}: {wrong}"))?;
        program.compare(&[], &input[..at], &format!("the input ends at byte {at}"))?;
    }
    Ok(format!("{} bytes cut at each place, and ended at each, are answered as the whole is, each line before the next piece", input.len()))
}

/// Gives an input in pieces of some sizes, with a pause after each that has one.
fn feed(mut to: impl Write, input: &[u8], mut size: impl FnMut() -> usize, pause: Option<Duration>) -> io::Result<()> {
    let mut rest = input;
    while !rest.is_empty() {
        let (piece, after) = rest.split_at(size().clamp(1, rest.len()));
        to.write_all(piece)?;
        if let Some(pause) = pause {
            sleep(pause);
        }
        rest = after;
    }
    Ok(())
}

pub fn pieces(program: &Program) -> Outcome {
    let input = vectors()?;
    let sizes = [1, 7, 4095, 4096, 4097, 65_535, 65_536, 65_537, 1 << 20];
    for size in sizes {
        // by single bytes the whole would take long
        let input = &input[..input.len().min(20_000 * size)];
        let mut child = text(program.command(&[]).spawn())?;
        let stdin = child.stdin.take().expect("a pipe");
        let said = thread::scope(|scope| {
            scope.spawn(move || feed(stdin, input, || size, None));
            take(&mut child)
        })?;
        alike(&said.out, &plain(input), input).map_err(|wrong| format!("pieces of {size} bytes: {wrong}"))?;
    }
    Ok(format!("the vectors in pieces of {sizes:?} bytes are answered as in one"))
}

/// Another descriptor of a pipe's end, one that does not block. The flag is of the open file, so the other end keeps blocking.
fn reopened(end: &impl AsRawFd, write: bool) -> io::Result<OwnedFd> {
    let path = format!("/proc/self/fd/{}", end.as_raw_fd());
    OpenOptions::new().read(!write).write(write).custom_flags(NONBLOCKING).open(path).map(OwnedFd::from)
}

/// The program's end and ours of something that carries bytes one way; the program's does not block.
type Ends = (OwnedFd, OwnedFd);

/// Pipes to and from the program.
fn pipes() -> io::Result<(Ends, Ends)> {
    let (input, to) = io::pipe()?;
    let (from, output) = io::pipe()?;
    Ok(((reopened(&input, false)?, to.into()), (reopened(&output, true)?, from.into())))
}

/// Sockets to and from the program.
fn sockets() -> io::Result<(Ends, Ends)> {
    let pair = || {
        let (theirs, ours) = UnixStream::pair()?;
        theirs.set_nonblocking(true)?;
        Ok::<Ends, io::Error>((theirs.into(), ours.into()))
    };
    Ok((pair()?, pair()?))
}

/// Reads slowly, at first not at all, so that what carries the answers fills up.
fn slowly(mut from: impl Read) -> io::Result<Vec<u8>> {
    let mut all = Vec::new();
    let mut piece = [0; 3000];
    sleep(Duration::from_millis(200));
    loop {
        let n = from.read(&mut piece)?;
        if n == 0 {
            return Ok(all);
        }
        all.extend_from_slice(&piece[..n]);
        sleep(Duration::from_micros(300));
    }
}

/// One conversation over descriptors that do not block, with a writer that pauses or a reader that does.
fn carried(program: &Program, ends: (Ends, Ends), input: &[u8], slow_writer: bool) -> Result<(), String> {
    let ((stdin, to), (stdout, from)) = ends;
    let mut command = program.command(&[]);
    command.stdin(Stdio::from(stdin)).stdout(Stdio::from(stdout));
    let mut child = text(command.spawn())?;
    // the command keeps the program's ends, and the answers end only when all of these are closed
    drop(command);
    let mut r = Random::new(3);
    let size = move || if slow_writer { 1 + r.below(4000) } else { 1 << 16 };
    let pause = slow_writer.then(|| Duration::from_micros(500));
    let out = thread::scope(|scope| {
        scope.spawn(move || feed(File::from(to), input, size, pause));
        let mut all = Vec::new();
        if slow_writer {
            File::from(from).read_to_end(&mut all).map(|_| all)
        } else {
            slowly(File::from(from))
        }
    });
    let said = take(&mut child)?;
    alike(&text(out)?, &plain(input), input).map_err(|wrong| format!("{wrong}\nstandard error: {}", said.err))?;
    if !said.err.is_empty() {
        return Err(format!("standard error: {}", said.err));
    }
    program.ended(&said, wanted_status(&plain(input)), "descriptors that do not block")
}

pub fn nonblocking(program: &Program) -> Outcome {
    let once = vectors()?;
    let input = once.repeat(4);
    for (what, ends) in [("pipes", pipes as fn() -> io::Result<(Ends, Ends)>), ("sockets", sockets)] {
        carried(program, text(ends())?, &once, true).map_err(|wrong| format!("{what}, slow writer: {wrong}"))?;
        carried(program, text(ends())?, &input, false).map_err(|wrong| format!("{what}, slow reader: {wrong}"))?;
    }
    Ok("pipes and sockets that do not block, with a slow writer and a slow reader, lose nothing".into())
}

/// A file's answers come before standard input is waited for.
pub fn before(program: &Program) -> Outcome {
    program.file("good", PASSED.trim_end().as_bytes());
    let mut child = text(program.command(&["good", "-"]).spawn())?;
    let mut stdin = child.stdin.take().expect("a pipe");
    for _ in 0..3 {
        let mut early = [0; 14];
        let read = child.stdout.as_mut().expect("a pipe").read_exact(&mut early);
        read.map_err(|_| "an answer does not come while standard input is open")?;
        if early != *b"0 0 0 0 0 0 0\n" {
            return Err(format!("the answer is {early:?}"));
        }
        text(stdin.write_all(PASSED.as_bytes()))?;
    }
    drop(stdin);
    let said = take(&mut child)?;
    program.ended(&said, 0, "a file, then standard input")?;
    Ok("a file is answered before standard input is waited for, and each line of it before the next".into())
}

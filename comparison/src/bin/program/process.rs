//! The program as a process, and what it says beside what the plain implementation says.

use ramdulsi_reference::protocol::{passed_over, serve};
use std::fs;
use std::io::{Read, Write};
use std::os::unix::process::ExitStatusExt;
use std::path::{Path, PathBuf};
use std::process::{Child, Command, ExitStatus, Stdio};
use std::thread;

/// A program that hangs is ended after so many seconds.
const LIMIT: &str = "30";

pub struct Program {
    path: PathBuf,
    always_0: bool,
    /// where random lines begin
    pub seed: u64,
    /// a folder for files of the tests
    pub folder: PathBuf,
}

/// What a process wrote, and its end.
pub struct Said {
    pub out: Vec<u8>,
    pub err: String,
    pub status: Option<i32>,
}

impl Program {
    pub fn at(path: &str, always_0: bool, seed: u64) -> Program {
        let folder = std::env::temp_dir().join(format!("ramdulsi-program-{}", std::process::id()));
        fs::create_dir_all(&folder).expect("a folder for the tests");
        let path = fs::canonicalize(path).unwrap_or_else(|e| panic!("{path}: {e}"));
        Program { path, always_0, seed, folder }
    }

    /// A file of the folder.
    pub fn file(&self, name: &str, content: &[u8]) -> PathBuf {
        let path = self.folder.join(name);
        fs::write(&path, content).expect("a file for a test");
        path
    }

    /// A command for the program with options and files, run in the folder.
    pub fn command(&self, words: &[&str]) -> Command {
        let mut command = Command::new("timeout");
        command.arg(LIMIT).arg(&self.path).args(words).current_dir(&self.folder);
        command.stdin(Stdio::piped()).stdout(Stdio::piped()).stderr(Stdio::piped());
        command
    }

    /// The same with a redirection of the shell, for the descriptors that only it leaves closed.
    pub fn redirected(&self, words: &[&str], redirection: &str) -> Command {
        let mut command = Command::new("timeout");
        command.args([LIMIT, "sh", "-c", &format!("exec \"$@\" {redirection}"), "sh"]).arg(&self.path).args(words);
        command.current_dir(&self.folder).stdin(Stdio::piped()).stdout(Stdio::piped()).stderr(Stdio::piped());
        command
    }

    pub fn ask(&self, words: &[&str], input: &[u8]) -> Result<Said, String> {
        finish(self.command(words), input)
    }

    /// What the program's status must be where it should be so much.
    pub fn status(&self, wanted: i32) -> i32 {
        if self.always_0 {
            0
        } else {
            wanted
        }
    }

    /// Fails unless the status is the wanted one.
    pub fn ended(&self, said: &Said, wanted: i32, what: &str) -> Result<(), String> {
        let wanted = self.status(wanted);
        if said.status == Some(wanted) {
            return Ok(());
        }
        Err(format!("{what}: status {:?}, not {wanted}; standard error: {}", said.status, said.err))
    }

    /// Asks, and compares answers and status with those of the plain implementation.
    pub fn compare(&self, words: &[&str], input: &[u8], what: &str) -> Result<(), String> {
        let said = self.ask(words, input)?;
        let wanted = plain(input);
        alike(&said.out, &wanted, input).map_err(|wrong| format!("{what}: {wrong}"))?;
        if !said.err.is_empty() {
            return Err(format!("{what}: standard error: {}", said.err));
        }
        self.ended(&said, wanted_status(&wanted), what)
    }
}

impl Drop for Program {
    fn drop(&mut self) {
        // a folder that stays is no failure of the program
        let _ = fs::remove_dir_all(&self.folder);
    }
}

/// Starts a command, gives it the input and takes what it writes.
pub fn finish(mut command: Command, input: &[u8]) -> Result<Said, String> {
    let mut child = command.spawn().map_err(|e| format!("{command:?}: {e}"))?;
    let stdin = child.stdin.take();
    thread::scope(|scope| {
        scope.spawn(move || {
            // a program that ends early leaves the rest unread
            let _ = stdin.map(|mut stdin| stdin.write_all(input));
        });
        take(&mut child)
    })
}

/// What a process writes until it ends.
pub fn take(child: &mut Child) -> Result<Said, String> {
    let stderr = child.stderr.take();
    let (mut out, mut err) = (Vec::new(), Vec::new());
    thread::scope(|scope| {
        scope.spawn(|| stderr.map(|mut stderr| stderr.read_to_end(&mut err)));
        if let Some(mut stdout) = child.stdout.take() {
            stdout.read_to_end(&mut out).map_err(|e| format!("reading what it writes: {e}"))?;
        }
        Ok::<(), String>(())
    })?;
    let end: ExitStatus = child.wait().map_err(|e| e.to_string())?;
    let status = end.code().or(end.signal().map(|signal| 128 + signal));
    Ok(Said { out, err: String::from_utf8_lossy(&err).into_owned(), status })
}

/// The plain implementation's answers to an input.
pub fn plain(input: &[u8]) -> Vec<u8> {
    let mut out = Vec::new();
    serve(input, &mut out, false).expect("a vector takes all");
    out
}

/// The same with line numbers.
pub fn numbered(input: &[u8]) -> Vec<u8> {
    let mut out = Vec::new();
    serve(input, &mut out, true).expect("a vector takes all");
    out
}

/// The status for answers: 0 where each is passed, halted or paused.
pub fn wanted_status(answers: &[u8]) -> i32 {
    let good = |line: &[u8]| line.is_empty() || line.starts_with(b"0 ") || line.starts_with(b"40 ");
    i32::from(!answers.split(|byte| *byte == b'\n').all(good))
}

/// Some bytes to be shown, start and end of many.
pub fn shown(bytes: &[u8]) -> String {
    let text = |part: &[u8]| part.escape_ascii().to_string();
    match bytes.len() {
        0..400 => text(bytes),
        n => format!("{} .. {} ({n} bytes)", text(&bytes[..250]), text(&bytes[n - 100..])),
    }
}

/// Compares answers line by line; an error shows the first that differs and its request.
pub fn alike(given: &[u8], wanted: &[u8], input: &[u8]) -> Result<(), String> {
    if given == wanted {
        return Ok(());
    }
    let lines = |bytes| <[u8]>::split(bytes, |byte| *byte == b'\n').map(<[u8]>::to_vec).collect::<Vec<_>>();
    let (given, wanted) = (lines(given), lines(wanted));
    let requests: Vec<Vec<u8>> = lines(input).into_iter().filter(|line| !passed_over(line)).collect();
    let empty = Vec::new();
    let at = (0..).find(|i| given.get(*i) != wanted.get(*i)).unwrap_or(0);
    let part = |all: &[Vec<u8>]| shown(all.get(at).unwrap_or(&empty));
    Err(format!("answer {at} differs\nrequest: {}\nplain:   {}\nprogram: {}", part(&requests), part(&wanted), part(&given)))
}

/// The vectors of the tree.
pub fn vectors() -> Result<Vec<u8>, String> {
    let path = Path::new(env!("CARGO_MANIFEST_DIR")).join("../crates/ramdulsi/stdin");
    fs::read(&path).map_err(|e| format!("{}: {e}", path.display()))
}

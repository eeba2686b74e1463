//! Looks at the machine code of the built archive for what its speed rests on and no proof sees: `shape ARCHIVE`. It measures nothing, so
//! load does not matter to it. Where there is no objdump it says so and passes.
//!
//! - What is known of a value is asked inside the function that wants it; what is rare is a function of its own,
//!   `known::Values::joined` for two values that are not one and `known::Values::far_stand` for a value that a chain starts at.
//! - A block's check is a function of its own, `verify::block`, and so is its loop over the block's instructions, `verify::inside`: as a part of
//!   `ramdulsi_check` they would be compiled as seldom run.
//! - A run copies neither its registers nor a table from instruction to instruction or from block to block: no vector register is used
//!   where control can come from opcode 6's division and go back to it. Nor does it hand two numbers on as the halves of one register:
//!   no shift by 32 is there. Copies before the loop and after it are free.

use std::collections::BTreeSet;
use std::io::ErrorKind;
use std::process::{exit, Command};

#[derive(Clone)]
struct Instruction {
    function: String,
    address: u64,
    text: String,
    /// what a call or a jump leads to outside its function
    symbol: String,
}

impl Instruction {
    fn is(&self, mnemonic: &str) -> bool {
        self.text.split_whitespace().next() == Some(mnemonic)
    }

    /// Whether the next instruction in the text is never the next carried out.
    fn leaves(&self) -> bool {
        self.is("jmp") || self.is("ret") || self.is("ud2")
    }

    fn divides(&self) -> bool {
        self.is("div") || self.is("divl")
    }

    fn copies(&self) -> bool {
        ["%xmm", "%ymm", "%zmm", "rep movs"].iter().any(|part| self.text.contains(part)) || matches!(&*self.symbol, "memcpy" | "memmove")
    }

    fn packs(&self) -> bool {
        (self.is("shl") || self.is("shr")) && self.text.contains("$0x20,%r")
    }

    /// The address that a call or a jump within the function has as its operand.
    fn target(&self) -> Option<u64> {
        u64::from_str_radix(self.text.split_whitespace().nth(1)?, 16).ok()
    }
}

/// The instructions of objdump's text, which has a line for each function, instruction and place to be filled in by the linker.
fn read(text: &str) -> Vec<Instruction> {
    let mut all: Vec<Instruction> = vec![];
    let mut function = String::new();
    for line in text.lines() {
        if let Some((_, name)) = line.strip_suffix(">:").and_then(|l| l.split_once(" <")) {
            function = name.to_string();
        } else if let Some((_, to)) = line.split_once(": R_X86_64_").and_then(|(_, r)| r.split_once('\t')) {
            if let Some(last) = all.last_mut() {
                let name = to.strip_prefix(".text.").unwrap_or(to);
                last.symbol = name.split_once("-0x").map_or(name, |(name, _)| name).to_string();
            }
        } else if let Some((address, text)) = line.split_once(":\t") {
            let Ok(address) = u64::from_str_radix(address.trim(), 16) else { continue };
            all.push(Instruction { function: function.clone(), address, text: text.trim().to_string(), symbol: String::new() });
        }
    }
    all
}

/// Where control can go from each instruction. A call goes to its function, whose returns go behind the call, and a jump to another
/// function returns as its own does; a jump by a table goes wherever nothing else leads.
fn edges(all: &[Instruction]) -> Vec<Vec<usize>> {
    let of = |name: &str| -> Vec<usize> { (0..all.len()).filter(|&n| all[n].function == name).collect() };
    let returns = |name: &str| -> Vec<usize> { of(name).into_iter().filter(|&n| all[n].is("ret")).collect() };
    let by_table = |i: &Instruction| i.is("jmp") && i.text.contains('*');
    let mut to = vec![vec![]; all.len()];
    for (k, i) in all.iter().enumerate() {
        if !i.leaves() && k + 1 < all.len() {
            to[k].push(k + 1);
        }
        if by_table(i) || !i.is("call") && !i.text.starts_with('j') {
            continue;
        }
        if i.symbol.is_empty() {
            to[k].extend(of(&i.function).iter().find(|&&n| Some(all[n].address) == i.target()));
        } else {
            let behind = if i.is("call") { to[k].clone() } else { returns(&i.function) };
            to[k].extend(of(&i.symbol).first());
            returns(&i.symbol).into_iter().for_each(|n| to[n].extend(&behind));
        }
    }
    let mut led = vec![false; all.len()];
    to.iter().flatten().for_each(|&n| led[n] = true);
    for (k, i) in all.iter().enumerate().filter(|(_, i)| by_table(i)) {
        to[k].extend(of(&i.function).into_iter().skip(1).filter(|&n| !led[n]));
    }
    to
}

/// What is reached from some instructions, those included.
fn reached(from: Vec<usize>, edges: &[Vec<usize>]) -> Vec<bool> {
    let mut seen = vec![false; edges.len()];
    let mut open = from;
    while let Some(k) = open.pop() {
        if !std::mem::replace(&mut seen[k], true) {
            open.extend(&edges[k]);
        }
    }
    seen
}

/// The instructions of a function and of all that it calls.
fn called(all: &[Instruction], name: &str) -> Vec<Instruction> {
    let mut names = vec![name];
    let mut k = 0;
    while k < names.len() {
        let symbols = all.iter().filter(|i| i.function == names[k]).map(|i| &*i.symbol);
        let new: BTreeSet<&str> = symbols.filter(|s| !names.contains(s)).collect();
        names.extend(new);
        k += 1;
    }
    all.iter().filter(|i| names.contains(&&*i.function)).cloned().collect()
}

/// The loop that carries out instructions: what lies on a way from a division of the run back to it.
fn running(run: &[Instruction]) -> Vec<&Instruction> {
    let to = edges(run);
    let mut back = vec![vec![]; run.len()];
    for (k, next) in to.iter().enumerate() {
        next.iter().for_each(|&n| back[n].push(k));
    }
    let mut found = vec![false; run.len()];
    for k in (0..run.len()).filter(|&k| run[k].divides()) {
        let (after, before) = (reached(to[k].clone(), &to), reached(back[k].clone(), &back));
        (0..run.len()).for_each(|n| found[n] |= after[n] && before[n]);
    }
    run.iter().zip(found).filter(|(_, found)| *found).map(|(i, _)| i).collect()
}

/// What is wrong with what is asked of known values, and what is right.
fn split(all: &[Instruction]) -> Result<String, String> {
    let has = |name: &&str| all.iter().any(|i| i.function == *name);
    let rare = ["known::Values::joined", "known::Values::far_stand"];
    let inside = ["known::Values::known_equal", "known::Values::known_bound", "known::Values::known_tag", "known::Values::known_zero", "known::Values::stand"];
    if let Some(name) = rare.iter().find(|name| !has(name)) {
        return Err(format!("no function {name}; expected one of its own: what is rare must not be compiled into each question"));
    }
    if let Some(name) = inside.iter().find(|name| has(name)) {
        return Err(format!(
            "a function {name}; expected it inside its callers: it is short, and leaves what is rare to {}",
            rare.join(" and ")
        ));
    }
    Ok(format!("{} are functions of their own, {} are none", rare.join(" and "), inside.join(", ")))
}

/// What is wrong with the check of a block and its loop, and what is right.
fn apart(all: &[Instruction]) -> Result<String, String> {
    let own = ["verify::block", "verify::inside"];
    match own.iter().find(|name| !all.iter().any(|i| i.function == **name)) {
        Some(name) => Err(format!("no function {name}; expected one of its own: verify::check asks the questions of the tables itself")),
        None => Ok(format!("{} are functions of their own", own.join(" and "))),
    }
}

/// What is wrong with the loop of the run, and what is right.
fn narrow(all: &[Instruction]) -> Result<String, String> {
    let run = called(all, "ramdulsi_run");
    let body = running(&run);
    let wrong = |what: &str, why: &str, found: Vec<&&Instruction>| match found.first() {
        None => Ok(()),
        Some(i) => Err(format!(
            "in the run's loop of {} machine instructions {} {what}, the first {} at {}+{:#x}; expected none: {why}",
            body.len(),
            found.len(),
            i.text,
            i.function,
            i.address
        )),
    };
    if body.is_empty() {
        return Err("no loop of ramdulsi_run divides; expected the one that carries out instructions".to_string());
    }
    wrong(
        "copy registers or a table",
        "step::carry_out hands back the one word that can differ beside the registers, and step::advance takes over that word alone",
        body.iter().filter(|i| i.copies()).collect(),
    )?;
    wrong(
        "pack two numbers into one register or unpack them",
        "each way out of step::reached makes its own answer",
        body.iter().filter(|i| i.packs()).collect(),
    )?;
    Ok(format!("the run's loop of {} machine instructions copies and packs nothing", body.len()))
}

fn main() {
    let archive = std::env::args().nth(1).expect("the path of an archive");
    let text = match Command::new("objdump").args(["-dr", "--no-show-raw-insn", &archive]).output() {
        Ok(made) if made.status.success() => String::from_utf8_lossy(&made.stdout).to_string(),
        Err(e) if e.kind() == ErrorKind::NotFound => {
            println!("shape: no objdump on this machine, so the archive's machine code is not looked at");
            return;
        }
        _ => {
            println!("shape: objdump does not read {archive}");
            exit(1)
        }
    };
    let all = read(&text);
    let found = [split(&all), apart(&all), narrow(&all)];
    for Ok(line) | Err(line) in &found {
        println!("shape: {line}");
    }
    exit(i32::from(found.iter().any(Result::is_err)));
}

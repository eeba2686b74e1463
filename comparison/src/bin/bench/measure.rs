//! Times of a row, the table of all rows, and the guard.

use crate::row::{call, offered, Call, Input, Row};
use ramdulsi_comparison::{choice, fast, Proved};
use ramdulsi_reference::generate::Case;
use ramdulsi_reference::{Plain, RunAnswer};
use std::hint::black_box;
use std::time::Instant;

const ROUNDS: usize = 200;
/// How often the guard measures a row that is over its limit.
const PASSES: usize = 5;

type Side = fn(Call, &Case, &mut [u32]) -> RunAnswer;

fn quick(_: Call, c: &Case, memory: &mut [u32]) -> RunAnswer {
    fast::run(&c.blocks, &c.code, memory, c.block, c.registers, c.budget)
}

fn by_blocks(_: Call, c: &Case, _: &mut [u32]) -> RunAnswer {
    offered(choice::plain, c)
}

fn by_blocks_quick(_: Call, c: &Case, _: &mut [u32]) -> RunAnswer {
    offered(choice::fast, c)
}

/// Proved, plain, and for a run the one written for speed alone. With an offered list the plain one chooses block by block, as the proved one
/// does, and the one for speed tries the first choice before, and counts while it chooses.
fn sides(which: Call) -> Vec<Side> {
    match which {
        Call::Run => vec![call::<Proved>, call::<Plain>, quick],
        Call::Offered => vec![call::<Proved>, by_blocks, by_blocks_quick],
        _ => vec![call::<Proved>, call::<Plain>],
    }
}

/// Asks every side once, and the plain implementation; all must give the answer that the row intends and leave the same registers and memory.
fn agree(row: &Row, sides: &[Side], Input { case, answer, .. }: &Input) {
    let ask = |side: &Side| {
        let mut memory = case.memory.clone();
        (side(row.which, case, &mut memory), memory)
    };
    let first = ask(&sides[0]);
    assert_eq!((first.0.number, first.0.block, first.0.index), *answer, "{}", row.name);
    let plain: Side = call::<Plain>;
    assert!(sides.iter().chain([&plain]).all(|side| ask(side) == first), "{}: the sides differ", row.name);
}

/// Microseconds of each side at each size, the least of many rounds; a round takes all in turn, each over the memory of its case.
fn times(row: &Row, inputs: &[Input]) -> Vec<Vec<f64>> {
    let sides = sides(row.which);
    inputs.iter().for_each(|input| agree(row, &sides, input));
    let mut memories: Vec<Vec<u32>> = inputs.iter().map(|input| input.case.memory.clone()).collect();
    let mut least = vec![vec![f64::MAX; sides.len()]; inputs.len()];
    for _ in 0..ROUNDS {
        for ((Input { case, .. }, memory), least) in inputs.iter().zip(&mut memories).zip(&mut least) {
            for (side, least) in sides.iter().zip(least) {
                memory.copy_from_slice(&case.memory);
                let t = Instant::now();
                black_box(side(row.which, black_box(case), memory));
                *least = least.min(t.elapsed().as_secs_f64() * 1e6);
            }
        }
    }
    least
}

/// Of some lines a number each, and what it belongs to.
type Lines = Vec<(f64, String)>;

/// What was printed.
#[derive(Default)]
pub struct Table {
    ratios: Lines,
    to_fast: Lines,
    growths: Lines,
}

impl Table {
    pub fn begin() -> Self {
        println!("| call | size | proved us | plain us | fast us | to plain | to fast | proved ns | plain ns | for each | growth |");
        println!("|---|---|---|---|---|---|---|---|---|---|---|");
        Table::default()
    }

    /// One line for each size.
    pub fn print(&mut self, row: &Row) {
        let inputs = [1, 2, 4].map(&row.make);
        let times = times(row, &inputs);
        for (i, size) in ["quarter", "half", "full"].into_iter().enumerate() {
            let name = format!("{}, {size}", row.name);
            let (proved, plain) = (times[i][0], times[i][1]);
            let (ratio, growth) = (proved / plain, proved / times[0][0]);
            let (fast, to_fast) = match times[i].get(2) {
                Some(fast) => (format!("{fast:.1}"), format!("{:.2}", proved / fast)),
                None => ("-".to_string(), "-".to_string()),
            };
            let each = |us: f64| us * 1000.0 / inputs[i].units as f64;
            let (own, other) = (each(proved), each(plain));
            println!(
                "| {} | {size} | {proved:.1} | {plain:.1} | {fast} | {ratio:.2} | {to_fast} | {own:.1} | {other:.1} | {} | {growth:.2} |",
                row.name, row.unit
            );
            self.to_fast.extend(times[i].get(2).map(|fast| (proved / fast, name.clone())));
            self.ratios.push((ratio, name));
        }
        self.growths.push((times[2][0] / times[0][0], row.name.clone()));
    }

    pub fn summary(self) {
        summary("Ratio to plain", self.ratios);
        summary("Ratio of a run, or a check with offered rows, to the one written for speed alone", self.to_fast);
        if let Some((growth, name)) = self.growths.iter().max_by(|a, b| a.0.total_cmp(&b.0)) {
            println!("Growth from a quarter to full size: at most {growth:.2} ({name}).");
        }
    }
}

fn summary(what: &str, mut lines: Lines) {
    lines.sort_by(|a, b| a.0.total_cmp(&b.0));
    let (Some(least), Some(most)) = (lines.first(), lines.last()) else {
        return;
    };
    let count = |limit: f64| lines.iter().filter(|r| r.0 <= limit).count();
    let (all, middle) = (lines.len(), lines[lines.len() / 2].0);
    println!(
        "\n{what}: {:.2} ({}) to {:.2} ({}), median {middle:.2}; {} of {all} lines at most 1.0, {} at most 1.2.",
        least.0,
        least.1,
        most.0,
        most.1,
        count(1.0),
        count(1.2)
    );
}

/// Measures the rows of check and run at full size up to five times, and drops a row once it took at most its limit of the plain one's time:
/// noise of the machine does not come back five times, a lost shape does. Prints the rows that are left; true if there is none.
pub fn guard(rows: Vec<Row>) -> bool {
    let mut left: Vec<(Row, Vec<f64>)> =
        rows.into_iter().filter(|row| matches!(row.which, Call::Check | Call::Offered | Call::Run)).map(|row| (row, vec![])).collect();
    for _ in 0..PASSES {
        for (row, ratios) in &mut left {
            let times = times(row, &[(row.make)(4)]);
            ratios.push(times[0][0] / times[0][1]);
        }
        left.retain(|(row, ratios)| ratios.last().is_some_and(|&ratio| ratio > row.limit));
    }
    for (row, ratios) in &left {
        let ratios: String = ratios.iter().map(|ratio| format!(" {ratio:.2}")).collect();
        println!("{}: of plain{ratios}, wanted at most {} in one of {PASSES}", row.name, row.limit);
    }
    left.is_empty()
}

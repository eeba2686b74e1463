//! Hunts for a broken promise of the plain implementation: `hunt [SEED [CASES]]`.

use ramdulsi_reference::hunt::{choice, costs, numbered, turns, Seen};
use ramdulsi_reference::Plain;

fn main() {
    let mut words = std::env::args().skip(1).map(|w| w.parse::<u64>().expect("a number"));
    let seed = words.next().unwrap_or(1);
    let cases = words.next().unwrap_or(100_000);
    let mut seen = Seen::default();
    for k in 0..cases {
        let (mut r, c) = numbered(seed, k);
        let kept = turns::<Plain>(&mut r, &c, &mut seen)
            .and_then(|()| costs::<Plain>(&mut r, &c, &mut seen))
            .and_then(|()| choice::<Plain>(&mut r, &c, &mut seen));
        if let Err(story) = kept {
            eprintln!("seed {seed}, case {k}: {story}");
            std::process::exit(1);
        }
    }
    println!(
        "seed {seed}: {cases} cases, {} accepted routines took {} turns, all safe; {} memories changed, {} locked words kept",
        seen.routines, seen.turns, seen.changed, seen.locked
    );
    println!("seed {seed}: {} fit questions counted, at most 16 for each instruction examined", seen.asked);
    println!("seed {seed}: {} routines whose blank annotations were filled, by rows that make them accepted", seen.filled);
}

//! The rows of the memory check and of the entry check.

use crate::row::{body, ins, nine, onward, routine, ty, Call, Input, Row};
use ramdulsi_reference::generate::Case;
use ramdulsi_reference::tables::{FROM, IN, MAYBE, PRESENT, REF, RUN, TAGGED};

/// Records of one type that follow each other from an address on, and what each holds.
fn records(n: usize, fields: &[u32], size: usize, words: impl Fn(usize) -> Vec<u32>) -> Case {
    let mut c = Case { types: nine(size, fields), tags: vec![0], memory: vec![0; size], ..Case::default() };
    for k in 0..n {
        c.allocations.extend([(size + size * k) as u32, 0]);
        c.memory.extend(words(k));
    }
    c
}

/// The memory check of 2,047 records of eight words: word 0 is in no record, so one more does not fit.
fn memory(name: &str, fields: &[u32], words: impl Fn(usize, usize) -> [u32; 8] + 'static) -> Row {
    let fields = fields.to_vec();
    Row::new(name, "record", Call::Memory, move |part| {
        let n = 512 * part - 1;
        let case = records(n, &fields, 8, |k| words(n, k).to_vec());
        Input { units: n, case, answer: (0, 0, 0) }
    })
}

/// Addresses of eight records that lie apart.
fn apart(n: usize, k: usize) -> [u32; 8] {
    std::array::from_fn(|f| 8 + 8 * ((k * 769 + f * 331) % n) as u32)
}

/// A run from some record to the last, and places in it.
fn run(n: usize, first: usize, k: usize) -> [u32; 8] {
    let (d, e, own) = (8 + 8 * first as u32, 8 + 8 * n as u32, 8 + 8 * k as u32);
    [d, e, own, d, e - 8, own, d, e - 8]
}

pub fn memories() -> Vec<Row> {
    let references = [ty(REF, 0, 0, 0), ty(MAYBE, 0, 0, 0)].repeat(4);
    let (tagged, present) = (ty(TAGGED, 0, 0, 0), ty(PRESENT, 0, 0, 0));
    let tags = [0, tagged, present, tagged, present, tagged, present, tagged];
    let (field, from, any) = (ty(IN, 0, 0, 1), ty(FROM, 0, 0, 1), ty(RUN, 0, 0, 1));
    let six = [0, 0, field, from, any, field, from, any];
    // the bounds are run fields too: the start is In its own run, and the end From its start
    let eight = [field, from, field, field, field, field, field, field];
    vec![
        memory("memory check, eight Any fields", &[], |_, _| [1, 2, 3, 4, 5, 6, 7, 8]),
        memory("memory check, eight reference fields", &references, apart),
        memory("memory check, seven tagged fields of eight", &tags, |n, k| {
            let mut words = apart(n, k);
            words[0] = 0;
            words
        }),
        memory("memory check, six run fields of eight", &six, |n, k| run(n, 0, k)),
        memory("memory check, eight run fields", &eight, |n, k| run(n, 0, k)),
        memory("memory check, eight run fields, a run from each record", &eight, |n, k| run(n, k, k)),
        Row::new("memory check, eight run fields, refused at the last", "record", Call::Memory, move |part| {
            let n = 512 * part - 1;
            let mut case = records(n, &eight, 8, |k| run(n, 0, k).to_vec());
            *case.memory.last_mut().expect("records") += 1;
            Input { units: n, case, answer: (20, n as u32 - 1, 7) }
        }),
    ]
}

/// The entry check over records of one word, the most that there can be, and a full routine; `registers` gets the run's end.
fn entry(name: &str, annotation: [u32; 8], registers: fn(u32) -> [u32; 8], answer: (u32, u32, u32)) -> Row {
    Row::new(name, "allocation", Call::Entry, move |part| {
        let n = 1024 * part;
        let Case { blocks, code, .. } = routine(256, &annotation, &body(|_| ins(2, 5, 5, 0)), onward);
        let case = Case { blocks, code, registers: registers(1 + n as u32), ..records(n, &[], 1, |_| vec![0]) };
        Input { units: n, case, answer }
    })
}

pub fn entries() -> Vec<Row> {
    let field = ty(IN, 0, 0, 1);
    let one = [ty(IN, 0, 1, 2), 0, 0, ty(REF, 0, 0, 0), 0, 0, 0, 0];
    let eight = [field, ty(FROM, 0, 0, 1), field, field, field, field, field, field];
    let places = |end: u32| [1, end, 1, 2, 3, end - 1, end - 2, end - 3];
    let beyond = |end: u32| [1, end, 1, 2, 3, end - 1, end - 2, end];
    vec![
        entry("entry check, one run register", one, |end| [1, 1, end, 7, 0, 0, 0, 0], (0, 0, 0)),
        entry("entry check, eight run registers", eight, places, (0, 0, 0)),
        entry("entry check, eight run registers, refused at the last", eight, beyond, (21, 7, 0)),
    ]
}

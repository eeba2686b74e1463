//! The rows of the check of a routine.

use crate::row::{body, constant, ins, nine, onward, routine, ty, Call, Input, Row};
use ramdulsi_reference::generate::Case;
use ramdulsi_reference::tables::{FROM, IN, LOCKED, MAYBE, PRESENT, REF, RUN, SAME, TAGGED};

/// The check of a routine of 256 blocks of 32 instructions.
fn straight(name: &str, types: &[Vec<u32>], tags: &[u32], annotation: &[u32], body: &[u32]) -> Row {
    let (types, tags, annotation, body) = (types.concat(), tags.to_vec(), annotation.to_vec(), body.to_vec());
    Row::new(name, "instruction", Call::Check, move |part| {
        let case = Case { types: types.clone(), tags: tags.clone(), ..routine(64 * part, &annotation, &body, onward) };
        Input { units: case.code.len(), case, answer: (0, 0, 0) }
    })
}

fn any() -> Vec<u32> {
    nine(8, &[])
}

pub fn rows() -> Vec<Row> {
    let mixed = nine(
        8,
        &[0, ty(TAGGED, 0, 0, 0), ty(SAME, 0, 0, 0), ty(MAYBE, 0, 0, 0), ty(REF, 0, 0, 0), ty(RUN, 0, 0, 0), 0, ty(TAGGED, 0, 6, 0)],
    );
    let types = [any(), mixed];
    let annotation = [ty(REF, 1, 0, 0), ty(REF, 0, 0, 0)];
    let arithmetic = body(|i| ins(3, 2 + i % 5, 2, 3));
    let loads = body(|i| ins(8, 2 + i % 5, i & 1, i % 8));
    let stores = body(|i| ins(9, 2, 1, i % 8));
    let back = body(|i| ins(8 + i % 2, 2, 0, i / 2 % 8));
    // what was weighed is loaded, and what is computed from it stored beside it
    let weighed = nine(8, &[LOCKED; 4]);
    let computed = body(|i| ins(8 + i % 2, 2, 0, i / 2 % 4 + i % 2 * 4));
    // in turn In of three words by one size, which is From, and In of four words by two, which asks both rules and is Run
    let threes_and_fours = [nine(3, &[]), nine(4, &[])];
    let bounded = [ty(IN, 0, constant(1), constant(7)), ty(IN, 1, constant(7), constant(15))];
    let steps = body(|i| ins(7, 2 + i % 5, i & 1, if i & 1 == 0 { 3 } else { 8 }));
    let eight = nine(8, &[ty(IN, 0, constant(1), constant(9)); 8]);
    let mut rows = vec![
        straight("check, arithmetic", &types, &[0, 1], &annotation, &arithmetic),
        straight("check, steps of a run", &threes_and_fours, &[], &bounded, &steps),
        straight("check, loads", &types, &[0, 1], &annotation, &loads),
        straight("check, stores to eight Any fields", &types, &[0, 1], &annotation, &stores),
        straight("check, loads and stores, eight mixed fields", &types, &[0, 1], &annotation, &back),
        straight("check, loads and stores, eight run fields", &[any(), eight], &[], &annotation, &back),
        straight("check, loads and stores, four locked fields of eight", &[any(), weighed], &[], &annotation, &computed),
    ];
    rows.extend(opens());
    rows.extend(edges());
    rows.push(chained());
    rows.push(Row::new("check, loads, refused at the last instruction", "instruction", Call::Check, move |part| {
        let n = 64 * part;
        let mut case = Case { types: types.concat(), tags: vec![0, 1], ..routine(n, &annotation, &loads, onward) };
        let last = case.code.len() - 1;
        case.code[last] = ins(10, 0, 0, n as u32);
        Input { units: case.code.len(), case, answer: (9, n as u32 - 1, last as u32) }
    }));
    rows
}

/// Stores to an open record: the last field misfits until the last store, so each store between asks all fields.
fn opens() -> [Row; 2] {
    let open = |i: u32, other: u32| match i {
        0 => ins(9, 7, 0, 7),
        30 => ins(9, 1, 0, 7),
        _ => ins(9, 2, 0, other),
    };
    // bounds are known by constants alone
    let (low, high) = (ty(SAME, 0, constant(1), 0), ty(SAME, 0, constant(9), 0));
    let field = ty(IN, 0, 0, 1);
    let runs = nine(8, &[low, high, field, field, field, field, field, ty(REF, 0, 0, 0)]);
    let bounded = [ty(REF, 1, 0, 0), ty(REF, 0, 0, 0), ty(IN, 0, 3, 4), low, high];
    let (tagged, present) = (ty(TAGGED, 0, constant(0), 0), ty(PRESENT, 0, constant(0), 0));
    let tags = nine(8, &[tagged, present, tagged, present, tagged, present, tagged, ty(REF, 0, 0, 0)]);
    let referring = [ty(REF, 1, 0, 0), ty(REF, 0, 0, 0), ty(REF, 0, 0, 0)];
    [
        straight("check, stores to an open record, run fields", &[any(), runs], &[], &bounded, &body(|i| open(i, 2 + i % 5))),
        straight("check, stores to an open record, tagged fields", &[any(), tags], &[0], &referring, &body(|i| open(i, i % 7))),
    ]
}

/// Blocks of a test with two edges, every register typed.
fn edges() -> [Row; 2] {
    // six registers and the bounds themselves, named r0 and r1
    let field = ty(IN, 0, 0, 1);
    let eight = [field, ty(FROM, 0, 0, 1), field, field, field, field, field, field];
    let (low, high) = (ty(SAME, 0, constant(1), 0), ty(SAME, 0, constant(9), 0));
    let six = [low, high, field, field, field, field, field, field];
    let anew = vec![ins(1, 0, 0, 1), ins(1, 1, 0, 9)];
    [("check, edges, eight run registers", eight, vec![]), ("check, edges, bounds known by constants", six, anew)].map(
        |(name, annotation, body)| {
            Row::new(name, "edge", Call::Check, move |part| {
                let test = |b: usize, last: bool| if last { 0 } else { ins(12, 2, 3, b as u32) };
                let case = Case { types: any(), ..routine(64 * part, &annotation, &body, test) };
                Input { units: 2 * (64 * part - 1), case, answer: (0, 0, 0) }
            })
        },
    )
}

/// Blocks of a test with two edges, whose registers are all known equal through a chain of Same, by turns through one of two: neither has a
/// link of the other, so an edge asks for seven equalities that hold through the chain alone. The plain implementation joins eight values when
/// they are made, whether they are asked for or not; the proved one follows their links when it is asked, here some fifty times for an edge.
fn chained() -> Row {
    let links = |order: [u32; 8]| {
        let mut annotation = [0; 8];
        order.windows(2).for_each(|link| annotation[link[0] as usize] = ty(SAME, 0, link[1], 0));
        annotation
    };
    let (even, odd) = (links([0, 1, 2, 3, 4, 5, 6, 7]), links([0, 2, 4, 6, 1, 3, 5, 7]));
    let row = Row::new("check, edges, registers chained by Same", "edge", Call::Check, move |part| {
        let test = |b: usize, last: bool| if last { 0 } else { ins(12, 2, 3, b as u32 ^ 1) };
        let mut case = Case { types: any(), ..routine(64 * part, &even, &[], test) };
        case.blocks.chunks_exact_mut(18).for_each(|two| two[10..].copy_from_slice(&odd));
        Input { units: 2 * (64 * part - 1), case, answer: (0, 0, 0) }
    });
    Row { limit: 3.0, ..row }
}

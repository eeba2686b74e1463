//! Q7 in the words of document 01, opcode by opcode, and words that tell its readings apart. The proved library asks Q7 by rows of operand
//! uses and the plain one by bits that must be zero: the differential test holds both against this.

/// 'unused parts are zero; a register number is 0 to 7', and of a division 'c at least 1'.
pub fn well_formed(w: u32) -> bool {
    let (op, a, b, c) = (w >> 24, w >> 20 & 15, w >> 16 & 15, w & 65535);
    let register = |part: u32| part <= 7;
    match op {
        0 => a == 0 && b == 0 && c == 0,
        1 => register(a) && b == 0,
        2 => register(a) && register(b) && c == 0,
        3..=5 => register(a) && register(b) && register(c),
        6 => register(a) && register(b) && c >= 1,
        7..=9 => register(a) && register(b),
        10 => a == 0 && b == 0,
        11 => register(a) && b == 0,
        12 => register(a) && register(b),
        _ => false,
    }
}

/// Every opcode, known or not, with every a and b; with these, of a known opcode, a c for each single bit and for the ends of each use of c.
pub fn words() -> impl Iterator<Item = u32> {
    let ends = [0, 3, 7, 9, 15, 65528, 65534, 65535];
    let known: Vec<u32> = ends.into_iter().chain((0..16).map(|bit| 1 << bit)).collect();
    let unknown = vec![0, 1, 65535];
    (0..1 << 16).flat_map(move |high: u32| {
        let c = if high >> 8 <= 12 { &known } else { &unknown };
        c.iter().map(|c| high << 16 | c).collect::<Vec<u32>>()
    })
}

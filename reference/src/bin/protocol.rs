//! Answers requests of the line protocol on standard input, for comparison with the proved program: `protocol [--lines]`.

use ramdulsi_reference::protocol::serve;
use std::io::{self, BufReader, BufWriter};

fn main() -> io::Result<()> {
    let numbered = std::env::args().any(|word| word == "--lines");
    serve(BufReader::with_capacity(1 << 16, io::stdin()), BufWriter::with_capacity(1 << 16, io::stdout()), numbered)
}

//! The plain program: does what the monitor's program does.

use std::io::{self, BufReader, BufWriter};

const BUFFER: usize = 1 << 16;

fn main() -> io::Result<()> {
    let input = BufReader::with_capacity(BUFFER, io::stdin().lock());
    let output = BufWriter::with_capacity(BUFFER, io::stdout().lock());
    plain::program::run(input, output)
}

//! Reads slips from standard input and writes the lines of the run.

#![forbid(unsafe_code)]

use second_engine::run::settle;
use std::io::{self, Read, Write};

fn main() -> io::Result<()> {
    let mut input = Vec::new();
    io::stdin().lock().read_to_end(&mut input)?;
    let mut output = io::stdout().lock();
    output.write_all(&settle(&input))?;
    output.flush()
}

//! Reads a day of messages from standard input, matches it first in, first out, and prints what happened.

use std::io::{self, Read, Write};

use peer::policies::fifo;
use peer::report::table;

fn main() -> io::Result<()> {
    let mut input = Vec::new();
    io::stdin().lock().read_to_end(&mut input)?;
    io::stdout().lock().write_all(table(fifo, &input).as_bytes())
}

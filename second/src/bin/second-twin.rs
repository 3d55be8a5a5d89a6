//! Reads one table from standard input and writes the twin's text to standard output.

use second::relations::depth;
use second::wrong_twin::twin_as_built;
use std::io::{self, Read, Write};
use std::process::exit;

fn main() -> io::Result<()> {
    if std::env::args().len() > 1 {
        eprintln!("usage: second-twin");
        exit(2)
    }
    let mut bytes = Vec::new();
    io::stdin().read_to_end(&mut bytes)?;
    io::stdout().write_all(twin_as_built(&bytes, depth()).as_bytes())
}

//! Reads one table from standard input and writes its lines to standard output.

use std::io::{self, Read, Write};

fn main() -> io::Result<()> {
    let mut bytes = Vec::new();
    io::stdin().read_to_end(&mut bytes)?;
    let text = second::text::judge(&bytes, second::relations::depth());
    io::stdout().write_all(text.as_bytes())
}

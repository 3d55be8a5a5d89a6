//! Reads one batch from standard input and writes its text to standard output.

use second::batch::{batch_text, MOST_BYTES};
use std::io::{self, Read, Write};

fn main() -> io::Result<()> {
    // One byte past the limit tells that a batch is too long, however long it is.
    let mut bytes = Vec::new();
    io::stdin().take(MOST_BYTES as u64 + 1).read_to_end(&mut bytes)?;
    let text = batch_text(&bytes, second::relations::depth());
    io::stdout().write_all(text.as_bytes())
}

//! Reads one batch from standard input and writes its figures to standard output.

use second::batch::MOST_BYTES;
use second::figures::text_of;
use second::relations::depth;
use second::wrong_figures::figures_as_built;
use std::io::{self, Read, Write};
use std::process::exit;

fn main() -> io::Result<()> {
    if std::env::args().len() > 1 {
        eprintln!("usage: second-figures");
        exit(2)
    }
    // One byte past the limit tells that a batch is too long, however long it is.
    let mut bytes = Vec::new();
    io::stdin().take(MOST_BYTES as u64 + 1).read_to_end(&mut bytes)?;
    io::stdout().write_all(text_of(&figures_as_built(&bytes, depth())).as_bytes())
}

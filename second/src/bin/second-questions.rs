//! Reads many questions from standard input and writes their answers to standard output.

use std::io::{self, BufWriter, Read, Write};
use std::process::exit;

fn main() -> io::Result<()> {
    let mut bytes = Vec::new();
    io::stdin().read_to_end(&mut bytes)?;
    let questions = second::questions::all_questions(&bytes).unwrap_or_else(|why| {
        eprintln!("{why}");
        exit(2)
    });
    let depth = second::relations::depth();
    let mut output = BufWriter::new(io::stdout().lock());
    for question in questions {
        output.write_all(question.answer(depth).as_bytes())?;
    }
    output.flush()
}

//! second-generate SEED COUNT: writes questions with at least COUNT tables to judge.

use std::io::{self, BufWriter, Write};
use std::process::exit;

fn main() -> io::Result<()> {
    let numbers: Vec<u64> = std::env::args().skip(1).filter_map(|word| word.parse().ok()).collect();
    let [seed, count] = numbers[..] else {
        eprintln!("usage: second-generate SEED COUNT");
        exit(2)
    };
    let mut output = BufWriter::new(io::stdout().lock());
    for question in second::generate::generate(seed, count as usize) {
        output.write_all(&question.to_bytes())?;
    }
    output.flush()
}

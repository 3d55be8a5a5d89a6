//! second-batches SEED DIR: writes batches as files 000.batch and on, for the program that reads one.

use std::fs;
use std::path::Path;
use std::process::exit;

fn main() -> std::io::Result<()> {
    let words: Vec<String> = std::env::args().skip(1).collect();
    let (Some(Ok(seed)), [_, folder]) = (words.first().map(|word| word.parse()), &words[..]) else {
        eprintln!("usage: second-batches SEED DIR");
        exit(2)
    };
    fs::create_dir_all(folder)?;
    for (number, batch) in second::batch_files::batch_files(seed).iter().enumerate() {
        fs::write(Path::new(folder).join(format!("{number:03}.batch")), batch)?;
    }
    Ok(())
}

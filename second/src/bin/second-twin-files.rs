//! second-twin-files SEED DIR: writes inputs as files 0000.table and on, for the twin.

use second::twin_files::twin_files;
use second::twin_folder::write_inputs;
use std::path::Path;
use std::process::exit;

fn main() -> std::io::Result<()> {
    let words: Vec<String> = std::env::args().skip(1).collect();
    let (Some(Ok(seed)), [_, folder]) = (words.first().map(|word| word.parse()), &words[..]) else {
        eprintln!("usage: second-twin-files SEED DIR");
        exit(2)
    };
    write_inputs(Path::new(folder), &twin_files(seed))
}

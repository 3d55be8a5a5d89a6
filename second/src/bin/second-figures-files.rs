//! second-figures-files SEED DIR: writes the batches of second-batches, further ones after them, and joined pairs.

use second::figures_files::figures_files;
use second::figures_folder::Folder;
use second::joined::pairs;
use std::path::Path;
use std::process::exit;

fn main() -> std::io::Result<()> {
    let words: Vec<String> = std::env::args().skip(1).collect();
    let (Some(Ok(seed)), [_, folder]) = (words.first().map(|word| word.parse()), &words[..]) else {
        eprintln!("usage: second-figures-files SEED DIR");
        exit(2)
    };
    let batches = figures_files(seed);
    let pairs = pairs(seed, &batches);
    Folder::of(batches, &pairs).write(Path::new(folder))
}

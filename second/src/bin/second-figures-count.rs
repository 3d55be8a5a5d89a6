//! second-figures-count DIR: counts what its batches and pairs reach; ends with 1 and names it if something is missing.

use second::count_figures_files::{count_folder, required_of_folder};
use second::figures_folder::Folder;
use std::path::Path;
use std::process::exit;

fn main() -> std::io::Result<()> {
    let words: Vec<String> = std::env::args().skip(1).collect();
    let [folder] = &words[..] else {
        eprintln!("usage: second-figures-count DIR");
        exit(2)
    };
    let folder = Folder::read(Path::new(folder))?;
    exit(count_folder(&folder).tell(&required_of_folder()))
}

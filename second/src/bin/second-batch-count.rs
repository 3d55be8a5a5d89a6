//! second-batch-count DIR: counts what its batches reach; ends with 1 and names it if something is missing.

use second::count_batches::{count_files, required_of_files};
use std::fs;
use std::process::exit;

fn main() -> std::io::Result<()> {
    let words: Vec<String> = std::env::args().skip(1).collect();
    let [folder] = &words[..] else {
        eprintln!("usage: second-batch-count DIR");
        exit(2)
    };
    let mut batches = Vec::new();
    for entry in fs::read_dir(folder)? {
        let path = entry?.path();
        if path.extension().is_some_and(|kind| kind == "batch") {
            batches.push(fs::read(path)?);
        }
    }
    exit(count_files(&batches).tell(&required_of_files()))
}

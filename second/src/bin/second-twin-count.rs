//! second-twin-count DIR: counts what its inputs reach; ends with 1 and names it if something is missing.

use second::count_twin::{count_inputs, required_of_inputs};
use second::twin_folder::read_inputs;
use std::path::Path;
use std::process::exit;

fn main() -> std::io::Result<()> {
    let words: Vec<String> = std::env::args().skip(1).collect();
    let [folder] = &words[..] else {
        eprintln!("usage: second-twin-count DIR");
        exit(2)
    };
    let inputs: Vec<Vec<u8>> = read_inputs(Path::new(folder))?.into_values().collect();
    exit(count_inputs(&inputs).tell(&required_of_inputs()))
}

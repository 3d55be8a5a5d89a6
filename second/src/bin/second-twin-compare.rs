//! second-twin-compare DIR PROGRAM [WORD ..]: runs the program once for each input of the folder; ends with 1 and prints
//! where it writes another text than the second judge, or says how many agree.

use second::compare_twin::Program;
use second::twin_folder::read_inputs;
use std::path::Path;
use std::process::exit;

const MOST_PRINTED: usize = 20;

fn main() {
    let words: Vec<String> = std::env::args().skip(1).collect();
    let [folder, program, ..] = &words[..] else {
        eprintln!("usage: second-twin-compare DIR PROGRAM [WORD ..]");
        exit(2)
    };
    let inputs = read_inputs(Path::new(folder)).unwrap_or_else(|why| fail(folder, why));
    let compared = Program { words: &words[1..] };
    let mut differ = 0;
    for (name, bytes) in &inputs {
        let found = compared.difference(&Path::new(folder).join(name), bytes);
        let Some(difference) = found.unwrap_or_else(|why| fail(program, why)) else { continue };
        differ += 1;
        if differ <= MOST_PRINTED {
            print!("{name} differs: < the program, > the second judge:\n{difference}");
        }
    }
    println!("{} agree, {differ} differ", inputs.len() - differ);
    exit(i32::from(differ > 0))
}

fn fail(what: &str, why: std::io::Error) -> ! {
    eprintln!("{what}: {why}");
    exit(2)
}

//! second-examples DIR: writes E1 to E11 and the longest chain as tables, a batch, and a README that says what each shows.

use second::examples::{examples, longest_chain, night};
use std::fs;
use std::path::Path;
use std::process::exit;

const OPENING: &str = "# The small structures of document 01, E11 of document 02 (W2), and a table of 200 records (W5)\n\n\
Each `.table` is a whole table, sixteen bytes a record; `night.batch` is a batch of tables. `second-examples DIR` (in `second/`) writes them again.\n\n";

fn main() -> std::io::Result<()> {
    let words: Vec<String> = std::env::args().skip(1).collect();
    let [folder] = &words[..] else {
        eprintln!("usage: second-examples DIR");
        exit(2)
    };
    fs::create_dir_all(folder)?;
    let mut readme = OPENING.to_string();
    for example in examples().into_iter().chain([longest_chain()]) {
        let file = format!("{}.table", example.name);
        fs::write(Path::new(folder).join(&file), &example.bytes)?;
        readme += &format!("- `{file}`: {}.\n", example.shows);
    }
    let night = night();
    fs::write(Path::new(folder).join("night.batch"), &night.bytes)?;
    readme += &format!(
        "- `night.batch`: E1 to E11, then E2 with record 4 as its own parent (`refused 6 at 4 byte 5`), then a table \
         without its header, which ends the batch with `refused 14 at {}`.\n",
        night.ends_at
    );
    fs::write(Path::new(folder).join("README.md"), readme)
}

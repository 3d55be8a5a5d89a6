//! second-figures-sums DIR TEXTS: holds a program's own texts, one for each batch and pair of DIR, to the law of
//! two batches joined; ends with 1 and prints each pair that does not add up.

use second::figures_folder::{joined_name, Folder};
use second::joined::sums_are_due;
use second::read_figures::joined_text;
use std::path::Path;
use std::process::exit;

fn main() {
    let words: Vec<String> = std::env::args().skip(1).collect();
    let [folder, texts] = &words[..] else {
        eprintln!("usage: second-figures-sums DIR TEXTS");
        exit(2)
    };
    let (agree, differ) = count_sums(Path::new(folder), Path::new(texts)).unwrap_or_else(|why| {
        eprintln!("{why}");
        exit(2)
    });
    println!("{agree} agree, {differ} differ");
    exit(i32::from(differ > 0))
}

/// How many pairs add up, and how many do not, of those that should.
fn count_sums(folder: &Path, texts: &Path) -> std::io::Result<(usize, usize)> {
    let folder = Folder::read(folder)?;
    // A text with a byte that is no letter is no text of figures, and is found so.
    let text = |name: &str| {
        std::fs::read(texts.join(format!("{name}.figures")))
            .map(|bytes| String::from_utf8_lossy(&bytes).into_owned())
    };
    let (mut agree, mut differ) = (0, 0);
    for (first, second) in &folder.pairs {
        let (one, other) = (folder.batch(first), folder.batch(second));
        if !sums_are_due(one, other) {
            continue;
        }
        let name = joined_name(first, second);
        let whole = text(&name)?;
        match joined_text(&text(first)?, one.len(), &text(second)?) {
            Some(due) if due == whole => agree += 1,
            due => {
                differ += 1;
                let due = due.unwrap_or("two texts that can't be added\n".to_string());
                println!("{name} does not add up: the program wrote\n{whole}- in place of\n{due}");
            }
        }
    }
    Ok((agree, differ))
}

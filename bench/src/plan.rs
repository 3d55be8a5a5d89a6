//! What is measured on, and how it is told: batches of each sort and size, and rows of a Markdown table.

use crate::sorts::SORTS;

const SEED: u64 = 1;

pub struct Plan {
    pub rounds: usize,
    tables: usize,
    sizes: Vec<usize>,
}

impl Plan {
    /// From the first three of these words (rounds, tables of each sort and size, and sizes as 32,64,200), with the words after them.
    pub fn of(words: &[String]) -> Option<(Plan, &[String])> {
        let [rounds, tables, sizes, rest @ ..] = words else { return None };
        let above_0 = |word: &str| word.parse().ok().filter(|&number: &usize| number > 0);
        let size = |word: &str| word.parse().ok().filter(|size| (12..=200).contains(size));
        let sizes = sizes.split(',').map(size).collect::<Option<_>>()?;
        Some((Plan { rounds: above_0(rounds)?, tables: above_0(tables)?, sizes }, rest))
    }

    /// Hands over a batch of each sort, by its name, and then all of them together, for one size after another.
    pub fn each_batch(&self, mut measure: impl FnMut(&str, usize, &[Vec<u8>])) {
        for &size in &self.sizes {
            let mut every = Vec::new();
            for sort in SORTS {
                let batch = sort.tables(SEED, size, self.tables);
                measure(sort.name(), size, &batch);
                every.extend(batch);
            }
            measure("every", size, &every);
        }
    }
}

/// The first rows of a table whose first two columns are the sort and the size.
pub fn print_head(columns: impl IntoIterator<Item = String>) {
    let cells: Vec<String> = columns.into_iter().collect();
    println!("| tables | records | {} |", cells.join(" | "));
    println!("|{}", "---|".repeat(cells.len() + 2));
}

pub fn print_row(sort: &str, size: usize, cells: impl IntoIterator<Item = String>) {
    println!("| {sort} | {size} | {} |", cells.into_iter().collect::<Vec<_>>().join(" | "));
}

//! Counting what the questions about figures reach.

use crate::count_batches::bytes_in;
use crate::figures::{figures_of, text_of, Figures};
use crate::read_figures::read_figures;
use crate::relations::depth;
use crate::table::{Refusal, MOST_RECORDS};

/// What a question about figures reaches, by its answer.
pub fn reached_by_figures(batch: &[u8], output_size: usize, answer: &[String]) -> Vec<String> {
    let words: Vec<&str> = answer[0].split(' ').collect();
    let ["wrote", bytes, "bytes"] = words[..] else {
        return reached_by_refusal(batch, output_size);
    };
    let size: usize = bytes.parse().unwrap_or(usize::MAX);
    let output = bytes_in(&answer[1]);
    let text = output.get(..size).map(String::from_utf8_lossy).unwrap_or_default();
    let Some(figures) = read_figures(&text) else { return vec!["figures not understood".to_string()] };
    let length = if size == output_size { "exact" } else { "longer" };
    let mut reached = vec![
        format!("figures {}", ending(&figures)),
        format!("figures output {length}, {}", ending(&figures)),
    ];
    if let Ok(figures) = figures {
        reached.push(format!("figures tables of {} digits", figures.tables.to_string().len()));
        reached.push(largest_class(figures.largest));
    }
    reached
}

fn largest_class(records: usize) -> String {
    format!("figures largest {records}")
}

/// A question that was refused 11, by what the second judge would have written.
fn reached_by_refusal(batch: &[u8], output_size: usize) -> Vec<String> {
    let figures = figures_of(batch, depth());
    let output = match (output_size, text_of(&figures).len() - output_size) {
        (0, _) => "empty",
        (_, 1) => "one byte short",
        _ => "shorter",
    };
    vec![format!("figures output {output}, {}", ending(&figures))]
}

/// How the batch of these figures ended.
pub fn ending(figures: &Result<Figures, Refusal>) -> String {
    match figures {
        Err(refusal) => format!("ended in {}", refusal.number),
        Ok(figures) => match figures.ended {
            None => "ended cleanly".to_string(),
            Some(refusal) => format!("ended in {}", refusal.number),
        },
    }
}

/// The endings of a batch: cleanly, above the limit, and at a header.
pub const ENDINGS: [&str; 4] = ["ended cleanly", "ended in 1", "ended in 14", "ended in 15"];

/// What the questions about figures should reach: each ending with each output, and numbers of each length.
pub fn required_of_figures() -> Vec<String> {
    let mut list = vec!["figures refused 11".to_string()];
    for ending in ENDINGS {
        list.push(format!("figures {ending}"));
        let outputs = ["exact", "one byte short", "empty", "longer"];
        list.extend(outputs.map(|output| format!("figures output {output}, {ending}")));
    }
    list.extend((1..=5).map(|digits| format!("figures tables of {digits} digits")));
    list.extend([0, MOST_RECORDS - 1, MOST_RECORDS].map(largest_class));
    list
}

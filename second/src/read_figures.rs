//! Reading figures back from their text, and holding three texts to the law of two batches joined.

use crate::figures::{text_of, Figures};
use crate::table::Refusal;

/// The figures of this text, or its refusal if the batch has none; nothing for any other text.
pub fn read_figures(text: &str) -> Option<Result<Figures, Refusal>> {
    let lines: Vec<&str> = text.lines().collect();
    let names = Figures::default().lines();
    let figures = match lines[..] {
        [only] => Err(read_refusal(only)?),
        _ => {
            let (counted, end) = lines.split_at_checked(names.len())?;
            let numbers: Option<Vec<usize>> =
                counted.iter().zip(&names).map(|(line, (name, _))| number_after(line, name)).collect();
            let ended = match end {
                [] => None,
                [line] => Some(read_refusal(line)?),
                _ => return None,
            };
            Ok(from_numbers(&numbers?, ended)?)
        }
    };
    // Another writing of the same numbers (a leading 0, a missing line end) is another text.
    (text_of(&figures) == text).then_some(figures)
}

fn number_after(line: &str, name: &str) -> Option<usize> {
    line.strip_prefix(name)?.strip_prefix(' ')?.parse().ok()
}

fn read_refusal(line: &str) -> Option<Refusal> {
    let words: Vec<&str> = line.split(' ').collect();
    let ["refused", number, "at", place] = words[..] else { return None };
    Some(Refusal::at(number.parse().ok()?, place.parse().ok()?))
}

/// The figures with these numbers, in the order of the lines.
fn from_numbers(numbers: &[usize], ended: Option<Refusal>) -> Option<Figures> {
    let (tables, rest) = numbers.split_first()?;
    let (refused, rest) = rest.split_first_chunk()?;
    let (findings, rest) = rest.split_first_chunk()?;
    let (verdicts, rest) = rest.split_first_chunk()?;
    let [largest] = rest else { return None };
    Some(Figures {
        tables: *tables,
        refused: *refused,
        findings: *findings,
        verdicts: *verdicts,
        largest: *largest,
        ended,
    })
}

/// What two texts say of the joined batch, the first batch being of this length. Nothing if they can't be
/// added: the first then did not end cleanly, by its own text.
pub fn joined_text(first: &str, length: usize, second: &str) -> Option<String> {
    let (first, second) = (read_figures(first)?.ok()?, read_figures(second)?.ok()?);
    first.ended.is_none().then(|| first.joined(length, &second).text())
}

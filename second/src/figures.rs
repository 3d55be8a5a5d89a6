//! Monday's figures, by request W3: what a batch comes to, the sum of two, their lines, and the one call.

use crate::batch::read_batch;
use crate::findings::{FINDINGS, VERDICTS};
use crate::report::Report;
use crate::table::{refuse, Refusal};
use crate::text::refusal_line;

/// A table in a batch is refused with 1 to 8 or not at all.
pub const TABLE_REFUSALS: usize = 8;

#[derive(Clone, Debug, Default, PartialEq, Eq)]
pub struct Figures {
    pub tables: usize,
    /// Refused tables by number, those of 1 first.
    pub refused: [usize; TABLE_REFUSALS],
    /// Tables with each finding, in the report's order.
    pub findings: [usize; FINDINGS.len()],
    /// Tables of each verdict, in the order of `VERDICTS`.
    pub verdicts: [usize; VERDICTS.len()],
    /// "the largest table in records among those not refused (0 if there is none)"
    pub largest: usize,
    /// The 14 or 15 that ended the batch: named, and not counted as a table's refusal.
    pub ended: Option<Refusal>,
}

impl Figures {
    /// "Each figure equals the count over the answers of W1".
    pub fn of(answers: &[Result<Report, Refusal>], ended: Option<Refusal>) -> Figures {
        let mut figures = Figures { tables: answers.len(), ended, ..Figures::default() };
        for answer in answers {
            match answer {
                Err(refusal) => figures.refused[refusal.number as usize - 1] += 1,
                Ok(report) => figures.count(report),
            }
        }
        figures
    }

    fn count(&mut self, report: &Report) {
        for (number, held) in self.findings.iter_mut().zip(report.findings.held()) {
            *number += usize::from(held);
        }
        self.verdicts[report.findings.verdict() as usize] += 1;
        self.largest = self.largest.max(report.events);
    }

    /// The figures of two batches joined, the first of this length and ended cleanly: "the sums"; "the larger
    /// of the two"; "a refusal of the second has its place moved on by the first's length".
    pub fn joined(&self, length: usize, second: &Figures) -> Figures {
        let moved = |refusal: Refusal| Refusal { place: length + refusal.place, ..refusal };
        Figures {
            tables: self.tables + second.tables,
            refused: sums(self.refused, second.refused),
            findings: sums(self.findings, second.findings),
            verdicts: sums(self.verdicts, second.verdicts),
            largest: self.largest.max(second.largest),
            ended: second.ended.map(moved),
        }
    }

    /// The name and the number of each line, in order; the refusal that ended the batch comes after them.
    pub fn lines(&self) -> Vec<(String, usize)> {
        let mut list = vec![("tables".to_string(), self.tables)];
        list.extend(self.refused.iter().enumerate().map(|(n, &count)| (format!("refused {}", n + 1), count)));
        list.extend(FINDINGS.map(|name| name.to_string()).into_iter().zip(self.findings));
        list.extend(VERDICTS.map(|name| name.to_string()).into_iter().zip(self.verdicts));
        list.push(("largest".to_string(), self.largest));
        list
    }

    pub fn text(&self) -> String {
        let lines: String = self.lines().iter().map(|(name, number)| format!("{name} {number}\n")).collect();
        lines + &self.ended.map_or(String::new(), refusal_line)
    }
}

fn sums<const N: usize>(one: [usize; N], other: [usize; N]) -> [usize; N] {
    std::array::from_fn(|n| one[n] + other[n])
}

/// "A batch refused with 1 has no figures, only that refusal."
pub fn figures_of(bytes: &[u8], depth: usize) -> Result<Figures, Refusal> {
    let batch = read_batch(bytes);
    match batch.refusal {
        Some(refusal) if refusal.number == 1 => Err(refusal),
        ended => Ok(Figures::of(&batch.reports(depth), ended)),
    }
}

/// What the program writes: the figures' lines, or the one line of a batch without figures.
pub fn text_of(figures: &Result<Figures, Refusal>) -> String {
    match figures {
        Ok(figures) => figures.text(),
        Err(refusal) => refusal_line(*refusal),
    }
}

/// The one call: writes that text to the front of the output and returns its length. 11 is tested last, by
/// what it would write.
pub fn write_figures(bytes: &[u8], output: &mut [u8], depth: usize) -> Result<usize, Refusal> {
    let text = text_of(&figures_of(bytes, depth));
    match output.get_mut(..text.len()) {
        None => refuse(11, 0),
        Some(front) => {
            front.copy_from_slice(text.as_bytes());
            Ok(text.len())
        }
    }
}

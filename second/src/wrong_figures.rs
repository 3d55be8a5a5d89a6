//! Figures that are wrong on purpose, in the ways of `wrong` that are about them.

use crate::batch::read_batch;
use crate::figures::{figures_of, Figures};
use crate::findings::Verdict;
use crate::report::Report;
use crate::table::{Refusal, RECORD_BYTES};
use crate::wrong::{asked, Way};

/// The figures as this build tells them: as they are, or wrong in the way that was asked for.
pub fn figures_as_built(bytes: &[u8], depth: usize) -> Result<Figures, Refusal> {
    match asked() {
        None => figures_of(bytes, depth),
        Some(way) => wrong_figures(bytes, depth, way),
    }
}

/// The figures wrong in this way, where the way makes a difference.
pub fn wrong_figures(bytes: &[u8], depth: usize, way: Way) -> Result<Figures, Refusal> {
    let right = figures_of(bytes, depth)?;
    let spoil = match way {
        Way::LargestOfRefused => largest_of_refused,
        Way::OneFinding => one_finding,
        Way::EndingCounted => ending_counted,
        Way::WrongVerdict => wrong_verdict,
        _ => return Ok(right),
    };
    let batch = read_batch(bytes);
    Ok(spoil(right, &batch.tables, &batch.reports(depth)))
}

/// The largest table is looked for among the refused ones too.
fn largest_of_refused(right: Figures, tables: &[&[u8]], _: &[Result<Report, Refusal>]) -> Figures {
    let largest = tables.iter().map(|table| table.len() / RECORD_BYTES).max().unwrap_or(0);
    Figures { largest, ..right }
}

/// A table counts for its first finding only.
fn one_finding(right: Figures, _: &[&[u8]], answers: &[Result<Report, Refusal>]) -> Figures {
    let mut figures = Figures { findings: Default::default(), ..right };
    for report in answers.iter().flatten() {
        if let Some(first) = report.findings.held().iter().position(|&held| held) {
            figures.findings[first] += 1;
        }
    }
    figures
}

/// What ended the batch counts as one more table.
fn ending_counted(right: Figures, _: &[&[u8]], _: &[Result<Report, Refusal>]) -> Figures {
    Figures { tables: right.tables + usize::from(right.ended.is_some()), ..right }
}

/// An undefined table counts as inconsistent.
fn wrong_verdict(mut right: Figures, _: &[&[u8]], _: &[Result<Report, Refusal>]) -> Figures {
    let undefined = std::mem::take(&mut right.verdicts[Verdict::Undefined as usize]);
    right.verdicts[Verdict::Inconsistent as usize] += undefined;
    right
}

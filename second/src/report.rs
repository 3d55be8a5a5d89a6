//! What a table is answered, as values: its refusal, or its number of records and its findings.

use crate::findings::Findings;
use crate::relations::Relations;
use crate::table::{read_table, Refusal, RECORD_BYTES};

/// The report on a table that was not refused.
#[derive(Clone, Debug, PartialEq, Eq)]
pub struct Report {
    pub events: usize,
    pub findings: Findings,
}

/// The answer to a table; `depth` is that of `Relations::of`.
pub fn report_on(bytes: &[u8], depth: usize) -> Result<Report, Refusal> {
    let records = read_table(bytes)?;
    let relations = Relations::of(&records, depth);
    Ok(Report { events: bytes.len() / RECORD_BYTES, findings: Findings::of(&records, &relations) })
}

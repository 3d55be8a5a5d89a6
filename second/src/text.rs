//! The lines that are written: a report, a refusal, bytes in hex.

use crate::findings::VERDICTS;
use crate::report::{report_on, Report};
use crate::table::Refusal;

/// What the program writes for a table; `depth` is that of `Relations::of`.
pub fn judge(bytes: &[u8], depth: usize) -> String {
    answer_lines(report_on(bytes, depth))
}

/// The lines of an answer.
pub fn answer_lines(answer: Result<Report, Refusal>) -> String {
    answer.map_or_else(refusal_line, report_lines)
}

/// "A refused table gives one line"; a record's refusal names its byte too, as `refused 4 at 17 byte 9`, and
/// the others are as they were, as `refused 1 at 0`.
pub fn refusal_line(Refusal { number, place, byte }: Refusal) -> String {
    match byte {
        Some(byte) => format!("refused {number} at {place} byte {byte}\n"),
        None => format!("refused {number} at {place}\n"),
    }
}

fn report_lines(Report { events, findings }: Report) -> String {
    let pair = |found: Option<(usize, usize)>| found.map(|(p, q)| vec![p, q]);
    let mut text = format!("events {events}\n");
    text += &finding_line("R", findings.r.map(|read| vec![read]));
    text += &finding_line("A1", findings.a1.clone());
    text += &finding_line("A2", pair(findings.a2));
    text += &finding_line("A3", pair(findings.a3));
    text += &finding_line("A4", findings.a4.clone());
    text += &finding_line("A5", pair(findings.a5));
    text += &finding_line("W", pair(findings.w));
    text + &format!("verdict {}\n", VERDICTS[findings.verdict() as usize])
}

fn finding_line(name: &str, numbers: Option<Vec<usize>>) -> String {
    match numbers {
        None => format!("{name} none\n"),
        Some(list) => {
            let words: Vec<String> = list.iter().map(|number| number.to_string()).collect();
            format!("{name} {}\n", words.join(" "))
        }
    }
}

/// Lower-case hex, two digits a byte.
pub fn hex(bytes: &[u8]) -> String {
    bytes.iter().map(|byte| format!("{byte:02x}")).collect()
}

//! Many questions at once: their bytes, and the answer to each.

use crate::batch::{answer_batch, Answered};
use crate::edit::{append, cut, fetch, fetch_refusal};
use crate::figures::write_figures;
use crate::table::Refusal;
use crate::text::{hex, judge, refusal_line};

/// What the output of a cut, a batch or its figures holds before it.
pub const OUTPUT_FILL: u8 = 0xa5;
/// How many bytes the programs that answer take as a table, a cut's output or a selection.
pub const MOST_PART: usize = 4096;

#[derive(Clone, Debug, PartialEq, Eq)]
pub enum Question {
    Judge { table: Vec<u8> },
    Cut { selection: Vec<u8>, output_size: u16, table: Vec<u8> },
    Append { in_use: u16, event: [u8; 16], buffer: Vec<u8> },
    Fetch { asked: u16, table: Vec<u8> },
    Batch { output_size: u16, batch: Vec<u8> },
    Figures { output_size: u16, batch: Vec<u8> },
}

impl Question {
    pub fn operation(&self) -> &'static str {
        match self {
            Question::Judge { .. } => "judge",
            Question::Cut { .. } => "cut",
            Question::Append { .. } => "append",
            Question::Fetch { .. } => "fetch",
            Question::Batch { .. } => "batch",
            Question::Figures { .. } => "figures",
        }
    }

    /// The table, buffer or batch of the question.
    pub fn table(&self) -> &[u8] {
        match self {
            Question::Judge { table }
            | Question::Cut { table, .. }
            | Question::Append { buffer: table, .. }
            | Question::Fetch { table, .. }
            | Question::Batch { batch: table, .. }
            | Question::Figures { batch: table, .. } => table,
        }
    }

    /// The question for a reader: its operation, its fields, and its table or batch in hex.
    pub fn describe(&self) -> String {
        let fields = match self {
            Question::Judge { .. } => String::new(),
            Question::Cut { selection, output_size, .. } => {
                format!(" selection {} output {output_size} bytes", hex(selection))
            }
            Question::Append { in_use, event, .. } => format!(" in use {in_use} event {}", hex(event)),
            Question::Fetch { asked, .. } => format!(" record {asked}"),
            Question::Batch { output_size, .. } | Question::Figures { output_size, .. } => {
                format!(" output {output_size} bytes")
            }
        };
        let of_batch = matches!(self, Question::Batch { .. } | Question::Figures { .. });
        let held = if of_batch { "batch" } else { "table" };
        format!("{}{fields} {held} {}", self.operation(), hex(self.table()))
    }

    /// The question as bytes.
    pub fn to_bytes(&self) -> Vec<u8> {
        let mut bytes = Vec::new();
        match self {
            Question::Judge { .. } => bytes.push(b'J'),
            Question::Cut { selection, output_size, .. } => {
                bytes.push(b'C');
                bytes.extend((selection.len() as u16).to_le_bytes());
                bytes.extend(selection);
                bytes.extend(output_size.to_le_bytes());
            }
            Question::Append { in_use, event, .. } => {
                bytes.push(b'A');
                bytes.extend(in_use.to_le_bytes());
                bytes.extend(event);
            }
            Question::Fetch { asked, .. } => {
                bytes.push(b'F');
                bytes.extend(asked.to_le_bytes());
            }
            Question::Batch { output_size, .. } => {
                bytes.push(b'B');
                bytes.extend(output_size.to_le_bytes());
            }
            Question::Figures { output_size, .. } => {
                bytes.push(b'M');
                bytes.extend(output_size.to_le_bytes());
            }
        }
        bytes.extend((self.table().len() as u16).to_le_bytes());
        bytes.extend(self.table());
        bytes
    }

    /// The lines that answer it, the closing empty line included.
    pub fn answer(&self, depth: usize) -> String {
        let lines = match self {
            Question::Judge { table } => judge(table, depth),
            Question::Cut { selection, output_size, table } => written_to(*output_size, |output| {
                cut(table, selection, output, depth).map(|kept| format!("cut {kept}\n"))
            }),
            Question::Append { in_use, event, buffer } => {
                let mut buffer = buffer.clone();
                let first = match append(&mut buffer, *in_use as usize, event) {
                    Ok(count) => format!("count {count}\n"),
                    Err(refusal) => refusal_line(refusal),
                };
                format!("{first}{}\n", hex(&buffer))
            }
            Question::Fetch { asked, table } => {
                let part = hex(fetch(table, *asked as usize));
                let last = fetch_refusal(table, *asked as usize);
                format!("{part}\n{}", last.map_or("given\n".to_string(), refusal_line))
            }
            Question::Batch { output_size, batch } => {
                written_to(*output_size, |output| answer_batch(batch, output, depth).map(answered_line))
            }
            Question::Figures { output_size, batch } => written_to(*output_size, |output| {
                write_figures(batch, output, depth).map(|bytes| format!("wrote {bytes} bytes\n"))
            }),
        };
        lines + "\n"
    }
}

/// The line that an operation returns, or its refusal's, and the whole output after it.
fn written_to(size: u16, operation: impl FnOnce(&mut [u8]) -> Result<String, Refusal>) -> String {
    let mut output = vec![OUTPUT_FILL; size as usize];
    let first = operation(&mut output).unwrap_or_else(refusal_line);
    format!("{first}{}\n", hex(&output))
}

/// What the one call on a batch returns.
fn answered_line(answered: Answered) -> String {
    let end = answered.refusal.map_or("cleanly\n".to_string(), refusal_line);
    format!("answered {} tables {} bytes, ended {end}", answered.tables, answered.bytes)
}

/// The bytes of questions, taken from the front.
struct Rest<'a>(&'a [u8]);

impl<'a> Rest<'a> {
    fn take(&mut self, count: usize) -> Result<&'a [u8], String> {
        if self.0.len() < count {
            return Err("the bytes end inside a question".to_string());
        }
        let (part, rest) = self.0.split_at(count);
        self.0 = rest;
        Ok(part)
    }

    fn take_u16(&mut self) -> Result<u16, String> {
        Ok(u16::from_le_bytes(self.take(2)?.try_into().expect("two bytes")))
    }

    /// A length and so many bytes: a table, a batch or a selection.
    fn take_part(&mut self) -> Result<Vec<u8>, String> {
        let length = self.take_u16()? as usize;
        Ok(self.take(length)?.to_vec())
    }
}

/// All questions of a file.
pub fn all_questions(bytes: &[u8]) -> Result<Vec<Question>, String> {
    let mut rest = Rest(bytes);
    let mut list = Vec::new();
    while !rest.0.is_empty() {
        list.push(match rest.take(1)?[0] {
            b'J' => Question::Judge { table: rest.take_part()? },
            b'C' => Question::Cut {
                selection: rest.take_part()?,
                output_size: rest.take_u16()?,
                table: rest.take_part()?,
            },
            b'A' => Question::Append {
                in_use: rest.take_u16()?,
                event: rest.take(16)?.try_into().expect("sixteen bytes"),
                buffer: rest.take_part()?,
            },
            b'F' => Question::Fetch { asked: rest.take_u16()?, table: rest.take_part()? },
            b'B' => Question::Batch { output_size: rest.take_u16()?, batch: rest.take_part()? },
            b'M' => Question::Figures { output_size: rest.take_u16()?, batch: rest.take_part()? },
            other => return Err(format!("question {} has operation {other}", list.len())),
        });
    }
    Ok(list)
}

/// The answers to these questions, each as its lines without the closing empty one. A judge answer
/// ends at the first empty line; every other one has two lines, of which one may be empty.
pub fn split_answers(questions: &[Question], text: &str) -> Result<Vec<Vec<String>>, String> {
    let mut lines = text.split('\n');
    let mut answers = Vec::new();
    for (number, question) in questions.iter().enumerate() {
        let mut answer = Vec::new();
        let fixed = !matches!(question, Question::Judge { .. });
        loop {
            let line = lines.next().ok_or(format!("no whole answer to question {number}"))?;
            if line.is_empty() && (!fixed || answer.len() == 2) {
                break;
            }
            if fixed && answer.len() == 2 {
                return Err(format!("the answer to question {number} is not two lines"));
            }
            answer.push(line.to_string());
        }
        answers.push(answer);
    }
    match (lines.next(), lines.next()) {
        (Some(""), None) => Ok(answers),
        _ => Err("there is more after the last answer".to_string()),
    }
}

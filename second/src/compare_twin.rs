//! Comparing what a program writes for each of the twin's inputs with the second judge's text.

use crate::relations::depth;
use crate::twin::twin_text;
use std::fs::File;
use std::io;
use std::path::Path;
use std::process::{Command, Output, Stdio};

/// The program's words, its own path first, as they were given.
pub struct Program<'a> {
    pub words: &'a [String],
}

impl Program<'_> {
    /// What one run with this file as its standard input gave.
    fn run(&self, input: &Path) -> io::Result<Output> {
        let mut command = Command::new(&self.words[0]);
        command.args(&self.words[1..]).stdin(Stdio::from(File::open(input)?)).output()
    }

    /// How the program's text for this file differs from the second judge's, if it does.
    pub fn difference(&self, input: &Path, bytes: &[u8]) -> io::Result<Option<String>> {
        let right = twin_text(bytes, depth());
        let output = self.run(input)?;
        let written = String::from_utf8_lossy(&output.stdout);
        let told = String::from_utf8_lossy(&output.stderr);
        let failed = !output.status.success() || !told.is_empty();
        let is_unlike = failed || output.stdout != right.as_bytes();
        let failure = if failed { format!("(the program failed: {}) ", short(&told)) } else { String::new() };
        Ok(is_unlike.then(|| format!("< {failure}{}\n> {}\n", short(&written), short(&right))))
    }
}

/// How much of a text is told: no right one is longer.
const MOST_TOLD: usize = 300;

/// A text on one line, a stroke for each line end.
fn short(text: &str) -> String {
    text.replace('\n', " / ").chars().take(MOST_TOLD).collect()
}

//! What the twin writes, by request W6: the judge's own text for a small table, and two words for a larger input.

use crate::table::RECORD_BYTES;
use crate::text::judge;

/// "an input above 384 bytes (24 records)"
pub const MOST_TWIN_RECORDS: usize = 24;
pub const MOST_TWIN_BYTES: usize = RECORD_BYTES * MOST_TWIN_RECORDS;

/// "Its program writes only `too large`", before any test of the input.
pub const TOO_LARGE: &str = "too large\n";

/// What the program writes for an input; `depth` is that of `Relations::of`.
pub fn twin_text(bytes: &[u8], depth: usize) -> String {
    if bytes.len() > MOST_TWIN_BYTES {
        return TOO_LARGE.to_string();
    }
    judge(bytes, depth)
}

//! The ways in which a build with the feature `wrong` can be wrong on purpose, for the comparisons to find: what each
//! does, its name, and which was asked for.

use std::ffi::OsStr;
use std::process::exit;
use std::sync::LazyLock;

/// The variable that names the way; unset, the build is right.
const VARIABLE: &str = "WRONG";

#[derive(Clone, Copy, Debug, PartialEq, Eq)]
pub enum Way {
    /// The judge follows happens-before only ten steps deep.
    TenSteps,
    /// The judge shows A5 at updates in conflict too.
    UpdatesInConflict,
    /// The reader of batches asks for the mark first, even where the header is too short.
    MarkOfShortHeader,
    /// Figures: the largest table is looked for among the refused ones too.
    LargestOfRefused,
    /// Figures: a table counts for its first finding only.
    OneFinding,
    /// Figures: what ended the batch counts as one more table.
    EndingCounted,
    /// Figures: an undefined table counts as inconsistent.
    WrongVerdict,
    /// A refusal names the first byte of the field at fault, in place of the least byte that is itself wrong.
    FirstOfField,
    /// A refusal names the location's byte for a thread.
    ThreadAsLocation,
    /// A refusal names a byte for a wrong length, where none is named.
    ByteOfLength,
    /// A refusal names the byte within the table, in place of that within the record.
    ByteOfTable,
    /// A refusal names the second byte of a mark of which only that is wrong.
    SecondOfMark,
    /// A table has at most 64 records, as it had before request W5.
    SixtyFour,
    /// Selections: record n is bit 7 - n mod 8 of its byte.
    HighBitFirst,
    /// Selections: one of another length is taken as if zero bytes followed or the bytes past it were not there.
    AnyLength,
    /// Selections: a wrong length is refused before the table is looked at.
    LengthBeforeTable,
    /// Selections: bits at or past the count are not looked at.
    PastTheCount,
    /// The twin: sw from any source, releasing or not.
    SwAnySource,
    /// The twin: a last step of po stops at a thread's start, for happens-before only.
    StopsAtThreadStart,
    /// The twin: of several cycles of the fewest records, another than the least.
    AnyCycle,
    /// The twin: 384 bytes are already too large.
    TooLargeAt384,
    /// The twin: above 384 bytes the tests come first.
    TestsFirst,
}

/// Each way and its name.
pub const WAYS: [(&str, Way); 22] = [
    ("ten-steps", Way::TenSteps),
    ("updates-in-conflict", Way::UpdatesInConflict),
    ("mark-of-short-header", Way::MarkOfShortHeader),
    ("largest-of-refused", Way::LargestOfRefused),
    ("one-finding", Way::OneFinding),
    ("ending-counted", Way::EndingCounted),
    ("wrong-verdict", Way::WrongVerdict),
    ("first-of-field", Way::FirstOfField),
    ("thread-as-location", Way::ThreadAsLocation),
    ("byte-of-length", Way::ByteOfLength),
    ("byte-of-table", Way::ByteOfTable),
    ("second-of-mark", Way::SecondOfMark),
    ("sixty-four", Way::SixtyFour),
    ("high-bit-first", Way::HighBitFirst),
    ("any-length", Way::AnyLength),
    ("length-before-table", Way::LengthBeforeTable),
    ("past-the-count", Way::PastTheCount),
    ("sw-any-source", Way::SwAnySource),
    ("stops-at-thread-start", Way::StopsAtThreadStart),
    ("any-cycle", Way::AnyCycle),
    ("too-large-at-384", Way::TooLargeAt384),
    ("tests-first", Way::TestsFirst),
];

/// The way that was asked for; never one in a build without the feature.
pub fn asked() -> Option<Way> {
    static ASKED: LazyLock<Option<Way>> = LazyLock::new(read_variable);
    if cfg!(feature = "wrong") {
        *ASKED
    } else {
        None
    }
}

/// Whether this way was asked for.
pub fn is_asked(way: Way) -> bool {
    asked() == Some(way)
}

/// The way that has this name, if one has.
pub fn way_named(name: &OsStr) -> Option<Way> {
    WAYS.iter().find(|(known, _)| name == *known).map(|(_, way)| *way)
}

fn read_variable() -> Option<Way> {
    let name = std::env::var_os(VARIABLE)?;
    let way = way_named(&name);
    if way.is_none() {
        eprintln!("{VARIABLE}={name:?} names no way to be wrong");
        exit(2)
    }
    way
}

//! The ways to be wrong on purpose: each has a name of its own and a script that shows it found.

use second::wrong::{asked, way_named, WAYS};
use std::ffi::OsStr;

const SCRIPTS: [&str; 6] = [
    include_str!("../compare-wrong.sh"),
    include_str!("../compare-wrong-batches.sh"),
    include_str!("../compare-wrong-figures.sh"),
    include_str!("../compare-wrong-bytes.sh"),
    include_str!("../compare-wrong-selections.sh"),
    include_str!("../compare-wrong-twin.sh"),
];

#[test]
fn a_name_is_that_of_one_way() {
    for (name, way) in WAYS {
        assert_eq!(way_named(OsStr::new(name)), Some(way));
        assert_eq!(WAYS.iter().filter(|(_, other)| *other == way).count(), 1);
    }
    for name in ["", "another", "ten-step", "Ten-Steps"] {
        assert_eq!(way_named(OsStr::new(name)), None);
    }
}

#[test]
fn nothing_is_asked_for_where_nothing_is_set() {
    assert_eq!(asked(), None);
}

#[test]
fn each_way_is_asked_for_by_one_script() {
    for (name, _) in WAYS {
        let parts_words = |sign: char| !sign.is_ascii_lowercase() && !sign.is_ascii_digit() && sign != '-';
        let asks = |script: &str| script.split(parts_words).any(|word| word == name);
        assert_eq!(SCRIPTS.iter().filter(|script| asks(script)).count(), 1, "{name}");
    }
}

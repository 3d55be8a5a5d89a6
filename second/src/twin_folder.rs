//! The folder of the twin's inputs: `0000.table` and on.

use std::collections::BTreeMap;
use std::path::Path;
use std::{fs, io};

pub fn write_inputs(folder: &Path, inputs: &[Vec<u8>]) -> io::Result<()> {
    fs::create_dir_all(folder)?;
    for (number, bytes) in inputs.iter().enumerate() {
        fs::write(folder.join(format!("{number:04}.table")), bytes)?;
    }
    Ok(())
}

/// Inputs by file name. Refuses a folder that holds anything else, or nothing.
pub fn read_inputs(folder: &Path) -> io::Result<BTreeMap<String, Vec<u8>>> {
    let mut inputs = BTreeMap::new();
    for entry in fs::read_dir(folder)? {
        let file = entry?.file_name().to_string_lossy().into_owned();
        if !file.ends_with(".table") {
            return Err(io::Error::other(format!("{file} is no table")));
        }
        let bytes = fs::read(folder.join(&file))?;
        inputs.insert(file, bytes);
    }
    if inputs.is_empty() {
        return Err(io::Error::other("no table to compare"));
    }
    Ok(inputs)
}

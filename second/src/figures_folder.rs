//! The folder of batches and joined pairs: `000.batch` and on, and `000-001.joined` for 001 behind 000.

use std::collections::BTreeMap;
use std::path::Path;
use std::{fs, io};

/// Batches by name, and the two names of each pair.
#[derive(Default)]
pub struct Folder {
    pub batches: BTreeMap<String, Vec<u8>>,
    pub pairs: Vec<(String, String)>,
}

impl Folder {
    pub fn of(batches: Vec<Vec<u8>>, pairs: &[(usize, usize)]) -> Folder {
        let name = |number: usize| format!("{number:03}");
        Folder {
            batches: batches.into_iter().enumerate().map(|(number, bytes)| (name(number), bytes)).collect(),
            pairs: pairs.iter().map(|&(first, second)| (name(first), name(second))).collect(),
        }
    }

    pub fn write(&self, path: &Path) -> io::Result<()> {
        fs::create_dir_all(path)?;
        for (name, bytes) in &self.batches {
            fs::write(path.join(format!("{name}.batch")), bytes)?;
        }
        for (first, second) in &self.pairs {
            let bytes = [self.batch(first), self.batch(second)].concat();
            fs::write(path.join(joined_name(first, second) + ".joined"), bytes)?;
        }
        Ok(())
    }

    /// Refuses a folder that holds anything else, or a pair that is not its two batches joined.
    pub fn read(path: &Path) -> io::Result<Folder> {
        let mut folder = Folder::default();
        let mut joined = BTreeMap::new();
        for entry in fs::read_dir(path)? {
            let file = entry?.file_name().to_string_lossy().into_owned();
            let bytes = fs::read(path.join(&file))?;
            match (file.strip_suffix(".batch"), file.strip_suffix(".joined")) {
                (Some(name), _) => folder.batches.insert(name.to_string(), bytes),
                (_, Some(name)) => joined.insert(name.to_string(), bytes),
                _ => return Err(io::Error::other(format!("{file} is no batch"))),
            };
        }
        for (name, bytes) in joined {
            let pair = name.split_once('-').filter(|pair| folder.is_joined(pair, &bytes));
            let (first, second) =
                pair.ok_or(io::Error::other(format!("{name} is not two batches joined")))?;
            folder.pairs.push((first.to_string(), second.to_string()));
        }
        Ok(folder)
    }

    fn is_joined(&self, (first, second): &(&str, &str), bytes: &[u8]) -> bool {
        let (Some(first), Some(second)) = (self.batches.get(*first), self.batches.get(*second)) else {
            return false;
        };
        bytes.strip_prefix(&first[..]) == Some(second)
    }

    /// A batch that a pair names.
    pub fn batch(&self, name: &str) -> &[u8] {
        &self.batches[name]
    }
}

pub fn joined_name(first: &str, second: &str) -> String {
    format!("{first}-{second}")
}

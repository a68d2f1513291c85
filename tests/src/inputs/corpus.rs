//! The inputs that fuzzing has kept: every file of a folder is one. A text is the bytes of the
//! file; lists are a row of words, as fuzz/lists.c takes them.

use super::lists::Lists;
use std::io::Error;
use std::path::{Path, PathBuf};

/// The most marks and pairs that words make, somewhat beyond what is accepted.
const MOST_MARKS: usize = 1_100;
const MOST_PAIRS: usize = 4_200;

/// The folder of this name that the repository keeps.
pub fn kept(name: &str) -> PathBuf {
    let corpus = Path::new(env!("CARGO_MANIFEST_DIR")).join("../fuzz/corpus");
    corpus.join(name)
}

/// The name and the bytes of each file, in the order of the names.
pub fn files(folder: &Path) -> Result<Vec<(String, Vec<u8>)>, Error> {
    let entries = std::fs::read_dir(folder)?.collect::<Result<Vec<_>, _>>()?;
    let mut paths: Vec<PathBuf> = entries.iter().map(|entry| entry.path()).collect();
    paths.sort();
    let name = |path: &PathBuf| path.display().to_string();
    let file = |path: &PathBuf| Ok((name(path), std::fs::read(path)?));
    paths.iter().map(file).collect()
}

/// Lists, and the place and the turns that are asked.
#[derive(Default)]
pub struct Words {
    pub lists: Lists,
    pub place: u32,
    pub turns: u32,
}

impl Words {
    pub fn of(mut bytes: &[u8]) -> Self {
        let mut words = Words::default();
        while !bytes.is_empty() {
            words.take(&mut bytes);
        }
        words
    }

    /// A word is a letter and its numbers. A byte that is none of the letters says nothing.
    fn take(&mut self, bytes: &mut &[u8]) {
        match number(bytes, 1) as u8 {
            b'R' => self.add_mark(0),
            b'U' => self.add_mark(1),
            b'M' => self.add_mark(number(bytes, 1) as u8),
            b'P' => self.add_pair(number(bytes, 1), number(bytes, 1)),
            b'W' => self.add_pair(number(bytes, 4), number(bytes, 4)),
            b'O' => add_place(&mut self.lists.objectors, number(bytes, 1)),
            b'T' => add_place(&mut self.lists.targets, number(bytes, 1)),
            b'N' => (0..number(bytes, 2)).for_each(|_| self.add_mark(0)),
            b'C' => {
                let (count, first) = (number(bytes, 2), number(bytes, 2));
                (first..first + count).for_each(|place| self.add_pair(place, place + 1));
            }
            b'F' => {
                let (count, first) = (number(bytes, 2), number(bytes, 2));
                let target = number(bytes, 2);
                (first..first + count).for_each(|place| self.add_pair(place, target));
            }
            b'A' => (self.place, self.turns) = (number(bytes, 4), number(bytes, 1)),
            _ => (),
        }
    }

    fn add_mark(&mut self, mark: u8) {
        if self.lists.marks.len() < MOST_MARKS {
            self.lists.marks.push(mark);
        }
    }

    fn add_pair(&mut self, objector: u32, target: u32) {
        add_place(&mut self.lists.objectors, objector);
        add_place(&mut self.lists.targets, target);
    }
}

fn add_place(places: &mut Vec<u32>, place: u32) {
    if places.len() < MOST_PAIRS {
        places.push(place);
    }
}

/// A number of so many bytes, the least first; what is missing at the end is 0.
fn number(bytes: &mut &[u8], count: usize) -> u32 {
    let (number, rest) = bytes.split_at(count.min(bytes.len()));
    *bytes = rest;
    let add = |sum: u32, byte: &u8| sum << 8 | u32::from(*byte);
    number.iter().rev().fold(0, add)
}

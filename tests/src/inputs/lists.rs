//! A register as lists of pairs, the way a caller hands it over. Whether it is sound is for the
//! library and the second solver to say, so anything can be put into one of these.

use crate::random::Random;
use std::fmt;

/// How many entries of a list are shown where a test failed.
const SHOWN: usize = 24;

#[derive(Clone, Default, PartialEq, Eq)]
pub struct Lists {
    pub marks: Vec<u8>,
    pub objectors: Vec<u32>,
    pub targets: Vec<u32>,
}

impl Lists {
    pub fn new(marks: Vec<u8>, pairs: &[(u32, u32)]) -> Self {
        let (objectors, targets) = pairs.iter().copied().unzip();
        Lists {
            marks,
            objectors,
            targets,
        }
    }

    /// Each pair as objector and target.
    pub fn pairs(&self) -> impl Iterator<Item = (u32, u32)> + '_ {
        let targets = self.targets.iter().copied();
        self.objectors.iter().copied().zip(targets)
    }

    /// Each pair as two indices, for lists that are known to be sound.
    pub fn objections(&self) -> impl Iterator<Item = (usize, usize)> + '_ {
        self.pairs()
            .map(|(objector, target)| (objector as usize, target as usize))
    }

    /// The same register with its pairs in a random order.
    pub fn reordered(&self, random: &mut Random) -> Self {
        let mut pairs: Vec<(u32, u32)> = self.pairs().collect();
        random.shuffle(&mut pairs);
        Lists::new(self.marks.clone(), &pairs)
    }

    /// The entries of the pairs in the order of their targets, and of those with one target in theirs.
    pub fn by_target(&self) -> Vec<usize> {
        let mut entries: Vec<usize> = (0..self.targets.len()).collect();
        entries.sort_by_key(|entry| self.targets[*entry]);
        entries
    }

    /// The same register with its pairs grouped by target in listed order.
    pub fn grouped(&self) -> Self {
        let pairs: Vec<(u32, u32)> = self.pairs().collect();
        let grouped: Vec<(u32, u32)> = self.by_target().iter().map(|entry| pairs[*entry]).collect();
        Lists::new(self.marks.clone(), &grouped)
    }

    /// Whether no target is listed behind that of the next pair.
    pub fn is_grouped(&self) -> bool {
        self.targets.windows(2).all(|next| next[0] <= next[1])
    }

    pub fn set_pair(&mut self, entry: usize, pair: (u32, u32)) {
        self.objectors[entry] = pair.0;
        self.targets[entry] = pair.1;
    }
}

impl fmt::Display for Lists {
    fn fmt(&self, out: &mut fmt::Formatter) -> fmt::Result {
        show(out, "marks", &self.marks)?;
        show(out, "; objectors", &self.objectors)?;
        show(out, "; targets", &self.targets)
    }
}

fn show<T: fmt::Display>(out: &mut fmt::Formatter, name: &str, list: &[T]) -> fmt::Result {
    write!(out, "{name}[{}]", list.len())?;
    for entry in list.iter().take(SHOWN) {
        write!(out, " {entry}")?;
    }
    if list.len() > SHOWN {
        write!(out, " ..")?;
    }
    Ok(())
}

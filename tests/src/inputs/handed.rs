//! A register in one of the two forms in which it is handed over, for tests of what can be asked of
//! both.

use super::lists::Lists;
use super::numbers;
use super::text::Text;
use crate::random::Random;

pub enum Handed {
    Lists(Lists),
    Text(Text),
}

impl Handed {
    /// Sound lists, and the same register as a text, under random numbers.
    pub fn both(random: &mut Random, lists: &Lists) -> [Self; 2] {
        let numbers = numbers::fitting(random, lists);
        let text = Text::written(lists, &numbers);
        [Handed::Lists(lists.clone()), Handed::Text(text)]
    }
}

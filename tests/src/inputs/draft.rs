//! A register in the making: pairs are added while there is space for them, none of them twice, and
//! at the end the statements and the pairs may be put in a random order.

use super::lists::Lists;
use crate::random::Random;
use std::collections::HashSet;

pub struct Draft {
    pub statements: usize,
    most_pairs: usize,
    marks: Vec<u8>,
    pairs: Vec<(u32, u32)>,
    taken: HashSet<(u32, u32)>,
}

impl Draft {
    /// So many statements, all read, and no pairs yet.
    pub fn new(statements: usize, most_pairs: usize) -> Self {
        Draft {
            statements,
            most_pairs,
            marks: vec![0; statements],
            pairs: Vec::new(),
            taken: HashSet::new(),
        }
    }

    /// How many pairs may still be added.
    pub fn space(&self) -> usize {
        let different = self.statements * self.statements;
        self.most_pairs.min(different) - self.pairs.len()
    }

    pub fn add(&mut self, objector: usize, target: usize) {
        let pair = (objector as u32, target as u32);
        if self.space() > 0 && self.taken.insert(pair) {
            self.pairs.push(pair);
        }
    }

    /// Adds so many random pairs, or as many as there is space for.
    pub fn add_random(&mut self, random: &mut Random, count: usize) {
        let left = self.space().saturating_sub(count);
        while self.space() > left {
            let objector = random.below(self.statements);
            self.add(objector, random.below(self.statements));
        }
    }

    /// Marks one statement in so many as unread.
    pub fn leave_unread(&mut self, random: &mut Random, one_in: usize) {
        for mark in &mut self.marks {
            *mark = u8::from(random.once_in(one_in));
        }
    }

    /// The register in a random order.
    pub fn mixed(mut self, random: &mut Random) -> Lists {
        let mut new_place: Vec<u32> = (0..self.statements as u32).collect();
        random.shuffle(&mut new_place);
        for pair in &mut self.pairs {
            *pair = (new_place[pair.0 as usize], new_place[pair.1 as usize]);
        }
        random.shuffle(&mut self.pairs);
        random.shuffle(&mut self.marks);
        self.in_draft_order()
    }

    /// The register with its pairs in the opposite order.
    pub fn reversed(mut self) -> Lists {
        self.pairs.reverse();
        self.in_draft_order()
    }

    /// The register with its statements and pairs in the order in which they were added.
    pub fn in_draft_order(self) -> Lists {
        Lists::new(self.marks, &self.pairs)
    }
}

//! Edits of a register, as a day at the desk brings them: a mark changes, an objection comes, goes or
//! is turned round, the objections are put in another order. The number and the order of the
//! statements stay, and what was sound stays sound.

use super::lists::Lists;
use crate::random::Random;
use crate::second::refusals::MOST_OBJECTIONS;

type Pairs = Vec<(u32, u32)>;

type Edit = fn(&mut Random, &mut [u8], &mut Pairs);

const EDITS: [Edit; 6] = [
    change_mark,
    change_mark,
    add_objection,
    lose_objection,
    turn_round,
    reorder,
];

/// A copy with so many edits. A register of no statements has nothing to be edited.
pub fn edited(random: &mut Random, lists: &Lists, count: usize) -> Lists {
    let mut marks = lists.marks.clone();
    let mut pairs: Pairs = lists.pairs().collect();
    for _ in 0..count.min(marks.len()) {
        let edit = EDITS[random.below(EDITS.len())];
        edit(random, &mut marks, &mut pairs);
    }
    Lists::new(marks, &pairs)
}

fn change_mark(random: &mut Random, marks: &mut [u8], _: &mut Pairs) {
    let place = random.below(marks.len());
    marks[place] = 1 - marks[place];
}

fn add_objection(random: &mut Random, marks: &mut [u8], pairs: &mut Pairs) {
    let mut place = || random.below(marks.len()) as u32;
    add(pairs, (place(), place()));
}

/// Adds a pair that is not there yet, if there is space for it.
fn add(pairs: &mut Pairs, pair: (u32, u32)) {
    if pairs.len() < MOST_OBJECTIONS && !pairs.contains(&pair) {
        pairs.push(pair);
    }
}

fn lose_objection(random: &mut Random, _: &mut [u8], pairs: &mut Pairs) {
    if !pairs.is_empty() {
        pairs.remove(random.below(pairs.len()));
    }
}

fn turn_round(random: &mut Random, _: &mut [u8], pairs: &mut Pairs) {
    if !pairs.is_empty() {
        let (objector, target) = pairs.remove(random.below(pairs.len()));
        add(pairs, (target, objector));
    }
}

fn reorder(random: &mut Random, _: &mut [u8], pairs: &mut Pairs) {
    random.shuffle(pairs);
}

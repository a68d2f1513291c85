//! The reason for a statement, by 01's sentence on it as 02 has changed it. All objections are looked
//! through over and over, until none reaches a statement that was not reached before. No statement
//! is followed to its objectors and nothing is queued, which is what the library does.

use super::kinds::{DELAYING, FELLING, STANDOFF};
use super::verdict::Verdict;
use crate::inputs::lists::Lists;

/// The entries of the objections in the reason for the statement at this place of sound lists, in
/// their order. The verdicts are those on all statements, and the kinds those of all objections.
pub fn entries(
    lists: &Lists,
    verdicts: &[Verdict],
    kinds: &[(u32, u32)],
    asked: usize,
) -> Vec<usize> {
    let is_walked = |(entry, (_, target)): &(usize, (usize, usize))| {
        belongs(kinds[*entry], verdicts[*target].length())
    };
    let objections = lists.objections().enumerate();
    let walked: Vec<_> = objections.filter(is_walked).collect();
    let mut reached = vec![false; lists.marks.len()];
    reached[asked] = true;
    loop {
        let before = reached.clone();
        for (_, (objector, target)) in &walked {
            reached[*objector] |= reached[*target];
        }
        if reached == before {
            break;
        }
    }
    let within = walked.iter().filter(|(_, (_, target))| reached[*target]);
    within.map(|(entry, _)| *entry).collect()
}

/// Whether an objection of this kind and length belongs to the reasons that reach its target, which
/// has this length.
fn belongs((kind, length): (u32, u32), target_length: u32) -> bool {
    match kind {
        DELAYING | STANDOFF => true,
        FELLING => length == target_length,
        _ => false,
    }
}

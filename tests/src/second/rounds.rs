//! Labels and lengths by the alternating fixpoint of document 000. Two sets are taken in turn, all
//! over again in every round: those that are sure to fall (000's underestimate of the won), and
//! those that are not sure to stand (its overestimate). No statement is followed to its neighbours
//! and nothing is queued or counted, which is what the library does.

use super::verdict::Verdict;
use crate::inputs::lists::Lists;

/// The verdict on each statement of sound lists. The round in which a statement enters the one set
/// or leaves the other tells its length.
pub fn verdicts(lists: &Lists) -> Vec<Verdict> {
    let mut verdicts = vec![Verdict::Open; lists.marks.len()];
    let mut fallen = vec![false; lists.marks.len()];
    for round in 0.. {
        let in_doubt = hit_from_outside(lists, &fallen);
        settle(&mut verdicts, Verdict::Stands(2 * round), |x| !in_doubt[x]);
        let now_fallen = hit_from_outside(lists, &in_doubt);
        settle(&mut verdicts, Verdict::Falls(2 * round + 1), |x| {
            now_fallen[x]
        });
        if now_fallen == fallen {
            break;
        }
        fallen = now_fallen;
    }
    verdicts
}

/// The statements that have an objector outside the set. An unread statement counts as its own
/// objector, for the objections that are still unknown: then it never stands, and falls only by
/// another.
fn hit_from_outside(lists: &Lists, set: &[bool]) -> Vec<bool> {
    let own = |(mark, inside): (&u8, &bool)| *mark == 1 && !inside;
    let mut hit: Vec<bool> = lists.marks.iter().zip(set).map(own).collect();
    for (objector, target) in lists.objections() {
        hit[target] |= !set[objector];
    }
    hit
}

/// Gives the verdict to those that are still open and belong to it. An earlier round's verdict
/// stays, since it has the lesser length.
fn settle(verdicts: &mut [Verdict], verdict: Verdict, belongs: impl Fn(usize) -> bool) {
    for (x, old) in verdicts.iter_mut().enumerate() {
        if *old == Verdict::Open && belongs(x) {
            *old = verdict;
        }
    }
}

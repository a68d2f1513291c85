//! The line of argument, by 01's sentence on it. It goes by the verdicts alone, and looks through
//! all objections anew for every step.

use super::verdict::Verdict::{self, Falls, Open, Stands};
use crate::inputs::lists::Lists;

/// The places on the line of the statement at this place of sound lists.
pub fn line(lists: &Lists, verdicts: &[Verdict], asked: usize) -> Vec<usize> {
    let next = |last: &usize| {
        let wanted = onward(verdicts[*last])?;
        let fits =
            |(objector, target): &(usize, usize)| target == last && verdicts[*objector] == wanted;
        let fitting = lists.objections().filter(fits);
        let earliest = fitting.map(|(objector, _)| objector).min();
        Some(earliest.expect("01 says that there is one"))
    };
    std::iter::successors(Some(asked), next).collect()
}

/// The verdict on the next statement: the length is one less, and the label is the other. Where the
/// length is 0, and where there is none, the line ends.
fn onward(verdict: Verdict) -> Option<Verdict> {
    match verdict {
        Falls(length) => Some(Stands(length - 1)),
        Stands(0) | Open => None,
        Stands(length) => Some(Falls(length - 1)),
    }
}

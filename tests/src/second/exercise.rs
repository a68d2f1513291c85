//! The class exercise, by 01's last sentence on it: each yes agrees exactly with the label and a
//! length not above the turns. What the label and the length are is for others to say.

use super::verdict::Verdict;

pub const MOST_TURNS: u32 = 6;

/// 1 if the statement stands within the turns, 2 if it falls within them, 0 for neither.
pub fn within(verdict: Verdict, turns: u32) -> u32 {
    match verdict {
        Verdict::Stands(length) if length <= turns => 1,
        Verdict::Falls(length) if length <= turns => 2,
        _ => 0,
    }
}

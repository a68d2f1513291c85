//! The kinds of objection, by 01's table of the target's label and then the objector's.

use super::verdict::{Verdict, NO_LENGTH};

const IDLE: u32 = 0;
pub const FELLING: u32 = 1;
pub const DELAYING: u32 = 2;
pub const STANDOFF: u32 = 3;

/// The number of the kind, and the objection's length.
pub fn kind(target: Verdict, objector: Verdict) -> (u32, u32) {
    use Verdict::{Falls, Open, Stands};
    match (target, objector) {
        (Falls(_), Stands(length)) => (FELLING, length + 1),
        (Stands(_), Falls(length)) => (DELAYING, length + 1),
        (Open, Open) => (STANDOFF, NO_LENGTH),
        (Falls(_), Falls(_) | Open) | (Open, Falls(_)) => (IDLE, NO_LENGTH),
        (Stands(_) | Open, Stands(_)) | (Stands(_), Open) => {
            panic!("01 says that this never occurs: {objector:?} against {target:?}")
        }
    }
}

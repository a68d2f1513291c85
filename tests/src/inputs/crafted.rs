//! Registers that are made for what is asked of one statement: long lines of argument, lines that
//! could go on by many objectors, objections of which none settles a question of the class exercise
//! early, reasons that have every objection, and reasons that leave nearly all of them out.

use super::draft::Draft;
use crate::random::Random;
use crate::second::refusals::MOST_OBJECTIONS;

fn draft(statements: usize) -> Draft {
    Draft::new(statements, MOST_OBJECTIONS)
}

/// Each statement but the first objects to the one before it. The last has length 0, and the first
/// the greatest length that there is.
pub fn chain(statements: usize) -> Draft {
    let mut draft = draft(statements);
    for objector in 1..statements {
        draft.add(objector, objector - 1);
    }
    draft
}

/// A chain, and as many more objections as there may be: of those that stand latest to those that
/// fall early. They fell later than need be and change no length, so that no reason has any of them,
/// and nearly all of them have the greatest lengths.
pub fn tower(statements: usize) -> Draft {
    let mut draft = chain(statements);
    let falls = |place: &usize| (statements - 1 - place) % 2 == 1;
    for objector in (0..statements).filter(|place| !falls(place)) {
        for target in (objector + 2..statements).rev().filter(falls) {
            draft.add(objector, target);
        }
    }
    draft
}

/// The first statement, then layers of so many, and all of a layer object to all of the one before.
/// The lengths of the last layer are 0, and each layer before has one more; so all these objections
/// delay, or fell no later than need be. There are as many more as there may be, of what falls to
/// what stands before it. They delay for fewer turns than the next layer does and change no length,
/// so that the reason for the first has every objection.
pub fn ladder(statements: usize, width: usize) -> Draft {
    let mut draft = draft(statements);
    let layer = |place: usize| place.div_ceil(width);
    for target in 0..statements {
        let is_next = |objector: &usize| layer(*objector) == layer(target) + 1;
        for objector in (target..statements).filter(is_next) {
            draft.add(objector, target);
        }
    }
    let falls = |place: &usize| (layer(statements - 1) - layer(*place)) % 2 == 1;
    for objector in (0..statements).filter(falls) {
        for target in (0..objector).filter(|place| !falls(place)) {
            draft.add(objector, target);
        }
    }
    draft
}

/// Each statement objects to the next and the last to the first, and there are as many more random
/// objections as there may be. All is open, and every reason has every objection.
pub fn circle(random: &mut Random, statements: usize) -> Draft {
    let mut draft = draft(statements);
    for objector in 0..statements {
        draft.add(objector, (objector + 1) % statements);
    }
    draft.add_random(random, draft.space());
    draft
}

/// Layers, each of so many statements, all of which object to all of the next layer. The lengths of
/// a layer are its number, counted from 0, and every objector from the layer before fits a line.
/// Random objections are added that fit none and change no length.
pub fn braid(random: &mut Random, width: usize, layers: usize) -> Draft {
    let statements = width * layers;
    let mut draft = draft(statements);
    for target in width..statements {
        let before = (target / width - 1) * width;
        for objector in before..before + width {
            draft.add(objector, target);
        }
    }
    for _ in 0..2 * statements {
        let (objector, target) = (random.below(statements), random.below(statements));
        if changes_nothing(objector / width, target / width) {
            draft.add(objector, target);
        }
    }
    draft
}

/// Whether an objection between these layers of a braid changes no length. The odd layers fall: to
/// fell one later than it falls is idle, and so is any objection by what falls; one that stands may
/// have more objectors that fall earlier.
fn changes_nothing(objector: usize, target: usize) -> bool {
    let (objector_falls, target_falls) = (objector % 2 == 1, target % 2 == 1);
    match (target_falls, objector_falls) {
        (true, true) => true,
        (true, false) => objector > target,
        (false, true) => objector + 1 < target,
        (false, false) => false,
    }
}

/// Two sides of so many statements, each against all of the other side but its own partner. The one
/// side falls by a statement that stands, the other stays open by one that objects to itself, and
/// both come last. So every objection before is followed to the end of the turns, and nothing comes
/// of it: without a memory the exercise asks about as many questions as one side has objectors, to
/// the power of the turns.
pub fn knot(width: usize) -> Draft {
    let (stands, open) = (2 * width, 2 * width + 1);
    let mut draft = draft(open + 1);
    for (one, other) in (0..width).flat_map(|one| (0..width).map(move |other| (one, other))) {
        if one != other {
            draft.add(width + other, one);
            draft.add(other, width + one);
        }
    }
    draft.add(open, open);
    for one in 0..width {
        draft.add(stands, one);
        draft.add(open, width + one);
    }
    draft
}

/// Each statement objects to all before it but its neighbour, two by two: 3,960 objections for 90.
/// The last two stand and all others fall by them, but the others come first.
pub fn staircase(statements: usize) -> Draft {
    let mut draft = draft(statements);
    for objector in 0..statements {
        for target in (0..objector).filter(|target| target / 2 != objector / 2) {
            draft.add(objector, target);
        }
    }
    draft
}

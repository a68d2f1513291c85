//! Random registers of many shapes. Each shape draws its pairs into a draft; the shapes differ in
//! how far labels spread, how long lengths get and how much stays open.

use super::draft::Draft;
use super::lists::Lists;
use crate::random::Random;
use crate::second::refusals::MOST_STATEMENTS;

pub struct Shape {
    pub name: &'static str,
    draw: fn(&mut Random, &mut Draft),
}

pub const SHAPES: [Shape; 14] = [
    shape("sparse", sparse),
    shape("dense", dense),
    shape("chain", chain),
    shape("circles", circles),
    shape("star", star),
    shape("bipartite", bipartite),
    shape("layered", layered),
    shape("self-objections", self_objections),
    shape("all unread", all_unread),
    shape("mostly read", mostly_read),
    shape("tree", tree),
    shape("order", order),
    shape("mutual", mutual),
    shape("full", full),
];

const fn shape(name: &'static str, draw: fn(&mut Random, &mut Draft)) -> Shape {
    Shape { name, draw }
}

impl Shape {
    /// A register of this shape, with so many statements (at least 1) and at most so many pairs.
    /// Every other one is in a random order.
    pub fn register(&self, random: &mut Random, statements: usize, most_pairs: usize) -> Lists {
        let mut draft = Draft::new(statements, most_pairs);
        (self.draw)(random, &mut draft);
        if random.once_in(2) {
            draft.mixed(random)
        } else {
            draft.in_draft_order()
        }
    }

    /// A register of this shape, with up to so many statements; at the limit all of them are wanted.
    pub fn up_to(&self, random: &mut Random, most_statements: usize, most_pairs: usize) -> Lists {
        let statements = match most_statements {
            MOST_STATEMENTS => MOST_STATEMENTS,
            most => random.between(1, most),
        };
        self.register(random, statements, most_pairs)
    }
}

fn sparse(random: &mut Random, draft: &mut Draft) {
    draft.leave_unread(random, 8);
    draft.add_random(random, draft.statements / 2);
}

/// As many statements as can all object to each other, and three of four do.
fn dense(random: &mut Random, draft: &mut Draft) {
    draft.leave_unread(random, 20);
    let crowd = draft.space().isqrt();
    for objector in 0..crowd {
        for target in 0..crowd {
            if !random.once_in(4) {
                draft.add(objector, target);
            }
        }
    }
}

/// The longest lengths that there are.
fn chain(random: &mut Random, draft: &mut Draft) {
    if random.once_in(3) {
        draft.leave_unread(random, draft.statements);
    }
    for objector in 1..draft.statements {
        draft.add(objector, objector - 1);
    }
}

/// Circles of some statements each, and here and there an objection from one to another.
fn circles(random: &mut Random, draft: &mut Draft) {
    draft.leave_unread(random, 30);
    let mut first = 0;
    while first < draft.statements {
        let size = random.between(1, 9).min(draft.statements - first);
        for at in 0..size {
            draft.add(first + at, first + (at + 1) % size);
        }
        first += size + usize::from(random.once_in(2));
    }
    draft.add_random(random, draft.statements / 8);
}

/// One statement against all, then one against which all are, and so on.
fn star(random: &mut Random, draft: &mut Draft) {
    draft.leave_unread(random, 10);
    for middle in 0..draft.statements.min(4) {
        for other in 4..draft.statements {
            if middle % 2 == 0 {
                draft.add(middle, other);
            } else {
                draft.add(other, middle);
            }
        }
    }
}

fn bipartite(random: &mut Random, draft: &mut Draft) {
    draft.leave_unread(random, 12);
    let half = draft.statements / 2;
    // with a single statement there are no two sides, and no objections
    for _ in 0..draft.space().min(3 * half) {
        let (left, right) = (random.below(half), half + random.below(half));
        if random.once_in(2) {
            draft.add(left, right);
        } else {
            draft.add(right, left);
        }
    }
}

/// Layers of a few statements, each with objectors in the next layer only.
fn layered(random: &mut Random, draft: &mut Draft) {
    draft.leave_unread(random, 25);
    let width = random.between(2, 12);
    for target in 0..draft.statements.saturating_sub(width) {
        let next_layer = (target / width + 1) * width;
        for _ in 0..random.between(1, 4) {
            let objector = next_layer + random.below(width);
            if objector < draft.statements {
                draft.add(objector, target);
            }
        }
    }
}

fn self_objections(random: &mut Random, draft: &mut Draft) {
    draft.leave_unread(random, 15);
    for statement in 0..draft.statements {
        if random.once_in(6) {
            draft.add(statement, statement);
        }
    }
    draft.add_random(random, draft.statements);
}

fn all_unread(random: &mut Random, draft: &mut Draft) {
    draft.leave_unread(random, 1);
    draft.add_random(random, 4 * draft.statements);
}

fn mostly_read(random: &mut Random, draft: &mut Draft) {
    draft.leave_unread(random, 60);
    draft.add_random(random, draft.statements + draft.statements / 5);
}

/// Each statement but the first objects to one that is listed before it.
fn tree(random: &mut Random, draft: &mut Draft) {
    draft.leave_unread(random, 40);
    for objector in 1..draft.statements {
        // often a near one, so that the tree gets deep
        let near = objector.saturating_sub(3);
        let least = if random.once_in(4) { 0 } else { near };
        draft.add(objector, random.between(least, objector - 1));
    }
}

/// No circles at all, and many objections: objectors are always listed after their targets.
fn order(random: &mut Random, draft: &mut Draft) {
    for _ in 0..draft.space().min(4 * draft.statements) {
        let target = random.below(draft.statements);
        let objector = random.between(target, (target + 20).min(draft.statements - 1));
        if objector > target {
            draft.add(objector, target);
        }
    }
}

/// Statements that object to each other, two by two, and some other objections.
fn mutual(random: &mut Random, draft: &mut Draft) {
    draft.leave_unread(random, 30);
    for left in (1..draft.statements).step_by(2) {
        draft.add(left, left - 1);
        draft.add(left - 1, left);
    }
    draft.add_random(random, draft.statements / 3);
}

/// As many random pairs as there may be.
fn full(random: &mut Random, draft: &mut Draft) {
    draft.leave_unread(random, 10);
    draft.add_random(random, draft.space());
}

//! The second solver against 01's sentence on reasons as 02 has changed it, taken another way: of all
//! sets of objections that leave out none on which the statement or an objector of theirs hangs, the
//! reason is what they have in common. All of them are tried, which small registers allow.

use super::Test;
use crate::inputs::lists::Lists;
use crate::inputs::shapes::SHAPES;
use crate::inputs::small;
use crate::library::session::Session;
use crate::random::Random;
use crate::second::expected::Expected;
use crate::second::reason;
use crate::second::verdict::Verdict;

/// How many random registers of each shape are tried, and of how many statements and objections at
/// the most. It takes five statements to delay one by objections of two lengths.
const SAMPLED: usize = 100;
const MOST: (usize, usize) = (8, 10);

pub fn tests() -> Vec<Test> {
    let of = |registers: &str| format!("reasons are the least closed sets: {registers}");
    vec![
        Test::new(of("up to 3 statements"), up_to_three),
        Test::new(of("random registers up to 8 statements"), sampled),
    ]
}

fn up_to_three(session: &mut Session) -> Result<(), String> {
    for statements in 1..=3 {
        for number in 0..small::count(statements) {
            hold(session, &small::register(statements, number))?;
        }
    }
    Ok(())
}

fn sampled(session: &mut Session) -> Result<(), String> {
    let mut random = Random::for_test("reasons are the least closed sets");
    for shape in &SHAPES {
        for _ in 0..SAMPLED {
            hold(session, &shape.up_to(&mut random, MOST.0, MOST.1))?;
        }
    }
    Ok(())
}

/// Holds the two against each other for every statement.
fn hold(session: &mut Session, lists: &Lists) -> Result<(), String> {
    let Expected {
        verdicts, kinds, ..
    } = Expected::of_lists(lists);
    for asked in 0..verdicts.len() {
        session.count();
        let by_rounds = reason::entries(lists, &verdicts, &kinds, asked);
        let by_sets = least_closed(lists, &verdicts, asked);
        if by_rounds != by_sets {
            return Err(format!(
                "{lists}; {asked}: {by_rounds:?} by rounds, {by_sets:?} by sets"
            ));
        }
    }
    Ok(())
}

/// The entries that are in every closed set. A set has a bit for each objection.
fn least_closed(lists: &Lists, verdicts: &[Verdict], asked: usize) -> Vec<usize> {
    let objections: Vec<(usize, usize)> = lists.objections().collect();
    let against = |statement: usize| {
        let is_meant = |entry: &usize| {
            let (objector, target) = objections[*entry];
            target == statement && hangs_on(verdicts[target], verdicts[objector])
        };
        let entries = (0..objections.len()).filter(is_meant);
        entries.fold(0, |set, entry| set | 1_usize << entry)
    };
    let has = |set: usize, entry: &usize| set >> entry & 1 == 1;
    let is_closed = |set: &usize| {
        let entries = (0..objections.len()).filter(|entry| has(*set, entry));
        let onward = entries.fold(against(asked), |sum, entry| {
            sum | against(objections[entry].0)
        });
        onward & !set == 0
    };
    let closed = (0..1 << objections.len()).filter(is_closed);
    let common = closed.fold(usize::MAX, |common, set| common & set);
    (0..objections.len())
        .filter(|entry| has(common, entry))
        .collect()
}

/// Whether a statement hangs on what this objector says against it. No kind is asked: what stands
/// hangs on every objector, what falls on those that stand within one turn less, and what is open on
/// the open ones.
fn hangs_on(target: Verdict, objector: Verdict) -> bool {
    match target {
        Verdict::Stands(_) => true,
        Verdict::Falls(length) => objector == Verdict::Stands(length - 1),
        Verdict::Open => objector == Verdict::Open,
    }
}

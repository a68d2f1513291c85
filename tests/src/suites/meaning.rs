//! The second solver against itself: the alternating fixpoint and the forced win have nothing in
//! common but document 01, and must agree before either is held against the library.

use super::Test;
use crate::inputs::lists::Lists;
use crate::inputs::small;
use crate::library::session::Session;
use crate::random::Random;
use crate::second::exercise::MOST_TURNS;
use crate::second::verdict::Verdict;
use crate::second::{exercise, game, rounds};

/// How many registers of four statements are tried, of the million that there are.
const SAMPLED: usize = 20_000;

pub fn tests() -> Vec<Test> {
    vec![
        Test::new("the two solvers agree: up to 3 statements", up_to_three),
        Test::new("the two solvers agree: 4 statements, sampled", four),
    ]
}

fn up_to_three(session: &mut Session) -> Result<(), String> {
    for statements in 0..=3 {
        for number in 0..small::count(statements) {
            agree(session, &small::register(statements, number))?;
        }
    }
    Ok(())
}

fn four(session: &mut Session) -> Result<(), String> {
    let mut random = Random::for_test("four statements");
    for _ in 0..SAMPLED {
        let number = random.below(small::count(4));
        // half of them with fewer pairs: with all at hand, little else than open ever comes out
        let fewer = if random.once_in(2) {
            random.below(small::count(4)) | 0xf
        } else {
            usize::MAX
        };
        agree(session, &small::register(4, number & fewer))?;
    }
    Ok(())
}

fn agree(session: &mut Session, lists: &Lists) -> Result<(), String> {
    session.count();
    let (by_rounds, by_game) = (rounds::verdicts(lists), game::verdicts(lists));
    if by_rounds != by_game {
        return Err(format!(
            "{lists}: {by_rounds:?} by rounds, {by_game:?} by the game"
        ));
    }
    // two turns more than may be asked: what is said of them must agree too
    for turns in 0..=MOST_TURNS + 2 {
        session.count();
        let within = |verdict: &Verdict| exercise::within(*verdict, turns);
        let by_length: Vec<u32> = by_rounds.iter().map(within).collect();
        if by_length != game::within(lists, turns) {
            return Err(format!("{lists}: {by_length:?} by length, {turns} turns"));
        }
    }
    Ok(())
}

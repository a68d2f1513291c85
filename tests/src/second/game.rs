//! Labels, lengths and the class exercise straight from the game of demand 2: all choices of one
//! objection for each statement are tried, and all plays in which a speaker keeps to one. That is
//! far too slow but for the smallest registers, and there it checks the other solver.

use super::verdict::Verdict;
use crate::inputs::lists::Lists;

/// Whose turn it is, said by the speaker who keeps to a choice.
#[derive(Clone, Copy)]
enum Turn {
    Mine,
    Theirs,
}

/// For each statement that has objectors, the one that I name.
type Choice = Vec<Option<usize>>;

struct Game {
    unread: Vec<bool>,
    objectors: Vec<Vec<usize>>,
}

/// The verdict on each statement of sound lists.
pub fn verdicts(lists: &Lists) -> Vec<Verdict> {
    let game = Game::of(lists);
    let choices = game.choices();
    let least = |turn, x| game.least_turns(&choices, turn, x);
    let verdict = |x| verdict(least(Turn::Mine, x), least(Turn::Theirs, x));
    (0..lists.marks.len()).map(verdict).collect()
}

/// The class exercise for each statement of sound lists: 1 if the second speaker can force a win
/// within the turns, 2 if the first can, 0 for neither.
pub fn within(lists: &Lists, turns: u32) -> Vec<u32> {
    let game = Game::of(lists);
    let choices = game.choices();
    let wins = |turn, x| game.wins(&choices, turn, x, turns).then_some(turns);
    let answer = |x| verdict(wins(Turn::Mine, x), wins(Turn::Theirs, x)).label();
    (0..lists.marks.len()).map(answer).collect()
}

/// By the turns within which the first speaker can force a win, and the second.
fn verdict(first: Option<u32>, second: Option<u32>) -> Verdict {
    match (first, second) {
        (None, None) => Verdict::Open,
        (None, Some(turns)) => Verdict::Stands(turns),
        (Some(turns), None) => Verdict::Falls(turns),
        (Some(_), Some(_)) => panic!("both speakers force a win"),
    }
}

impl Game {
    fn of(lists: &Lists) -> Self {
        let mut objectors = vec![Vec::new(); lists.marks.len()];
        for (objector, target) in lists.objections() {
            objectors[target].push(objector);
        }
        let unread = lists.marks.iter().map(|mark| *mark == 1).collect();
        Game { unread, objectors }
    }

    /// Every choice of one objection for each statement that has any.
    fn choices(&self) -> Vec<Choice> {
        let mut choices: Vec<Choice> = vec![Vec::new()];
        for objectors in &self.objectors {
            let mut named: Vec<Option<usize>> = objectors.iter().copied().map(Some).collect();
            if named.is_empty() {
                named.push(None);
            }
            let longer = |choice: &Choice| -> Vec<Choice> {
                let with = |name: &Option<usize>| [choice.as_slice(), &[*name]].concat();
                named.iter().map(with).collect()
            };
            choices = choices.iter().flat_map(longer).collect();
        }
        choices
    }

    /// The least number of turns within which some choice forces a win. A play that is longer than
    /// twice the statements comes back to the same statement and speaker, and could go on for ever.
    fn least_turns(&self, choices: &[Choice], turn: Turn, statement: usize) -> Option<u32> {
        let most = 2 * self.objectors.len() as u32;
        (0..=most).find(|turns| self.wins(choices, turn, statement, *turns))
    }

    /// Whether some choice forces a win within so many turns.
    fn wins(&self, choices: &[Choice], turn: Turn, statement: usize, turns: u32) -> bool {
        let forces = |choice: &Choice| self.forces(choice, turn, statement, turns);
        choices.iter().any(forces)
    }

    /// Whether every play in which I keep to the choice ends, within so many turns, with them
    /// having none to name and no right to ask for time.
    fn forces(&self, choice: &Choice, turn: Turn, statement: usize, turns: u32) -> bool {
        let objectors = &self.objectors[statement];
        match turn {
            Turn::Mine => choice[statement].is_some_and(|named| {
                turns > 0 && self.forces(choice, Turn::Theirs, named, turns - 1)
            }),
            // they may ask for time, and then nobody has won
            Turn::Theirs if self.unread[statement] => false,
            Turn::Theirs if objectors.is_empty() => true,
            Turn::Theirs => {
                let won = |named: &usize| self.forces(choice, Turn::Mine, *named, turns - 1);
                turns > 0 && objectors.iter().all(won)
            }
        }
    }
}

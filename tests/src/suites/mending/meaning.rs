//! The second solver's mending against 02's sentences, taken another way: each sentence is asked of
//! each line by itself, when the fates of all lines are there. The limits are lowered, so that short
//! texts reach them too.

use super::short::{ALL_OF, LINES, MOST_LINES};
use super::Test;
use crate::inputs::text::Text;
use crate::library::session::Session;
use crate::random::Random;
use crate::second::mend::Fate::{self, Dropped, Kept, Moved};
use crate::second::mend::{Mending, Most, OBJECTION_TOO_MANY, REPEATED};
use crate::second::mend::{SECOND, SPOILED, STATEMENT_TOO_MANY, UNENDED, UNKNOWN};
use crate::second::number::Number;
use crate::second::text::{self, Line};

/// How many longer texts are tried.
const SAMPLED: usize = 40_000;

/// Limits that a text of four lines can reach, and those that it cannot.
const LIMITS: [Most; 4] = [most(1, 1), most(2, 1), most(1, 2), most(9, 9)];

const fn most(statements: usize, objections: usize) -> Most {
    Most {
        statements,
        objections,
    }
}

pub fn tests() -> Vec<Test> {
    vec![
        Test::new("mending is what 02 says: every short text", every),
        Test::new("mending is what 02 says: sampled", sampled),
    ]
}

fn every(session: &mut Session) -> Result<(), String> {
    for lines in 0..=ALL_OF {
        for text in LINES.every(lines) {
            for most in LIMITS {
                agree(session, &text, most)?;
            }
        }
    }
    Ok(())
}

fn sampled(session: &mut Session) -> Result<(), String> {
    let mut random = Random::for_test("what 02 says of mending");
    for _ in 0..SAMPLED {
        let lines = random.between(1, MOST_LINES) as u32;
        let text = LINES.text(lines, random.below(LINES.count(lines)));
        agree(session, &text, most(random.below(4), random.below(4)))?;
    }
    Ok(())
}

fn agree(session: &mut Session, text: &Text, most: Most) -> Result<(), String> {
    session.count();
    let mending = Mending::within(text, most);
    let said = Said::of(text, &mending.fates, most);
    let fates: Vec<Fate> = (0..said.lines.len()).map(|at| said.fate(at)).collect();
    if mending.fates != fates || mending.text.0 != said.text().0 || mending.report != said.report()
    {
        return Err(format!("{text}: {}, {:?}", mending.text, mending.fates));
    }
    Ok(())
}

/// A text with the fates that its lines are said to have. A line that is not ended is none.
struct Said<'a> {
    lines: Vec<Option<Line>>,
    ended: usize,
    fates: &'a [Fate],
    most: Most,
}

impl<'a> Said<'a> {
    fn of(text: &Text, fates: &'a [Fate], most: Most) -> Self {
        let last = text.0.iter().rposition(|byte| *byte == b'\n');
        let (whole, rest) = text.0.split_at(last.map_or(0, |at| at + 1));
        let mut lines = text::lines(whole);
        let ended = lines.len();
        lines.extend((!rest.is_empty()).then_some(None));
        Said {
            lines,
            ended,
            fates,
            most,
        }
    }

    fn stays(&self, at: usize) -> bool {
        matches!(self.fates[at], Kept | Moved)
    }

    /// The number of a statement that stays.
    fn number(&self, at: usize) -> Option<Number> {
        match self.lines[at] {
            Some(Line::Statement { number, .. }) if self.stays(at) => Some(number),
            _ => None,
        }
    }

    /// The two numbers of an objection that stays.
    fn pair(&self, at: usize) -> Option<(Number, Number)> {
        match self.lines[at] {
            Some(Line::Objection { objector, target }) if self.stays(at) => {
                Some((objector, target))
            }
            _ => None,
        }
    }

    fn is_unknown(&self, number: Number) -> bool {
        (0..self.lines.len()).all(|at| self.number(at) != Some(number))
    }

    /// The fate of a line, by the fates of the others: the first cause that holds.
    fn fate(&self, at: usize) -> Fate {
        let first = |causes: &[(u32, bool)], stays: Fate| {
            let mut holding = causes.iter().filter(|(_, holds)| *holds);
            holding.next().map_or(stays, |(cause, _)| Dropped(*cause))
        };
        let numbers: Vec<Number> = (0..at).filter_map(|one| self.number(one)).collect();
        let pairs: Vec<(Number, Number)> = (0..at).filter_map(|one| self.pair(one)).collect();
        match self.lines[at] {
            None if at == self.ended => Dropped(UNENDED),
            None => Dropped(SPOILED),
            Some(Line::Statement { number, .. }) => {
                let mut before = self.lines[..at].iter().flatten();
                let late = before.any(|line| matches!(line, Line::Objection { .. }));
                let causes = [
                    (SECOND, numbers.contains(&number)),
                    (STATEMENT_TOO_MANY, numbers.len() >= self.most.statements),
                ];
                first(&causes, if late { Moved } else { Kept })
            }
            Some(Line::Objection { objector, target }) => {
                let unknown = self.is_unknown(objector) || self.is_unknown(target);
                let causes = [
                    (UNKNOWN, unknown),
                    (REPEATED, pairs.contains(&(objector, target))),
                    (OBJECTION_TOO_MANY, pairs.len() >= self.most.objections),
                ];
                first(&causes, Kept)
            }
        }
    }

    /// Whether this line leaves the statement with this number unread: its own by its mark, others
    /// by being dropped.
    fn leaves_unread(&self, at: usize, number: Number) -> bool {
        match self.lines[at] {
            Some(Line::Statement {
                number: own,
                unread,
            }) => own == number && (self.fates[at] == Dropped(SECOND) || self.stays(at) && unread),
            Some(Line::Objection { objector, target }) => {
                target == number
                    && match self.fates[at] {
                        Dropped(UNKNOWN) => self.is_unknown(objector),
                        fate => fate == Dropped(OBJECTION_TOO_MANY),
                    }
            }
            None => false,
        }
    }

    fn text(&self) -> Text {
        let lines = 0..self.lines.len();
        let statement = |number: Number| {
            let unread = lines.clone().any(|at| self.leaves_unread(at, number));
            format!("S\t{number}\t{}", if unread { 'U' } else { 'R' })
        };
        let objection = |(objector, target): (Number, Number)| format!("O\t{objector}\t{target}");
        let statements = lines
            .clone()
            .filter_map(|at| self.number(at))
            .map(statement);
        let objections = lines.clone().filter_map(|at| self.pair(at)).map(objection);
        Text::of_lines(&statements.chain(objections).collect::<Vec<_>>())
    }

    fn report(&self) -> String {
        let row = |at: usize| match self.fates[at] {
            Kept => String::new(),
            Moved => format!("{} moved 4\n", at + 1),
            Dropped(cause) => format!("{} dropped {cause}\n", at + 1),
        };
        let rows: String = (0..self.lines.len()).map(row).collect();
        rows.replace(' ', "\t")
    }
}

//! Mending at the limits and past them: the statements and objections that are one too many, what is
//! said under their numbers, what does not count, and texts of as many bytes and lines as there may
//! be. Each line is written with what becomes of it.

use super::{hold_fates, Test};
use crate::inputs::text::Text;
use crate::library::array::Room;
use crate::library::session::Session;
use crate::second::mend::Fate::{self, Dropped, Kept, Moved};
use crate::second::mend::{Mending, OBJECTION_TOO_MANY, REPEATED};
use crate::second::mend::{SECOND, SPOILED, STATEMENT_TOO_MANY, UNENDED, UNKNOWN};
use crate::second::refusals::MOST_STATEMENTS;
use crate::second::register::MOST_BYTES;

/// So many statements have no more than 4,096 objections: each against each, itself included.
const CROWD: usize = 64;

/// A length cut down to 16 bits would take this one for nothing.
const CUT: usize = 1 << 16;

/// What the report on 65,535 blank lines has.
const MOST_REPORTED: usize = 1_037_454;

pub fn tests() -> Vec<Test> {
    vec![
        Test::new("mending: statements past the 1,024th", statements),
        Test::new("mending: second statements do not count", second_statements),
        Test::new("mending: late statements count", late_statements),
        Test::new("mending: objections past the 4,096th", objections),
        Test::new(
            "mending: dropped objections do not count",
            dropped_objections,
        ),
        Test::new("mending: 65,535 bytes of one line again", one_line_again),
        Test::new("mending: 65,535 bytes in one line", one_line),
        Test::new("mending: 65,535 lines", most_lines),
        Test::new("mending: more than 65,535 bytes", too_many_bytes),
    ]
}

/// A line with tabs shown as spaces, and what becomes of it.
type Told = (String, Fate);

fn told(words: &str, fate: Fate) -> Told {
    (words.replace(' ', "\t"), fate)
}

/// The statements with these numbers, all read, and what becomes of each.
fn issued(numbers: std::ops::RangeInclusive<usize>, fate: Fate) -> Vec<Told> {
    numbers
        .map(|number| told(&format!("S {number} R"), fate))
        .collect()
}

/// Each of the first statements against each, which are 4,096 objections.
fn crowd() -> Vec<Told> {
    let pairs = (0..CROWD * CROWD).map(|pair| (pair / CROWD + 1, pair % CROWD + 1));
    pairs
        .map(|(objector, target)| told(&format!("O {objector} {target}"), Kept))
        .collect()
}

/// The text of these lines, and the fates of those that do not just stay, each with its index.
fn text_of(lines: &[Told]) -> (Text, Vec<(usize, Fate)>) {
    let words: Vec<&String> = lines.iter().map(|(words, _)| words).collect();
    let fates = lines.iter().map(|(_, fate)| *fate).enumerate();
    let changed = fates.filter(|(_, fate)| *fate != Kept).collect();
    (Text::of_lines(&words), changed)
}

/// Holds a text of these lines. Of all statements, which are read, these must come to be unread.
fn hold_told(session: &mut Session, lines: &[Told], unread: &[usize]) -> Result<(), String> {
    let (text, changed) = text_of(lines);
    let mending = hold_fates(session, &text, &changed)?;
    let is_right = |words: &str| match words.split('\t').collect::<Vec<_>>()[..] {
        ["S", number, mark] => (mark == "U") == unread.iter().any(|one| one.to_string() == number),
        _ => true,
    };
    let mended = String::from_utf8_lossy(&mending.text.0);
    match mended.lines().find(|line| !is_right(line)) {
        Some(line) => Err(format!("the second solver has {line:?}")),
        None => Ok(()),
    }
}

fn statements(session: &mut Session) -> Result<(), String> {
    let tail = [
        told("S 5 R", Dropped(SECOND)),
        told("S 2000 R", Dropped(STATEMENT_TOO_MANY)),
        told("S 2000 U", Dropped(STATEMENT_TOO_MANY)),
        told("S 2001 R", Dropped(STATEMENT_TOO_MANY)),
        told("S 1024 U", Dropped(SECOND)),
        told("O 2000 7", Dropped(UNKNOWN)),
        told("O 8 2000", Dropped(UNKNOWN)),
        told("O 2000 2001", Dropped(UNKNOWN)),
        told("O 2002 10", Dropped(UNKNOWN)),
        told("O 1 2", Kept),
        told("S 2002 R", Dropped(STATEMENT_TOO_MANY)),
        told("S 9 R", Dropped(SECOND)),
        told("S 2003", Dropped(SPOILED)),
        told("O 2002 11", Dropped(UNKNOWN)),
        told("O 1 2", Dropped(REPEATED)),
    ];
    let all = issued(1..=MOST_STATEMENTS, Kept);
    hold_told(
        session,
        &[&all[..], &tail].concat(),
        &[5, 7, 9, 10, 11, 1_024],
    )?;
    // one fewer, and then one more is kept
    let fewer = issued(1..=MOST_STATEMENTS - 1, Kept);
    let tail = [
        told("S 3 U", Dropped(SECOND)),
        told("S 2000 R", Kept),
        told("S 2000 R", Dropped(SECOND)),
        told("S 1024 R", Dropped(STATEMENT_TOO_MANY)),
        told("O 2000 1024", Dropped(UNKNOWN)),
        told("O 1024 2000", Dropped(UNKNOWN)),
    ];
    hold_told(session, &[&fewer[..], &tail].concat(), &[3, 2_000])
}

fn second_statements(session: &mut Session) -> Result<(), String> {
    let again = issued(1..=500, Dropped(SECOND));
    let spoiled = vec![told("S 1001", Dropped(SPOILED)); 100];
    let lines = [
        issued(1..=1_000, Kept),
        again.clone(),
        spoiled,
        issued(1_001..=1_024, Kept),
        again,
        issued(1_025..=1_030, Dropped(STATEMENT_TOO_MANY)),
        issued(1_024..=1_024, Dropped(SECOND)),
    ];
    let unread: Vec<usize> = (1..=500).chain([1_024]).collect();
    hold_told(session, &lines.concat(), &unread)
}

fn late_statements(session: &mut Session) -> Result<(), String> {
    for before in [0, 1, 1_000, 1_023] {
        let lines = [
            issued(1..=before, Kept),
            vec![told("O 1024 1024", Kept)],
            issued(before + 1..=1_024, Moved),
            issued(1_025..=1_025, Dropped(STATEMENT_TOO_MANY)),
            vec![told("O 1025 3", Dropped(UNKNOWN))],
            issued(1_024..=1_024, Dropped(SECOND)),
        ];
        hold_told(session, &lines.concat(), &[3, 1_024])?;
    }
    Ok(())
}

fn objections(session: &mut Session) -> Result<(), String> {
    let tail = [
        told("O 1 1", Dropped(REPEATED)),
        told("O 64 64", Dropped(REPEATED)),
        told("O 65 3", Dropped(OBJECTION_TOO_MANY)),
        told("O 65 3", Dropped(OBJECTION_TOO_MANY)),
        told("O 4 65", Dropped(OBJECTION_TOO_MANY)),
        told("O 99 5", Dropped(UNKNOWN)),
        told("O 6 99", Dropped(UNKNOWN)),
        told("O 99 98", Dropped(UNKNOWN)),
        told("O 66 7", Dropped(OBJECTION_TOO_MANY)),
        told("O 8", Dropped(SPOILED)),
        told("S 66 R", Moved),
        told("S 66 R", Dropped(SECOND)),
        told("S 67 R", Moved),
        told("O 67 67", Dropped(OBJECTION_TOO_MANY)),
        told("O 32 9", Dropped(REPEATED)),
    ];
    let lines = [&issued(1..=65, Kept)[..], &crowd(), &tail].concat();
    hold_told(session, &lines, &[3, 5, 7, 65, 66, 67])?;
    // one fewer, and then one more is kept
    let tail = [
        told("O 1 1", Dropped(REPEATED)),
        told("O 65 3", Kept),
        told("O 65 3", Dropped(REPEATED)),
        told("O 64 64", Dropped(OBJECTION_TOO_MANY)),
    ];
    let fewer = &crowd()[..CROWD * CROWD - 1];
    let lines = [&issued(1..=65, Kept)[..], fewer, &tail].concat();
    hold_told(session, &lines, &[64])
}

/// Every objection twice; then with as many of unknown numbers in between as there is space for.
fn dropped_objections(session: &mut Session) -> Result<(), String> {
    let twice = |(words, fate): Told| [(words.clone(), fate), (words, Dropped(REPEATED))];
    let lines: Vec<Told> = issued(1..=CROWD, Kept)
        .into_iter()
        .chain(crowd().into_iter().flat_map(twice))
        .collect();
    hold_told(session, &lines, &[])?;
    let unknown = [
        told("O 99 7", Dropped(UNKNOWN)),
        told("O 7 99", Dropped(UNKNOWN)),
    ];
    let among = |lines: &[Told]| [lines, &unknown].concat();
    let lines = [
        issued(1..=CROWD + 1, Kept),
        crowd().chunks(4).flat_map(among).collect(),
        vec![told("O 65 1", Dropped(OBJECTION_TOO_MANY))],
    ];
    hold_told(session, &lines.concat(), &[1, 7])
}

/// As many lines of six bytes as there is space for, and a last one that is not ended.
fn one_line_again(session: &mut Session) -> Result<(), String> {
    let (statement, objection) = (told("S 1 R", Kept), told("O 1 1", Kept));
    let alone = vec![statement.clone()];
    for (first, words, cause) in [
        (alone.clone(), "S 1 R", SECOND),
        (vec![statement, objection], "O 1 1", REPEATED),
        (alone.clone(), "O 2 1", UNKNOWN),
        (alone.clone(), "O 1 2", UNKNOWN),
        (alone, "S 1 X", SPOILED),
    ] {
        let mut lines = first;
        lines.resize(MOST_BYTES / 6, told(words, Dropped(cause)));
        let (mut text, mut changed) = text_of(&lines);
        text.0.resize(MOST_BYTES, b'S');
        changed.push((lines.len(), Dropped(UNENDED)));
        hold_fates(session, &text, &changed)?;
    }
    Ok(())
}

fn one_line(session: &mut Session) -> Result<(), String> {
    for byte in [b'1', b'\t', b'S', 0, 255] {
        let mut text = Text(vec![byte; MOST_BYTES]);
        hold_fates(session, &text, &[(0, Dropped(UNENDED))])?;
        text.0[MOST_BYTES - 1] = b'\n';
        hold_fates(session, &text, &[(0, Dropped(SPOILED))])?;
    }
    Ok(())
}

fn most_lines(session: &mut Session) -> Result<(), String> {
    let mut text = Text(vec![b'\n'; MOST_BYTES]);
    for last in [SPOILED, UNENDED] {
        let mut fates: Vec<(usize, Fate)> =
            (0..MOST_BYTES).map(|at| (at, Dropped(SPOILED))).collect();
        fates[MOST_BYTES - 1].1 = Dropped(last);
        let mending = hold_fates(session, &text, &fates)?;
        if mending.report.len() != MOST_REPORTED {
            return Err(format!("{} bytes reported", mending.report.len()));
        }
        for length in [
            0,
            65_535,
            MOST_REPORTED - 1,
            MOST_REPORTED,
            MOST_REPORTED + 1,
        ] {
            session.hold_mending(&text, &mending, [Room::Null, Room::Of(length)])?;
        }
        text.0[MOST_BYTES - 1] = b'\r';
    }
    Ok(())
}

/// Only this is refused, whatever is in the text, and whatever is left of it after a cut.
fn too_many_bytes(session: &mut Session) -> Result<(), String> {
    for bytes in [CUT, CUT + 1, CUT + 8, 2 * CUT - 1, 2 * CUT, 200_000] {
        let sound = Text::of_lines(&["S\t1\tR", "S\t2\tU", "O\t1\t2"]).0;
        let mut text = Text(sound.repeat(bytes.div_ceil(sound.len())));
        text.0.truncate(bytes);
        for text in [text, Text(vec![b'\n'; bytes])] {
            if Mending::of(&text).refusal.is_none() {
                return Err(format!("{text}: the second solver mends it"));
            }
            session.hold_mended(&text)?;
        }
    }
    Ok(())
}

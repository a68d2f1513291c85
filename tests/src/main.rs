//! The outside tests of the library. Its calls are made through the C functions and held against a
//! second solver that shares nothing with it. The words after this program's name are the command
//! that starts the caller (caller.c); tests/run gives them. Some more uses are for the tests of the
//! programs: `print` prints what the listing program ought to print, `print WORD` what the reason
//! program ought to print with this word for its number, `mend` what the mending program ought to
//! print, with its report on standard error, `catalogue` and `uncatalogue` what the two programs ought
//! to print that are called so, `examples FOLDER` writes 01's examples.
//! One is for fuzz/run: `corpus TEXTS LISTS CATALOGUES CALLER WORDS..` tries what lies in three
//! folders.

#![deny(warnings)]
#![forbid(unsafe_code)]

mod inputs;
mod library;
mod random;
mod run;
mod second;
mod suites;

use inputs::examples::EXAMPLES;
use inputs::text::Text;
use second::catalogue::OldForm;
use second::expected::{Expected, Question};
use second::listing;
use second::mend::Mending;
use second::number::Number;
use std::io::{Error, Read, Write};
use std::path::{Path, PathBuf};
use std::process::ExitCode;
use suites::Test;

const USAGE: &str = "usage: outside CALLER WORDS.., print, print WORD, mend, catalogue, \
                     uncatalogue, examples FOLDER, or corpus TEXTS LISTS CATALOGUES CALLER WORDS..";

fn main() -> ExitCode {
    let words: Vec<String> = std::env::args().skip(1).collect();
    let ended = match words.as_slice() {
        [] => Err(USAGE.to_string()),
        [word] if word == "print" => print(Question::Listing).map_err(|error| error.to_string()),
        [word, number] if word == "print" => {
            print(reason_for(number)).map_err(|error| error.to_string())
        }
        [word] if word == "mend" => mend().map_err(|error| error.to_string()),
        [word] if word == "catalogue" => {
            print(Question::Catalogue).map_err(|error| error.to_string())
        }
        [word] if word == "uncatalogue" => uncatalogue().map_err(|error| error.to_string()),
        [word, folder] if word == "examples" => {
            write_examples(Path::new(folder)).map_err(|error| error.to_string())
        }
        [word, texts, lists, catalogues, command @ ..]
            if word == "corpus" && !command.is_empty() =>
        {
            let folders = [texts, lists, catalogues].map(PathBuf::from);
            run_tests(&suites::corpus::of(folders), command)
        }
        command => run_tests(&suites::all(), command),
    };
    ended.unwrap_or_else(|why| {
        eprintln!("{why}");
        ExitCode::from(2)
    })
}

/// The question for a reason. A word that is no number asks for 0, which is on no register either.
fn reason_for(word: &str) -> Question {
    let statement = Number::read(word.as_bytes()).map_or(0, Number::code);
    Question::Reason { statement }
}

/// Prints what the second solver answers to this question of the text on standard input.
fn print(question: Question) -> Result<ExitCode, Error> {
    let expected = Expected::of_text(&input()?);
    std::io::stdout().write_all(&listing::print(&expected, question))?;
    Ok(ExitCode::SUCCESS)
}

/// Prints what the second solver makes of the text on standard input when it is mended.
fn mend() -> Result<ExitCode, Error> {
    let mending = Mending::of(&input()?);
    match mending.refusal {
        None => std::io::stdout().write_all(&mending.text.0)?,
        Some(refusal) => std::io::stdout().write_all(&listing::refused(refusal))?,
    }
    std::io::stderr().write_all(mending.report.as_bytes())?;
    Ok(ExitCode::SUCCESS)
}

/// Prints the old form of the catalogue on standard input.
fn uncatalogue() -> Result<ExitCode, Error> {
    let old = OldForm::of(&input()?);
    let printed = old.refusal.map_or(old.text.0, listing::refused);
    std::io::stdout().write_all(&printed)?;
    Ok(ExitCode::SUCCESS)
}

/// The text on standard input.
fn input() -> Result<Text, Error> {
    let mut text = Text::default();
    std::io::stdin().read_to_end(&mut text.0)?;
    Ok(text)
}

/// Writes the text of each example of 01, and beside it what the program ought to print.
fn write_examples(folder: &Path) -> Result<ExitCode, Error> {
    for example in &EXAMPLES {
        std::fs::write(
            folder.join(format!("{}.txt", example.name)),
            example.text().0,
        )?;
        std::fs::write(
            folder.join(format!("{}.listing", example.name)),
            example.print(),
        )?;
    }
    Ok(ExitCode::SUCCESS)
}

/// Runs these tests, and prints the sum on the last line.
fn run_tests(tests: &[Test], command: &[String]) -> Result<ExitCode, String> {
    let sum = run::all(tests, command)?;
    println!("{} comparisons", sum.comparisons);
    println!("{} passed, {} failed", sum.passed, sum.failed);
    Ok(ExitCode::from(u8::from(sum.failed > 0)))
}

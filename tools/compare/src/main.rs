//! Compares `partsheet` with the second implementation on random texts.

use std::io::{self, Read, Write};
use std::path::{Path, PathBuf};
use std::process::ExitCode;

use compare::program::{self, Ending, Outcome};
use compare::tally::Tally;
use compare::{generate, partsheet};

const USAGE: &str = "usage: compare PATH_TO_PARTSHEET [--texts N] [--seed S]\n       compare --as-partsheet";
const DEFAULT_TEXTS: u64 = 2_000;
const DEFAULT_SEED: u64 = 1;

/// What the command line asks for.
enum Task {
    ActAsPartsheet,
    Compare { program: PathBuf, texts: u64, seed: u64 },
}

fn main() -> ExitCode {
    let done = match task(std::env::args().skip(1)) {
        Some(Task::ActAsPartsheet) => act_as_partsheet(),
        Some(Task::Compare { program, texts, seed }) => compare(&program, texts, seed),
        None => Err(USAGE.to_string()),
    };
    match done {
        Ok(()) => ExitCode::SUCCESS,
        Err(message) => {
            eprintln!("{message}");
            ExitCode::FAILURE
        }
    }
}

/// The task of a command line, if it has one.
fn task(mut arguments: impl Iterator<Item = String>) -> Option<Task> {
    let first = arguments.next()?;
    if first == "--as-partsheet" {
        return arguments.next().is_none().then_some(Task::ActAsPartsheet);
    }
    let (mut texts, mut seed) = (DEFAULT_TEXTS, DEFAULT_SEED);
    while let Some(option) = arguments.next() {
        let number = arguments.next()?.parse().ok()?;
        match option.as_str() {
            "--texts" => texts = number,
            "--seed" => seed = number,
            _ => return None,
        }
    }
    Some(Task::Compare { program: first.into(), texts, seed })
}

/// Prints what `partsheet` prints for the text on standard input.
fn act_as_partsheet() -> Result<(), String> {
    let mut text = Vec::new();
    io::stdin().read_to_end(&mut text).map_err(|error| format!("cannot read the text: {error}"))?;
    let (sheet, _) = partsheet::sheet(&text);
    io::stdout().write_all(sheet.as_bytes()).map_err(|error| format!("cannot print: {error}"))
}

/// Runs the program on every text of the seed and stops at the first on which it differs.
fn compare(program: &Path, texts: u64, seed: u64) -> Result<(), String> {
    let mut tally = Tally::default();
    for number in 0..texts {
        let text = generate::text(seed, number);
        let (sheet, sent_back) = partsheet::sheet(&text);
        let expected = Outcome { output: sheet.into_bytes(), ending: Ending::Status(0) };
        let outcome =
            program::run(program, &text).map_err(|error| format!("cannot run {}: {error}", program.display()))?;
        if outcome != expected {
            return Err(difference(seed, number, &text, &expected, &outcome));
        }
        tally.count(sent_back.map(|sent_back| sent_back.refusal));
    }
    println!("{tally}");
    let gaps = tally.gaps();
    if !gaps.is_empty() {
        return Err(format!("the texts of seed {seed} try too little: {}", gaps.join("; ")));
    }
    println!("compared {texts} texts: all alike");
    Ok(())
}

/// The report of a difference; the text itself goes to a file.
fn difference(seed: u64, number: u64, text: &[u8], expected: &Outcome, outcome: &Outcome) -> String {
    let file = std::env::temp_dir().join(format!("compare-{seed}-{number}.part"));
    let place = match std::fs::write(&file, text) {
        Ok(()) => format!("it is in {}", file.display()),
        Err(error) => format!("it could not be kept: {error}"),
    };
    let shown = |outcome: &Outcome| format!("{:?}\n{}", outcome.ending, String::from_utf8_lossy(&outcome.output));
    format!(
        "difference at text {number} of seed {seed}; {place}\n--- expected: {}--- printed: {}---",
        shown(expected),
        shown(outcome)
    )
}

//! How much of everything there is.

use super::repository::{Repository, Source};
use super::tables::{grouped, head, row};

/// A row about files: how many, and how many lines they have together.
fn files_row<F>(repository: &Repository, what: &str, is_one: F) -> String
where
    F: Fn(&Source) -> bool,
{
    let files: Vec<&Source> = repository
        .sources
        .iter()
        .filter(|file| is_one(file))
        .collect();
    let lines = files.iter().map(|file| file.lines()).sum();
    row(&[what, &grouped(files.len()), &grouped(lines)])
}

/// The counts of a thing that has no lines of its own.
fn plain_row(what: &str, count: usize) -> String {
    row(&[what, &grouped(count), ""])
}

/// Functions in tests that cargo runs.
fn tests(repository: &Repository) -> usize {
    let of_tests = |file: &&Source| file.path.starts_with("rust/tests/");
    let marked = |file: &Source| {
        file.text
            .lines()
            .filter(|line| line.trim() == "#[test]")
            .count()
    };
    repository.sources.iter().filter(of_tests).map(marked).sum()
}

pub fn table(repository: &Repository) -> String {
    let crates = &repository.crates;
    let with_code = crates.iter().filter(|each| repository.has_code(&each.name));
    let functions = repository
        .declarations
        .iter()
        .filter(|declared| declared.is_function());
    let edits = repository
        .sources
        .iter()
        .filter(|file| file.folder() == Some("must-fail"));

    let mut text = head(&["What", "Number", "Lines"]);
    text += &plain_row("crates", crates.len());
    text += &plain_row("crates with code", with_code.count());
    text += &plain_row("functions", functions.count());
    text += &files_row(repository, "files of code", |file| {
        file.folder() == Some("src")
    });
    text += &files_row(repository, "files of definitions", |file| {
        file.folder() == Some("specs")
    });
    text += &files_row(repository, "files of laws", |file| {
        file.folder() == Some("proofs") && file.proof().is_none()
    });
    text += &files_row(repository, "files of loops' invariants", |file| {
        file.proof() == Some("Invariants.antt")
    });
    text += &files_row(repository, "files of answers to open goals", |file| {
        file.proof() == Some("Answers.antt")
    });
    text += &plain_row("must-fail edits", edits.count());
    text += &plain_row("Rust tests", tests(repository));
    text
}

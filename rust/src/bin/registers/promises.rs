//! The functions whose contracts promise no result.

use super::declarations::Declaration;
use super::repository::Repository;
use super::tables::{head, row};

/// The word before a promise in a contract.
const PROMISE: &str = "ensures";

/// The beginning of a law of a trait, which is said before the function that keeps it.
const LAW: &str = "    ghost ";

/// Whether a function promises something: the lines before its body say so, or the law of a trait before it.
fn promises(repository: &Repository, function: &Declaration) -> bool {
    let file = repository
        .sources
        .iter()
        .find(|source| source.path == function.path);
    let text = file.map_or("", |file| &file.text);
    let before: Vec<&str> = text.lines().take(function.line - 1).collect();
    let is_inside = |line: &&&str| !line.starts_with("impl") && !line.starts_with('}');
    let mut above = before.iter().rev().take_while(is_inside);
    if above.any(|line| line.starts_with(LAW)) {
        return true;
    }
    let mut is_over = false;
    text.lines()
        .skip(function.line - 1)
        .take_while(|line| !std::mem::replace(&mut is_over, line.ends_with('{')))
        .any(|line| line.contains(PROMISE))
}

/// These functions, crate by crate.
pub fn table(repository: &Repository) -> String {
    let mut text = head(&["Crate", "Functions that promise no result"]);
    for each in &repository.crates {
        let names: Vec<String> = repository
            .declarations
            .iter()
            .filter(|declared| declared.is_function() && declared.crate_name == each.name)
            .filter(|function| !promises(repository, function))
            .map(|function| format!("`{}`", function.name))
            .collect();
        if !names.is_empty() {
            text += &row(&[&format!("`{}`", each.name), &names.join(", ")]);
        }
    }
    text
}

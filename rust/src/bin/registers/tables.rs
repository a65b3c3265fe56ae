//! Tables of the documents, read and written; and the table of the crates.

use super::repository::{Repository, Source};

/// The cells of a row of a table, if the line is one.
pub fn cells(line: &str) -> Option<Vec<&str>> {
    let inner = line.trim().strip_prefix('|')?.strip_suffix('|')?;
    Some(inner.split(" | ").map(str::trim).collect())
}

/// A row of a table. A cell of nothing has one space.
pub fn row(cells: &[&str]) -> String {
    let mut line = String::from("|");
    for cell in cells {
        line += if cell.is_empty() { " |" } else { " " };
        if !cell.is_empty() {
            line += cell;
            line += " |";
        }
    }
    line + "\n"
}

/// The first two lines of a table with these titles.
pub fn head(titles: &[&str]) -> String {
    row(titles) + "|" + &"---|".repeat(titles.len()) + "\n"
}

/// What stands between backquotes, in order.
pub fn quoted(text: &str) -> impl Iterator<Item = &str> {
    text.split('`').skip(1).step_by(2)
}

/// A text as it can stand in a cell.
pub fn in_cell(text: &str) -> String {
    text.replace('|', "\\|")
}

/// Digits between two commas of a number.
const GROUP: usize = 3;

/// A number with a comma before each group of digits.
pub fn grouped(number: usize) -> String {
    let digits = number.to_string();
    let mut text = String::new();
    for (place, digit) in digits.chars().enumerate() {
        if place > 0 && (digits.len() - place).is_multiple_of(GROUP) {
            text.push(',');
        }
        text.push(digit);
    }
    text
}

/// What a crate holds, in the words of the comment at the top of its first file.
fn holds(source: &Source) -> String {
    let comment: Vec<&str> = source
        .text
        .lines()
        .map_while(|line| line.strip_prefix("//"))
        .map(str::trim)
        .collect();
    in_cell(&comment.join(" "))
}

/// Each crate with what it holds and what it uses.
pub fn crates(repository: &Repository) -> Result<String, String> {
    let mut text = head(&["Crate", "Holds", "Uses"]);
    for each in &repository.crates {
        let name = &each.name;
        let first = repository
            .files(name, "src")
            .find(|source| ["lib", "main"].contains(&source.stem()))
            .ok_or_else(|| format!("{name} has no lib.rt and no main.rt"))?;
        let holds = holds(first);
        if holds.is_empty() {
            return Err(format!("{} does not say what the crate holds", first.path));
        }
        text += &row(&[&format!("`{name}`"), &holds, &each.uses.join(", ")]);
    }
    for source in &repository.sources {
        let owner = source.crate_name();
        if owner.is_some_and(|owner| repository.crates.iter().all(|each| each.name != owner)) {
            return Err(format!("{} belongs to no crate of crates.txt", source.path));
        }
    }
    Ok(text)
}

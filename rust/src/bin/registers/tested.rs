//! The table of the tests, written by hand, in which the numbers of the column "Counts" are filled: each is the sum of
//! what the tests in the row's files count under the words behind it.

use super::columns::filled;
use super::repository::{lines_of, Repository};
use super::tables::{grouped, quoted};

const LIST: &str = "rust/tests/data/counts.txt";

/// The titles of the column that is filled, and of the one with the row's files.
const COUNTS: &str = "Counts";
const TEST: &str = "Test";

/// What stands between two entries of a cell, or two words of the list.
const BETWEEN: &str = ", ";

/// How often a test counts something.
struct Count<'a> {
    path: &'a str,
    test: &'a str,
    what: &'a str,
    number: usize,
}

fn read(line: &str) -> Result<Count<'_>, String> {
    let broken = || format!("{LIST} has the line: {line}");
    let (name, number) = line.rsplit_once(": ").ok_or_else(broken)?;
    let words: Vec<&str> = name.split(BETWEEN).collect();
    let [path, test, what] = words[..] else {
        return Err(broken());
    };
    let number = number.parse().map_err(|_| broken())?;
    Ok(Count {
        path,
        test,
        what,
        number,
    })
}

/// Whether a test asks for its counts: its file has it, and its name in quotes.
fn is_asked_for(repository: &Repository, count: &Count) -> bool {
    let file = repository
        .sources
        .iter()
        .find(|source| source.path == count.path);
    let has = |words: String| file.is_some_and(|file| file.text.contains(&words));
    has(format!("fn {}()", count.test)) && has(format!("\"{}\"", count.test))
}

/// All counts of the list. Each stands there once, and its test asks for it.
fn read_all<'a>(repository: &Repository, list: &'a str) -> Result<Vec<Count<'a>>, String> {
    let mut counts: Vec<Count> = Vec::new();
    for line in lines_of(list) {
        let count = read(line)?;
        let name = (count.path, count.test, count.what);
        if counts
            .iter()
            .any(|other| (other.path, other.test, other.what) == name)
        {
            return Err(format!("{LIST} has twice: {name:?}"));
        }
        if !is_asked_for(repository, &count) {
            return Err(format!("{LIST} has what no test asks for: {line}"));
        }
        counts.push(count);
    }
    Ok(counts)
}

/// Whether a file is that of a module, or of a module inside it.
fn is_within(path: &str, module: &str) -> bool {
    let folder = module
        .strip_suffix("/main.rs")
        .or_else(|| module.strip_suffix(".rs"));
    let inside = folder.and_then(|folder| path.strip_prefix(folder));
    path == module || inside.is_some_and(|rest| rest.starts_with('/'))
}

/// An entry of a cell with its number made anew. One that begins with no number has none.
fn renumbered(entry: &str, counts: &[&Count]) -> Result<String, String> {
    let is_digit = |sign: char| sign.is_ascii_digit();
    if !entry.starts_with(is_digit) {
        return match entry.contains(is_digit) {
            true => Err(format!("a number does not begin its entry: {entry}")),
            false => Ok(entry.to_string()),
        };
    }
    let (_, what) = entry.split_once(' ').unwrap_or((entry, ""));
    let mut numbers = counts
        .iter()
        .filter(|count| count.what == what)
        .map(|count| count.number)
        .peekable();
    if numbers.peek().is_none() {
        return Err(format!("no test of the row counts this: {entry}"));
    }
    Ok(format!("{} {what}", grouped(numbers.sum())))
}

/// The table with its numbers from this list. Every file of the list has its row.
pub fn with_numbers(repository: &Repository, list: &str, text: &str) -> Result<String, String> {
    let counts = read_all(repository, list)?;
    for count in &counts {
        if !quoted(text).any(|module| is_within(count.path, module)) {
            return Err(format!("no row has the file {}", count.path));
        }
    }
    filled(text, COUNTS, |row| {
        let modules: Vec<&str> = quoted(row.cell(TEST)).collect();
        let of_row: Vec<&Count> = counts
            .iter()
            .filter(|count| modules.iter().any(|module| is_within(count.path, module)))
            .collect();
        let entries = row.cell(COUNTS).split(BETWEEN);
        let new: Vec<String> = entries
            .map(|entry| renumbered(entry, &of_row))
            .collect::<Result<_, _>>()?;
        Ok(new.join(BETWEEN))
    })
}

pub fn table(repository: &Repository, text: &str) -> Result<String, String> {
    with_numbers(repository, &repository.read(LIST), text)
}

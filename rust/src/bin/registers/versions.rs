//! The wrong versions of the code that were tried by machine, crate by crate.

use super::repository::{lines_of, Repository};
use super::tables::{head, in_cell, row};

const LIST: &str = "docs/wrong-versions.txt";

/// A crate with how many versions were tried and a remark.
type Tried<'a> = (&'a str, &'a str, &'a str);

fn read(line: &str) -> Result<Tried<'_>, String> {
    let broken = || format!("{LIST} has the line: {line}");
    let (name, rest) = line.split_once(": ").ok_or_else(broken)?;
    let (number, remark) = rest.split_once(", ").ok_or_else(broken)?;
    number.parse::<usize>().map_err(|_| broken())?;
    Ok((name, number, remark))
}

/// The list as a table, in the order of the crates. Every crate with code has one line.
pub fn table(repository: &Repository) -> Result<String, String> {
    let list = repository.read(LIST);
    let tried: Vec<Tried> = lines_of(&list).map(read).collect::<Result<_, _>>()?;
    for (name, _, _) in &tried {
        if !repository.has_code(name) {
            return Err(format!("{LIST} names {name}, which is no crate with code"));
        }
    }
    let mut text = head(&["Crate", "Tried", "Remark"]);
    for each in &repository.crates {
        let mut of_crate = tried.iter().filter(|(name, _, _)| *name == each.name);
        match (of_crate.next(), of_crate.next()) {
            (Some((name, number, remark)), None) => {
                text += &row(&[&format!("`{name}`"), number, &in_cell(remark)]);
            }
            (Some(_), Some(_)) => return Err(format!("{LIST} names {} twice", each.name)),
            (None, _) if repository.has_code(&each.name) => {
                return Err(format!("{LIST} does not name {}", each.name))
            }
            (None, _) => {}
        }
    }
    Ok(text)
}

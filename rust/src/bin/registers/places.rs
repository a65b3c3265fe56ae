//! Tables written by hand in which the column "Where" is filled: the files and lines of what the
//! other columns name.

use super::columns::filled;
use super::declarations::{is_place, named, resolve, Declaration, Kind};
use super::repository::Repository;
use super::tables::quoted;

/// The title of the column that is filled.
const WHERE: &str = "Where";

/// Takes up a text that is not there yet.
fn add(texts: &mut Vec<String>, text: String) {
    if !texts.contains(&text) {
        texts.push(text);
    }
}

/// File and line of the definition, or of the type of the code, that a row begins with.
pub fn definitions(repository: &Repository, text: &str) -> Result<String, String> {
    filled(text, WHERE, |row| {
        let first = |title, kind| quoted(row.cell(title)).next().map(|name| (name, kind));
        let (name, kind) = first("Definition", Kind::Definition)
            .or_else(|| first("Type", Kind::Item))
            .ok_or_else(|| format!("a row names no definition: {:?}", row.cells))?;
        let found = resolve(&repository.declarations, &[kind], name, &[])?;
        Ok(format!("`{}:{}`", found.path, found.line))
    })
}

/// The files of what a column names. A row that names nothing keeps what it says.
fn files(
    repository: &Repository,
    text: &str,
    title: &str,
    kinds: &[Kind],
) -> Result<String, String> {
    filled(text, WHERE, |row| {
        let mut paths = Vec::new();
        for declared in named_in(&repository.declarations, &[kinds], row.cell(title))? {
            add(&mut paths, format!("`{}`", declared.path));
        }
        if paths.is_empty() {
            return Ok(row.cell(WHERE).to_string());
        }
        Ok(paths.join(", "))
    })
}

pub fn functions(repository: &Repository, text: &str) -> Result<String, String> {
    files(repository, text, "Operation", &[Kind::Function])
}

pub fn theorems(repository: &Repository, text: &str) -> Result<String, String> {
    files(repository, text, "Theorem", &[Kind::Law])
}

/// The declarations that a cell names, each of the first of these kinds that has its name. Crates and files, which it
/// may name too, are none.
fn named_in<'a>(
    all: &'a [Declaration],
    kinds: &[&[Kind]],
    cell: &str,
) -> Result<Vec<&'a Declaration>, String> {
    let words: Vec<&str> = quoted(cell).collect();
    let mut found = Vec::new();
    for word in &words {
        let declared = kinds
            .iter()
            .find(|kinds| !named(all, kinds, word).is_empty());
        match declared {
            Some(kinds) => found.push(resolve(all, kinds, word, &words)?),
            None if is_place(all, word) => {}
            None => return Err(format!("{word} is declared nowhere")),
        }
    }
    Ok(found)
}

/// The files of declarations that stand in a crate.
fn modules_in(found: &[&Declaration], crate_name: &str) -> String {
    let mut modules = Vec::new();
    for declared in found {
        if declared.crate_name == crate_name {
            add(&mut modules, declared.module.clone());
        }
    }
    format!("`{crate_name}`: {}", modules.join(", "))
}

/// The files of declarations, crate by crate.
fn by_crate(found: &[&Declaration]) -> String {
    let mut places = Vec::new();
    for declared in found {
        add(&mut places, modules_in(found, &declared.crate_name));
    }
    places.join("; ")
}

/// The kinds of what a sentence has for definitions: the code's types are among them.
const DEFINITIONS: [&[Kind]; 2] = [&[Kind::Definition, Kind::Field], &[Kind::Item]];

/// The kinds of what it has for laws: a computed fact, which its file keeps to itself, and an edit are among them.
const LAWS: [&[Kind]; 2] = [&[Kind::Law, Kind::Field, Kind::Edit], &[Kind::Private]];

/// The files of each sentence's definitions and laws.
pub fn sentences(repository: &Repository, text: &str) -> Result<String, String> {
    let all = &repository.declarations;
    filled(text, WHERE, |row| {
        let mut found = named_in(all, &DEFINITIONS, row.cell("Definition"))?;
        found.extend(named_in(all, &LAWS, row.cell("Law"))?);
        Ok(by_crate(&found))
    })
}

//! The must-fail edits, by the contract that refuses each.

use super::declarations::{around, Declaration, Kind};
use super::repository::{Crate, Repository, Source};
use super::tables::{head, in_cell, row};

/// A wrong version: what it is, and what it changes.
struct Edit<'a> {
    name: &'a str,
    description: &'a str,
    contract: String,
}

/// What an edit changes, as the documents name it: a function with its module, or a definition with its file.
fn label(declared: &Declaration) -> String {
    let name = &declared.name;
    match (declared.kind, &*declared.module) {
        (Kind::Definition | Kind::Private, module) => format!("`{module}.{name}`"),
        (_, "lib" | "main") => format!("`{name}`"),
        (_, module) => format!("`{module}::{name}`"),
    }
}

/// Where a text stands in a file, as a line's number. It must stand there once, or the edit cannot be made.
fn line_of(file: &Source, text: &str) -> Result<usize, String> {
    let mut places = file.text.match_indices(text);
    match (places.next(), places.next()) {
        (Some((place, _)), None) => Ok(file.text[..place].matches('\n').count() + 1),
        (None, _) => Err(format!("{} does not have the text {text}", file.path)),
        (Some(_), Some(_)) => Err(format!("{} has the text {text} twice", file.path)),
    }
}

/// What an edit changes. Imports belong to nothing; where code and definitions are changed, the code counts.
fn changed(repository: &Repository, edit: &Source) -> Result<Vec<String>, String> {
    let mut found: Vec<&Declaration> = Vec::new();
    let mut file = None;
    for line in edit.text.lines() {
        if let Some(path) = line.strip_prefix("file: ") {
            let owner = edit.crate_name().unwrap_or("");
            let path = format!("crates/{owner}/{path}");
            file = repository.sources.iter().find(|source| source.path == path);
        }
        let (Some(file), Some(old)) = (file, line.strip_prefix("old: ")) else {
            continue;
        };
        found.extend(around(
            &repository.declarations,
            &file.path,
            line_of(file, old)?,
        ));
    }
    let is_code = |declared: &Declaration| matches!(declared.kind, Kind::Function | Kind::Item);
    if found.iter().any(|declared| is_code(declared)) {
        found.retain(|declared| is_code(declared));
    }
    let mut labels: Vec<String> = found.iter().map(|declared| label(declared)).collect();
    labels.dedup();
    Ok(labels)
}

fn read<'a>(repository: &Repository, file: &'a Source) -> Result<Edit<'a>, String> {
    let labels = changed(repository, file)?;
    if labels.is_empty() {
        return Err(format!("{} changes nothing that is declared", file.path));
    }
    let description = file.text.lines().next().unwrap_or("");
    if description.is_empty() || description.starts_with("file: ") {
        return Err(format!("{} does not say what it is", file.path));
    }
    Ok(Edit {
        name: file.stem(),
        description,
        contract: labels.join(", "),
    })
}

/// The edits of a crate, a row for each contract.
fn table(repository: &Repository, each: &Crate) -> Result<String, String> {
    let mut rows: Vec<(String, String)> = Vec::new();
    for file in repository.files(&each.name, "must-fail") {
        let edit = read(repository, file)?;
        let text = format!("`{}`: {}", edit.name, in_cell(edit.description));
        match rows
            .iter_mut()
            .find(|(contract, _)| *contract == edit.contract)
        {
            Some((_, texts)) => *texts += &format!(" {text}"),
            None => rows.push((edit.contract, text)),
        }
    }
    if rows.is_empty() {
        return Ok(String::new());
    }
    rows.sort();
    let mut text = format!("\n## `{}`\n\n", each.name);
    text += &head(&["Contract", "Edits that it refuses"]);
    for (contract, edits) in &rows {
        text += &row(&[contract, edits]);
    }
    Ok(text)
}

/// The edits of every crate.
pub fn tables(repository: &Repository) -> Result<String, String> {
    let mut text = String::new();
    for each in &repository.crates {
        text += &table(repository, each)?;
    }
    Ok(text + "\n")
}

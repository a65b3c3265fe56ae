//! Writes the registers in the documents anew, and says which documents it has changed.
//!
//! A register is what is written in a document from the repository itself. It stands between a marker with its name
//! and an end marker, each on a line of its own. Some registers are made whole; others fill one column of a table that
//! is written by hand: "Where", or the numbers in "Counts". The tests (`documents`) fail where a register is out of
//! date.

mod columns;
mod counts;
mod declarations;
#[cfg(test)]
mod documents;
mod edits;
mod markers;
mod places;
mod promises;
mod repository;
mod tables;
mod tested;
mod versions;

use std::process::ExitCode;

use repository::Repository;

/// What makes a register, of the repository and of what stands between its markers now.
type Maker = fn(&Repository, &str) -> Result<String, String>;

/// The registers by name.
const REGISTERS: [(&str, Maker); 11] = [
    ("crates", |repository, _| tables::crates(repository)),
    ("counts", |repository, _| Ok(counts::table(repository))),
    ("must-fail edits", |repository, _| edits::tables(repository)),
    ("wrong versions", |repository, _| {
        versions::table(repository)
    }),
    ("no promise", |repository, _| {
        Ok(promises::table(repository))
    }),
    ("definitions", places::definitions),
    ("sentences", places::sentences),
    ("instead", places::sentences),
    ("functions", places::functions),
    ("theorems", places::theorems),
    ("tested", tested::table),
];

/// The names of all registers.
#[cfg(test)]
fn all() -> impl Iterator<Item = &'static str> {
    REGISTERS.iter().map(|(name, _)| *name)
}

/// A document with every register in it made anew.
fn renewed(repository: &Repository, text: &str) -> Result<String, String> {
    markers::replaced(text, |name, content| {
        let known = REGISTERS.iter().find(|(known, _)| *known == name);
        let (_, maker) = known.ok_or_else(|| format!("no register is called {name}"))?;
        maker(repository, content).map_err(|fault| format!("register {name}: {fault}"))
    })
}

fn main() -> ExitCode {
    let repository = Repository::here();
    let mut changed = 0;
    let mut faults = 0;
    for document in repository.documents() {
        let text = repository.read(&document);
        match renewed(&repository, &text) {
            Err(fault) => {
                eprintln!("{document}: {fault}");
                faults += 1;
            }
            Ok(new) if new != text => {
                repository.write(&document, &new);
                println!("{document} changed");
                changed += 1;
            }
            Ok(_) => {}
        }
    }
    println!("{changed} documents changed");
    if faults == 0 {
        ExitCode::SUCCESS
    } else {
        ExitCode::FAILURE
    }
}

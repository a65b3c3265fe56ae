//! The repository as the registers read it: its crates, the files in them, and the documents.

use std::fs;
use std::path::{Path, PathBuf};

use super::declarations::{self, Declaration};
#[cfg(test)]
use super::declarations::{is_place, named, KINDS};

/// Folders that the registers read.
const SOURCES: [&str; 2] = ["crates", "rust/tests"];

/// The notes on the port to today's Rattle, on its forms and on what was mended after that, which name what was there
/// before.
const BEFORE: [&str; 3] = ["docs/PORT.md", "docs/DESIGN-PASS.md", "docs/LOOK-BACK.md"];

/// The folder of a crate in which rt keeps what it makes.
const MADE: &str = "out";

/// The files of a function's proof, which stand in a folder of its own below `proofs`.
const PROOF: [&str; 3] = ["Invariants.antt", "Answers.antt", "Proof.antt"];

/// A file, by its path from the top of the repository.
pub struct Source {
    pub path: String,
    pub text: String,
}

impl Source {
    /// The crate that the file belongs to, if it is one of a crate's.
    pub fn crate_name(&self) -> Option<&str> {
        self.path.strip_prefix("crates/")?.split('/').next()
    }

    /// The folder of the crate in which the file stands: `src`, `specs`, `proofs` or `must-fail`.
    pub fn folder(&self) -> Option<&str> {
        self.path.strip_prefix("crates/")?.split('/').nth(1)
    }

    /// The name of the file, if it is one of a function's proof.
    pub fn proof(&self) -> Option<&str> {
        let inside = self.path.strip_prefix("crates/")?.split_once("/proofs/")?.1;
        let (_, name) = inside.rsplit_once('/')?;
        PROOF.contains(&name).then_some(name)
    }

    /// The file's name without its ending.
    pub fn stem(&self) -> &str {
        let name = self.path.rsplit('/').next().unwrap_or(&self.path);
        name.split('.').next().unwrap_or(name)
    }

    /// How many lines the file has.
    pub fn lines(&self) -> usize {
        self.text.lines().count()
    }
}

/// A crate, with the crates that it uses.
pub struct Crate {
    pub name: String,
    pub uses: Vec<String>,
}

pub struct Repository {
    top: PathBuf,
    pub crates: Vec<Crate>,
    pub sources: Vec<Source>,
    pub declarations: Vec<Declaration>,
}

impl Repository {
    /// The repository that this package stands in.
    pub fn here() -> Repository {
        let top = Path::new(env!("CARGO_MANIFEST_DIR")).join("..");
        let mut sources = Vec::new();
        for folder in SOURCES {
            collect(&top, folder, &mut sources);
        }
        sources.sort_by(|a, b| a.path.cmp(&b.path));
        Repository {
            crates: crates(&read(&top, "crates.txt")),
            declarations: declarations::all(&sources),
            sources,
            top,
        }
    }

    /// The text of a file.
    pub fn read(&self, path: &str) -> String {
        read(&self.top, path)
    }

    pub fn write(&self, path: &str, text: &str) {
        fs::write(self.top.join(path), text).unwrap_or_else(|error| panic!("{path}: {error}"));
    }

    /// The paths of all documents that say how things are.
    pub fn documents(&self) -> Vec<String> {
        let mut found = self.texts("docs");
        found.retain(|path| !BEFORE.contains(&path.as_str()));
        found.push("README.md".to_string());
        found
    }

    /// The paths of the notes on requests: what they name was there when they were written.
    #[cfg(test)]
    pub fn notes(&self) -> Vec<String> {
        self.texts("docs/requests")
    }

    fn texts(&self, folder: &str) -> Vec<String> {
        let names = entries(&self.top.join(folder)).into_iter();
        names
            .filter(|name| name.ends_with(".md"))
            .map(|name| format!("{folder}/{name}"))
            .collect()
    }

    /// The files of a crate's folder.
    pub fn files<'a>(&'a self, name: &'a str, folder: &'a str) -> impl Iterator<Item = &'a Source> {
        self.sources.iter().filter(move |source| {
            source.crate_name() == Some(name) && source.folder() == Some(folder)
        })
    }

    /// Whether a crate has a function.
    pub fn has_code(&self, name: &str) -> bool {
        self.declarations
            .iter()
            .any(|declared| declared.crate_name == name && declared.is_function())
    }
}

/// What the tests of the documents ask for.
#[cfg(test)]
impl Repository {
    pub fn has(&self, path: &str) -> bool {
        self.top.join(path).exists()
    }

    /// Whether a word is a name: of what the crates declare, of a crate, or of a file in one.
    pub fn knows(&self, word: &str) -> bool {
        !named(&self.declarations, &KINDS, word).is_empty() || is_place(&self.declarations, word)
    }
}

fn read(top: &Path, path: &str) -> String {
    fs::read_to_string(top.join(path)).unwrap_or_else(|error| panic!("{path}: {error}"))
}

/// The names in a folder, in order.
fn entries(folder: &Path) -> Vec<String> {
    let listed = fs::read_dir(folder).unwrap_or_else(|error| panic!("{folder:?}: {error}"));
    let mut names: Vec<String> = listed
        .map(|entry| entry.expect("an entry can be read").file_name())
        .map(|name| name.to_string_lossy().into_owned())
        .collect();
    names.sort();
    names
}

/// Takes up every file below a folder, but for what rt has made.
fn collect(top: &Path, folder: &str, found: &mut Vec<Source>) {
    for name in entries(&top.join(folder)) {
        let path = format!("{folder}/{name}");
        if name == MADE {
            continue;
        }
        if top.join(&path).is_dir() {
            collect(top, &path, found);
        } else {
            let text = read(top, &path);
            found.push(Source { path, text });
        }
    }
}

/// The lines of a list, but for comments and empty ones.
pub fn lines_of(list: &str) -> impl Iterator<Item = &str> {
    list.lines()
        .filter(|line| !line.starts_with('#') && !line.is_empty())
}

/// The crates that `crates.txt` lists, in its order.
fn crates(list: &str) -> Vec<Crate> {
    lines_of(list)
        .filter_map(|line| line.split_once(':'))
        .filter_map(|(head, uses)| {
            // The static library has a word for its kind behind its name.
            let name = head.split_whitespace().next()?;
            Some(Crate {
                name: name.to_string(),
                uses: uses.split_whitespace().map(str::to_string).collect(),
            })
        })
        .collect()
}

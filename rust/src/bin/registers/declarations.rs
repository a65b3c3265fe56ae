//! What the crates declare: functions, definitions, laws and must-fail edits, each with its file and line.

use super::repository::Source;

/// What is declared.
#[derive(Clone, Copy, Debug, PartialEq, Eq)]
pub enum Kind {
    /// A function of the code.
    Function,
    /// A constant, a struct or an enum of the code.
    Item,
    /// What a file of `specs` declares.
    Definition,
    /// What a file of `proofs` declares.
    Law,
    /// What a file of `specs` or `proofs` keeps to itself.
    Private,
    /// A field of a record of definitions or laws.
    Field,
    /// A must-fail edit.
    Edit,
}

/// All kinds.
#[cfg(test)]
pub const KINDS: [Kind; 7] = [
    Kind::Function,
    Kind::Item,
    Kind::Definition,
    Kind::Law,
    Kind::Private,
    Kind::Field,
    Kind::Edit,
];

#[derive(Debug)]
pub struct Declaration {
    pub name: String,
    pub kind: Kind,
    pub crate_name: String,
    /// The file's name without its ending; of an edit, which is a file itself, the folder's.
    pub module: String,
    /// The record that a field belongs to, or the type that a method does.
    record: Option<String>,
    pub path: String,
    pub line: usize,
}

impl Declaration {
    pub fn is_function(&self) -> bool {
        self.kind == Kind::Function
    }

    /// Whether a word names the place: the crate, the file in it, the record of a field, or the type of a method.
    fn stands_in(&self, word: &str) -> bool {
        self.crate_name == word || self.module == word || self.record.as_deref() == Some(word)
    }
}

/// Everything that the crates declare. The files of a function's proof declare nothing that a document names.
pub fn all(sources: &[Source]) -> Vec<Declaration> {
    let mut found = Vec::new();
    for source in sources {
        let Some(folder) = source.folder() else {
            continue;
        };
        let (module, names) = match folder {
            "src" => (source.stem(), items(&source.text)),
            "specs" => (source.stem(), definitions(&source.text, Kind::Definition)),
            "proofs" if source.proof().is_some() => continue,
            "proofs" => (source.stem(), definitions(&source.text, Kind::Law)),
            "must-fail" => (folder, vec![edit(source)]),
            _ => continue,
        };
        declare(source, module, names, &mut found);
    }
    found
}

/// A name that a file declares.
struct Found {
    line: usize,
    name: String,
    kind: Kind,
    record: Option<String>,
}

fn declare(source: &Source, module: &str, names: Vec<Found>, found: &mut Vec<Declaration>) {
    for each in names {
        found.push(Declaration {
            name: each.name,
            kind: each.kind,
            crate_name: source.crate_name().unwrap_or("").to_string(),
            module: module.to_string(),
            record: each.record,
            path: source.path.clone(),
            line: each.line,
        });
    }
}

/// A file of a must-fail edit, as a whole.
fn edit(source: &Source) -> Found {
    Found {
        line: 1,
        name: source.stem().to_string(),
        kind: Kind::Edit,
        record: None,
    }
}

/// Words before `fn` and the like in a declaration of code.
const CODE_MODIFIERS: [&str; 4] = ["pub", "crate", "extern", "C"];

/// The functions, constants and types of a file of code, and the types' methods.
fn items(text: &str) -> Vec<Found> {
    let mut found = Vec::new();
    // The type whose methods follow.
    let mut owner = None;
    for (place, line) in text.lines().enumerate() {
        if !line.is_empty() && !line.starts_with([' ', '/']) {
            owner = owner_of(line);
        }
        let method = owner.and_then(|_| line.strip_prefix(METHOD_INDENT));
        let Some((kind, name)) = item(method.unwrap_or(line)) else {
            continue;
        };
        found.push(Found {
            line: place + 1,
            name: name.to_string(),
            kind,
            record: method.and(owner).map(str::to_string),
        });
    }
    found
}

/// How far a method is indented.
const METHOD_INDENT: &str = "    ";

/// The type whose methods follow a line: `impl<'a> Page<'a> {`, `impl From<u8> for Kind {`.
fn owner_of(line: &str) -> Option<&str> {
    let (_, rest) = line.strip_prefix("impl")?.split_once(' ')?;
    let name = rest.split_once(" for ").map_or(rest, |(_, name)| name);
    name.split(|c: char| !c.is_alphanumeric() && c != '_')
        .next()
}

/// What a line of code declares. What is indented stands inside something else.
fn item(line: &str) -> Option<(Kind, &str)> {
    if line.starts_with([' ', '/']) {
        return None;
    }
    let mut words = line
        .split(|c: char| !c.is_alphanumeric() && c != '_')
        .filter(|word| !word.is_empty() && !CODE_MODIFIERS.contains(word));
    let kind = match words.next()? {
        "fn" => Kind::Function,
        "const" | "struct" | "enum" | "type" => Kind::Item,
        _ => return None,
    };
    Some((kind, words.next()?))
}

/// Words before the name in a declaration.
const MODIFIERS: [&str; 5] = ["pub", "abbrev", "unfoldable", "record", "data"];

/// The names that a file of definitions or laws declares.
fn definitions(text: &str, kind: Kind) -> Vec<Found> {
    let mut found = Vec::new();
    // The record whose fields follow, and how far it is indented.
    let mut record: Option<(usize, &str)> = None;
    for (place, line) in text.lines().enumerate() {
        let Some(indent) = line.find(|c| c != ' ') else {
            continue;
        };
        record = record.filter(|(outer, _)| indent > *outer);
        let Some(name) = declared_name(line, indent) else {
            continue;
        };
        found.push(Found {
            line: place + 1,
            name: name.to_string(),
            kind: kind_of(line, kind, record.is_some()),
            record: record.map(|(_, name)| name.to_string()),
        });
        if has_word(line, "record") && line.ends_with("where") {
            record = Some((indent, name));
        }
    }
    found
}

fn has_word(line: &str, word: &str) -> bool {
    line.split_whitespace().any(|other| other == word)
}

/// What a line declares, in a file of this kind.
fn kind_of(line: &str, kind: Kind, is_field: bool) -> Kind {
    match (is_field, has_word(line, "pub")) {
        (true, _) => Kind::Field,
        (false, false) => Kind::Private,
        (false, true) => kind,
    }
}

/// The name that a line declares. What stands inside another definition has no modifier.
fn declared_name(line: &str, indent: usize) -> Option<&str> {
    let (head, _) = line.split_once(" : ")?;
    if head.contains(" = ") {
        return None;
    }
    let mut words = head.split_whitespace();
    let first = words.clone().next()?;
    let is_outer = indent == 0 || MODIFIERS.contains(&first);
    if !is_outer || ["--", "use", "module"].contains(&first) {
        return None;
    }
    let name = words.find(|word| !MODIFIERS.contains(word))?;
    (name != "module" && name != "mutual").then_some(name)
}

/// The parts of a name with its place before it: `Demands.Demand3`, `run_offer::offer`.
fn parts(word: &str) -> Vec<&str> {
    word.split("::").flat_map(|part| part.split('.')).collect()
}

/// The declarations of these kinds that a word names.
pub fn named<'a>(all: &'a [Declaration], kinds: &[Kind], word: &str) -> Vec<&'a Declaration> {
    let parts = parts(word);
    let Some((name, places)) = parts.split_last() else {
        return Vec::new();
    };
    all.iter()
        .filter(|declared| declared.name == *name && kinds.contains(&declared.kind))
        .filter(|declared| places.iter().all(|place| declared.stands_in(place)))
        .collect()
}

/// The one declaration that a word names. Where there are several, the other words beside it say which.
pub fn resolve<'a>(
    all: &'a [Declaration],
    kinds: &[Kind],
    word: &str,
    beside: &[&str],
) -> Result<&'a Declaration, String> {
    let found = named(all, kinds, word);
    let says = |declared: &&Declaration| beside.iter().any(|place| declared.stands_in(place));
    let said: Vec<&Declaration> = found.iter().copied().filter(says).collect();
    match (&found[..], &said[..]) {
        ([one], _) | (_, [one]) => Ok(one),
        ([], _) => Err(format!("{word} is declared nowhere")),
        _ => {
            let paths: Vec<&str> = found.iter().map(|declared| &*declared.path).collect();
            Err(format!("{word} is declared in {}", paths.join(" and ")))
        }
    }
}

/// Whether a word is the name of a crate, of a file, or of a file with its crate before it.
pub fn is_place(all: &[Declaration], word: &str) -> bool {
    let parts = parts(word);
    all.iter()
        .any(|declared| parts.iter().all(|part| declared.stands_in(part)))
}

/// What a line of a file belongs to.
pub fn around<'a>(all: &'a [Declaration], path: &str, line: usize) -> Option<&'a Declaration> {
    all.iter()
        .filter(|declared| declared.path == path && declared.line <= line)
        .rfind(|declared| declared.kind != Kind::Field)
}

//! The documents name what is there, and their registers are up to date.

use super::markers::names as marked;
use super::repository::Repository;
use super::tables::{cells, quoted};
use super::tested::with_numbers;
use super::{all, renewed};

/// Folders at the top of the repository, by which a name in a document is known to be a path.
const FOLDERS: [&str; 5] = ["crates", "docs", "examples", "include", "rust"];

/// Signs of a path that stands for several, or that is made by building.
const PATTERN_SIGNS: [&str; 4] = ["*", "NAME", "target/", "/out/"];

/// The layers of the crates, each by the first words of its crates, the lowest first.
const LAYERS: [&[&str]; 7] = [
    &["base"],
    &["meaning", "agreement", "sentences", "stations", "demands"],
    &["program"],
    &["run"],
    &["text"],
    &["desk"],
    &["gurvoke", "assemble", "listing", "rehearse"],
];

/// Characters of the longest line that is no row of a table and no line of a sample.
const MAX_LINE: usize = 120;

/// A path in backquotes, with the line after its colon, if there is one.
fn path_in(word: &str) -> Option<(&str, Option<usize>)> {
    let (folder, _) = word.split_once('/')?;
    let known = FOLDERS.contains(&folder) && !word.contains(' ');
    if !known || PATTERN_SIGNS.iter().any(|sign| word.contains(sign)) {
        return None;
    }
    match word.split_once(':') {
        None => Some((word, None)),
        Some((path, line)) => Some((path, line.parse().ok())),
    }
}

/// A document's text, which the tests change.
fn definitions() -> String {
    Repository::here().read("docs/DEFINITIONS.md")
}

/// The fault that a text is refused with.
fn fault(text: &str) -> String {
    let made = renewed(&Repository::here(), text);
    made.expect_err("a text with a fault is refused")
}

#[test]
fn paths_are_there() {
    let repository = Repository::here();
    let mut seen = 0;
    for document in repository.documents() {
        let text = repository.read(&document);
        for (path, _) in quoted(&text).filter_map(path_in) {
            assert!(repository.has(path), "{document} names {path}");
            seen += 1;
        }
    }
    assert!(seen > 100, "only {seen} paths are named");
}

/// Whether a word has the form of a name of the crates: `read_line`, `base::at`, `whole_reached`, `Demands.Demand3`,
/// `treeOf`.
fn is_name(word: &str) -> bool {
    let parts: Vec<&str> = word.split(['_', '-', ':', '.']).collect();
    let is_plain = parts
        .iter()
        .all(|part| part.chars().all(char::is_alphanumeric));
    if !is_plain || !word.starts_with(char::is_alphabetic) || word.ends_with(".md") {
        return false;
    }
    let letters: Vec<char> = word.chars().collect();
    let is_hump = |pair: &[char]| pair[0].is_lowercase() && pair[1].is_uppercase();
    match parts.len() {
        1 => letters.windows(2).any(is_hump),
        2 => !word.contains('.') || word.starts_with(char::is_uppercase),
        _ => !word.contains('.'),
    }
}

/// Whether the C header has a line that begins with a definition of this name.
fn is_macro(header: &str, word: &str) -> bool {
    header
        .lines()
        .filter_map(|line| line.strip_prefix("#define "))
        .any(|rest| rest.split([' ', '(']).next() == Some(word))
}

#[test]
fn names_are_there() {
    let repository = Repository::here();
    let header = repository.read("include/gurvoke.h");
    let mut seen = 0;
    for document in repository.documents() {
        let text = repository.read(&document);
        for word in quoted(&text).filter(|word| is_name(word)) {
            let is_known = repository.knows(word) || is_macro(&header, word);
            assert!(is_known, "{document} names {word}");
            seen += 1;
        }
    }
    assert!(seen > 400, "only {seen} names are found");
}

#[test]
fn registers_are_up_to_date() {
    let repository = Repository::here();
    for document in repository.documents() {
        let text = repository.read(&document);
        let new = renewed(&repository, &text).unwrap_or_else(|fault| panic!("{document}: {fault}"));
        for (line, made) in text.lines().zip(new.lines()) {
            assert_eq!(line, made, "{document}: run `cargo run --bin registers`");
        }
        assert_eq!(
            text.len(),
            new.len(),
            "{document}: run `cargo run --bin registers`"
        );
    }
}

#[test]
fn every_register_has_a_marker() {
    let repository = Repository::here();
    let documents = repository.documents();
    let texts: Vec<String> = documents.iter().map(|path| repository.read(path)).collect();
    for register in all() {
        let places = texts.iter().flat_map(|text| marked(text));
        let count = places.filter(|name| *name == register).count();
        assert_eq!(count, 1, "markers for the register {register}");
    }
}

/// The layer of a crate, by its first word.
fn layer(name: &str) -> usize {
    let first = name.split('_').next().unwrap_or(name);
    let found = LAYERS.iter().position(|words| words.contains(&first));
    found.unwrap_or_else(|| panic!("{name} is of no layer"))
}

/// What docs/ARCHITECTURE.md says of `crates.txt`: a crate uses lower layers, and what stands before it in its own.
#[test]
fn crates_use_lower_layers() {
    let repository = Repository::here();
    let mut before: Vec<&str> = Vec::new();
    for each in &repository.crates {
        for used in &each.uses {
            let name = &each.name;
            assert!(before.contains(&&**used), "{name} stands before {used}");
            assert!(layer(used) <= layer(name), "{name} uses {used}");
        }
        before.push(&each.name);
    }
    let library = repository.crates.iter().find(|each| each.name == "gurvoke");
    let uses = &library.expect("the library is a crate").uses;
    assert!(
        uses.iter().all(|used| !used.starts_with("desk_")),
        "{uses:?}"
    );
}

/// The lines that the table of definitions gives, looked up without the registers.
#[test]
fn lines_have_their_definitions() {
    let repository = Repository::here();
    let mut seen = 0;
    for row in definitions().lines().filter_map(cells) {
        let mut words = row.iter().flat_map(|cell| quoted(cell));
        let Some(name) = words.next() else {
            continue;
        };
        let Some((path, Some(line))) = words.next().and_then(path_in) else {
            continue;
        };
        let source = repository.read(path);
        let found = source.lines().nth(line - 1).unwrap_or("");
        let has_name = found.split_whitespace().any(|word| word == name);
        let is_type = ["pub enum ", "pub struct "].map(|words| found.starts_with(words));
        let declares = has_name && (found.contains(" : ") || is_type.contains(&true));
        assert!(declares, "{path}:{line} does not declare {name}: {found}");
        seen += 1;
    }
    assert!(seen > 60, "only {seen} lines are named");
}

#[test]
fn lines_are_short() {
    let repository = Repository::here();
    for document in [repository.documents(), repository.notes()].concat() {
        let text = repository.read(&document);
        let mut in_sample = false;
        for line in text.lines() {
            in_sample ^= line.starts_with("```");
            let is_free = in_sample || line.starts_with('|');
            let length = line.chars().count();
            assert!(
                is_free || length <= MAX_LINE,
                "{document}, {length} long: {line}"
            );
        }
    }
}

/// The sample in the README shows the beginning and the end of the log of its example.
#[test]
fn sample_is_of_the_example() {
    let repository = Repository::here();
    let text = repository.read("README.md");
    let log = repository.read("examples/coring.out");
    let (before, after) = text.split_once("…\n").expect("the sample leaves lines out");
    let first = before
        .rfind("begun\n")
        .expect("the sample has the first answer");
    let (last, _) = after.split_once("```").expect("the sample ends");
    assert!(log.starts_with(&before[first..]), "{}", &before[first..]);
    assert!(log.ends_with(last), "{last}");
}

/// A wrong line number is noticed, and a definition, a type, a law and an edit that are not there.
#[test]
fn wrong_places_are_noticed() {
    let text = definitions();
    let repository = Repository::here();
    let new = text.replacen("Sizes.antt:", "Sizes.antt:1", 1);
    assert!(renewed(&repository, &new) == renewed(&repository, &text));

    let new = text.replacen("| `max_parts` |", "| `most_parts` |", 1);
    assert!(fault(&new).contains("most_parts is declared nowhere"));
    let new = text.replacen("| `Outcome` |", "| `Outcomes` |", 1);
    assert!(fault(&new).contains("Outcomes is declared nowhere"));
    let new = text.replacen("`seq_one`", "`seq_two`", 1);
    assert!(fault(&new).contains("seq_two is declared nowhere"));
    let new = text.replacen(
        "`ended_branch_taken_for_deciding`",
        "`ended_branch_taken`",
        1,
    );
    assert!(fault(&new).contains("ended_branch_taken is declared nowhere"));
    let new = text.replacen(
        "`Refusals.offer_refused`, `goals",
        "`offer_refused`, `goals",
        1,
    );
    assert!(fault(&new).contains("offer_refused is declared in crates/"));
}

/// A crate or an edit that is left out comes back, and one that is not there goes.
#[test]
fn wrong_rows_are_noticed() {
    let repository = Repository::here();
    for (path, row) in [
        ("docs/ARCHITECTURE.md", "| `desk_format` |"),
        ("docs/MUST_FAIL.md", "| `copy` |"),
        ("docs/ASSURANCE.md", "| must-fail edits |"),
        ("docs/ASSURANCE.md", "| `desk_calls` |"),
    ] {
        let text = repository.read(path);
        let right = renewed(&repository, &text);
        let kept = |line: &&str| !line.starts_with(row);
        let short: String = text.split_inclusive('\n').filter(kept).collect();
        assert!(short != text, "{path} has no row {row}");
        assert!(
            renewed(&repository, &short) == right,
            "{path} without {row}"
        );

        let long = text.replacen(row, &format!("| `more` | more |\n{row}"), 1);
        assert!(
            renewed(&repository, &long) == right,
            "{path} with more than {row}"
        );
    }
}

/// A table of tests whose one row has these counts.
fn tests_table(counts: &str) -> String {
    format!("| Counts | Test |\n|---|---|\n| {counts} | `rust/tests/reading/random.rs` |\n")
}

/// Numbers of the table of tests are sums of the list's, and a test asks for each of these.
#[test]
fn wrong_counts_are_noticed() {
    let repository = Repository::here();
    let tested = |list: &str, counts: &str| with_numbers(&repository, list, &tests_table(counts));
    let files = "rust/tests/reading/random.rs, damaged_files, calls: 1000\n";
    let tables = "rust/tests/reading/random.rs, damaged_tables, calls: 234\n";
    let list = format!("# A comment\n\n{files}{tables}");
    let right = tests_table("1,234 calls, by hand");
    assert_eq!(tested(&list, "9 calls, by hand"), Ok(right));

    let fault = |list: &str, counts: &str| tested(list, counts).expect_err("a fault");
    assert!(fault(&list, "9 answers").contains("no test of the row counts this: 9 answers"));
    assert!(fault(&list, "about 9 calls").contains("does not begin its entry: about 9 calls"));
    for (wrong, words) in [
        (files, "twice"),
        ("calls: 3\n", "has the line: calls: 3"),
        ("reading, damaged_files, calls: many\n", "has the line"),
        (&files.replace("damaged", "whole"), "no test asks for"),
        (
            &files.replace("random.rs", "harness.rs"),
            "no test asks for",
        ),
        (
            "rust/tests/listing.rs, random_inputs, files: 3\n",
            "no row has the file",
        ),
    ] {
        let found = fault(&format!("{list}{wrong}"), "9 calls");
        assert!(found.contains(words), "{wrong}{found}");
    }
}

#[test]
fn wrong_markers_are_noticed() {
    let unknown = "<!-- registers: clocks -->\n<!-- end -->\n";
    assert_eq!(fault(unknown), "no register is called clocks");
    let open = "<!-- registers: crates -->\n";
    assert_eq!(fault(open), "crates has no end marker");
    let twice = "<!-- registers: crates -->\n<!-- registers: counts -->\n<!-- end -->\n";
    assert_eq!(fault(twice), "counts begins before crates has ended");
    assert_eq!(fault("<!-- end -->\n"), "an end marker ends no register");
}

//! What the tests count, compared with the numbers that `tests/data/counts.txt` has of each test.

use std::fs;
use std::path::Path;

/// The list of all counts, from the folder of this package.
const LIST: &str = "tests/data/counts.txt";

/// What a test counts, and how often it came.
pub type Counts = Vec<(String, u64)>;

/// Counts of what has a name that is known before.
pub fn named<const N: usize>(counts: [(&str, u64); N]) -> Counts {
    counts
        .map(|(what, number)| (what.to_string(), number))
        .to_vec()
}

/// Counts of what has these names, in their order.
pub fn by_name<const N: usize>(names: [&str; N], numbers: [u64; N]) -> Counts {
    let names = names.map(str::to_string);
    names.into_iter().zip(numbers).collect()
}

/// Counts what is so, in the order of the names.
pub fn note<const N: usize>(numbers: &mut [u64; N], are_so: [bool; N]) {
    for (number, is_so) in numbers.iter_mut().zip(are_so) {
        *number += u64::from(is_so);
    }
}

/// Fails unless the list has exactly these counts of a test. What never came has no line. The
/// file is that of the test, as `file!()` gives it.
pub fn assert_counts(file: &str, test: &str, counts: &Counts) {
    let path = Path::new(env!("CARGO_MANIFEST_DIR")).join(LIST);
    let list = fs::read_to_string(&path).unwrap_or_else(|error| panic!("{LIST}: {error}"));
    let changes = changes(&list, &format!("rust/{file}, {test}, "), counts);
    assert!(
        changes.is_empty(),
        "the test does not count what rust/{LIST} says:\n{changes}"
    );
}

/// What has to be changed in a list, so that these are its lines that begin so.
fn changes(list: &str, begins: &str, counts: &Counts) -> String {
    let listed = list.lines().filter(|line| line.starts_with(begins));
    let listed: Vec<String> = listed.map(str::to_string).collect();
    let counted: Vec<String> = counts
        .iter()
        .filter(|(_, number)| *number > 0)
        .map(|(what, number)| format!("{begins}{what}: {number}"))
        .collect();
    let take_out = listed.iter().filter(|line| !counted.contains(line));
    let put_in = counted.iter().filter(|line| !listed.contains(line));
    take_out
        .map(|line| format!("take out: {line}\n"))
        .chain(put_in.map(|line| format!("put in:   {line}\n")))
        .collect()
}

#[cfg(test)]
mod tests {
    use super::{changes, named};

    const LIST: &str = "a.rs, one, calls: 3\na.rs, one, files: 2\na.rs, two, calls: 5\n";

    #[test]
    fn the_same_counts() {
        let counts = named([("files", 2), ("calls", 3), ("tables", 0)]);
        assert_eq!(changes(LIST, "a.rs, one, ", &counts), "");
    }

    #[test]
    fn other_counts() {
        let counts = named([("calls", 4), ("files", 0), ("tables", 1)]);
        let lines = "take out: a.rs, one, calls: 3\ntake out: a.rs, one, files: 2\n\
                     put in:   a.rs, one, calls: 4\nput in:   a.rs, one, tables: 1\n";
        assert_eq!(changes(LIST, "a.rs, one, ", &counts), lines);
    }
}

//! Instructions of calls, counted by callgrind in one run of this program on itself.

use std::collections::HashMap;
use std::env;
use std::fs;
use std::path::PathBuf;
use std::process::{self, Command};

use gurvoke::executive::Executive;

use crate::trial::{Operation, Trial};

/// The function whose instructions are counted, as callgrind knows it.
const COUNTED: &str = "counted_call";

/// Makes a call that is counted. It must be accepted.
pub fn count(trial: &mut Trial, executive: &Executive, operation: Operation) {
    trial.prepare(operation);
    let accepted = counted_call(trial, executive, operation);
    assert!(accepted, "{} {}", executive.name, operation.name());
}

/// Callgrind begins to count where this begins, and writes a file where it ends. So it needs a name
/// that the compiler does not change, and must not vanish into its caller.
#[no_mangle]
#[inline(never)]
fn counted_call(trial: &mut Trial, executive: &Executive, operation: Operation) -> bool {
    trial.call(executive, operation)
}

/// The instructions of a function in one counted call, those of its callees not included.
#[derive(Clone)]
pub struct FunctionCost {
    pub name: String,
    pub instructions: u64,
}

/// What callgrind wrote: a file for each counted call.
pub struct Counts {
    folder: PathBuf,
}

impl Counts {
    /// Runs this program with this argument under callgrind.
    pub fn of_run(argument: &str) -> Counts {
        let folder = env::temp_dir().join(format!("gurvoke-performance-{}", process::id()));
        fs::create_dir_all(&folder).expect("a folder for what callgrind writes");
        let counts = Counts { folder };
        let files = counts.folder.join("calls");
        let output = Command::new("valgrind")
            .arg("--tool=callgrind")
            .arg(format!("--toggle-collect={COUNTED}"))
            .arg(format!("--dump-after={COUNTED}"))
            .arg(format!("--callgrind-out-file={}", files.display()))
            .arg(env::current_exe().expect("the path of this program"))
            .arg(argument)
            .output()
            .expect("valgrind runs");
        let report = String::from_utf8_lossy(&output.stderr);
        assert!(output.status.success(), "callgrind failed: {report}");
        counts
    }

    /// The functions of the counted call with this number, from 1, the dearest first.
    pub fn by_function(&self, call: usize) -> Vec<FunctionCost> {
        let file = self.folder.join(format!("calls.{call}"));
        let text = fs::read_to_string(file).expect("a file for each counted call");
        let mut functions = functions_of(&text);
        functions.sort_by_key(|function| std::cmp::Reverse(function.instructions));

        let summary = text.lines().find_map(|line| line.strip_prefix("summary: "));
        let total: u64 = functions.iter().map(|cost| cost.instructions).sum();
        assert_eq!(summary, Some(&total.to_string()[..]), "call {call}");
        functions
    }
}

impl Drop for Counts {
    fn drop(&mut self) {
        // If it stays, nothing is wrong: it is a temporary folder.
        _ = fs::remove_dir_all(&self.folder);
    }
}

/// The functions in a file that callgrind wrote. A function begins with a line "fn=(number) name",
/// the name left out when the number has had one; lines "place count" follow. What a callee took
/// stands in such a line too, after a line "calls=", and does not count here. (callgrind_annotate
/// reads the same files, but takes what follows "calls=0" for the caller's own.)
fn functions_of(text: &str) -> Vec<FunctionCost> {
    let mut names = HashMap::new();
    let mut costs: HashMap<&str, u64> = HashMap::new();
    let mut function = "";
    let mut of_callee = false;
    for line in text.lines() {
        if let Some(callee) = line.strip_prefix("cfn=") {
            name_of(callee, &mut names);
        } else if let Some(begins) = line.strip_prefix("fn=") {
            function = name_of(begins, &mut names);
        } else if line.starts_with("calls=") {
            of_callee = true;
        } else if let Some(count) = count_in(line) {
            if !of_callee {
                *costs.entry(function).or_default() += count;
            }
            of_callee = false;
        }
    }
    let costs = costs.into_iter();
    costs
        .map(|(name, instructions)| FunctionCost {
            name: name.to_string(),
            instructions,
        })
        .collect()
}

/// The name in "(number) name" or the one that the number had before. Callgrind marks the calls that
/// a function makes of itself with a quote and a digit; they are the same function.
fn name_of<'a>(reference: &'a str, names: &mut HashMap<&'a str, &'a str>) -> &'a str {
    let (number, name) = reference.split_once(' ').unwrap_or((reference, ""));
    if !name.is_empty() {
        names.insert(number, name.split('\'').next().unwrap_or(name));
    }
    names.get(number).copied().expect("a name for each number")
}

/// The count in a line "place count"; a place is a number, or how far it is from the last one.
fn count_in(line: &str) -> Option<u64> {
    let (place, count) = line.split_once(' ')?;
    let is_place = place.starts_with(|first: char| "+-*".contains(first) || first.is_ascii_digit());
    is_place.then(|| count.parse().ok()).flatten()
}

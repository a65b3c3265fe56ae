//! The macros of the C header, as a C compiler reads them.

use std::fs;
use std::path::Path;
use std::process::Command;

use gurvoke::programs::{free_path, TemporaryFile};

const INCLUDE: &str = concat!(env!("CARGO_MANIFEST_DIR"), "/../include");

/// The macros that the header defines without parameters, but for the one against including it
/// twice.
pub fn object_macros() -> Vec<String> {
    let header = fs::read_to_string(Path::new(INCLUDE).join("gurvoke.h")).expect("the header");
    let defined = header
        .lines()
        .filter_map(|line| line.strip_prefix("#define "));
    let names = defined.filter_map(|rest| rest.split_whitespace().next());
    names
        .filter(|name| !name.contains('(') && *name != "GURVOKE_H")
        .map(str::to_string)
        .collect()
}

/// The values of expressions over the header, by a C program that prints them.
pub fn evaluate(expressions: &[String]) -> Vec<u64> {
    let mut source =
        String::from("#include \"gurvoke.h\"\n#include <stdio.h>\nint main(void)\n{\n");
    for expression in expressions {
        source += &format!("    printf(\"%llu\\n\", (unsigned long long)({expression}));\n");
    }
    source += "    return 0;\n}\n";
    let output = run(&source);
    let values = output.lines().map(|line| line.parse().expect("a number"));
    values.collect()
}

/// Compiles a C program, runs it and gives what it prints.
fn run(source: &str) -> String {
    let file = TemporaryFile::holding(source.as_bytes());
    let program = free_path();
    let strict = "-std=c99 -Wall -Wextra -Wpedantic -Werror -x c";
    let compiled = Command::new("gcc")
        .args(strict.split(' '))
        .args(["-I", INCLUDE])
        .arg(file.path())
        .arg("-o")
        .arg(&program)
        .status()
        .expect("gcc runs");
    assert!(compiled.success(), "{source}");
    let output = Command::new(&program).output().expect("the program runs");
    // If it stays, nothing is wrong: it is a temporary file.
    _ = fs::remove_file(program);
    String::from_utf8(output.stdout).expect("the output is text")
}

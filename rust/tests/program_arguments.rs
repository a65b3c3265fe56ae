//! The arguments of `listing`, `assemble` and `rehearse`, and what the programs say where they cannot do what is asked.

use std::fs::{self, File, OpenOptions};
use std::path::Path;
use std::process::{Command, Stdio};
use std::{env, str};

use gurvoke::programs::{free_path, path_of, TemporaryFile};
use gurvoke::stations::{STATION_10, STATION_10_LISTING};

const LISTING_USAGE: &str = "usage: listing [PROGRAM]\n";
const ASSEMBLE_USAGE: &str = "usage: assemble [TEXT]\n";
const REHEARSE_USAGE: &str = "usage: rehearse PROGRAM [parts]\n";
const LONG_NAME: &str = "the file name has more than 4095 bytes\n";
const OUTPUT_LOST: &str = "standard output: No space left on device\n";

/// The longest path that Linux takes: the byte 0 after it would be byte 4096.
const MAX_PATH: usize = 4095;

/// What a rehearsal of station 10 without a call prints: the program has one variable and one clock.
const STATION_10_UNBEGUN: &str = "\
phase 0
last time 0
estimate 00
clock 0 -
finishing cycle -
";

/// A program, with arguments and with nothing on standard input.
fn program(name: &str, arguments: &[&str]) -> Command {
    let mut command = Command::new(path_of(name));
    command.args(arguments).stdin(Stdio::null());
    command
}

/// Expects these texts on standard output and on standard error.
fn assert_texts(command: &mut Command, output: &str, error: &str) {
    let texts = command.output().expect("the program starts");
    let said = str::from_utf8(&texts.stderr).expect("text on standard error");
    assert_eq!(said, error, "standard error, {command:?}");
    let printed = str::from_utf8(&texts.stdout).expect("text on standard output");
    assert_eq!(printed, output, "standard output, {command:?}");
}

fn text_of(path: &Path) -> &str {
    path.to_str().expect("a path of text")
}

/// The name of this file in so many bytes: slashes between the folder and the file do not change what it names.
fn name_of_length(path: &Path, length: usize) -> String {
    let folder = text_of(path.parent().expect("a folder"));
    let file = text_of(Path::new(path.file_name().expect("a name")));
    let slashes = "/".repeat(length - folder.len() - file.len());
    let name = format!("{folder}{slashes}{file}");
    assert_eq!(name.len(), length);
    name
}

#[test]
fn listing_of_a_named_file() {
    let file = TemporaryFile::holding(&STATION_10);
    assert_texts(
        &mut program("listing", &[text_of(file.path())]),
        STATION_10_LISTING,
        "",
    );
    fs::write(file.path(), [0x01, 0x01, 0x00, 0x01]).expect("a file can be written");
    assert_texts(&mut program("listing", &[text_of(file.path())]), "3\n", "");
    fs::write(file.path(), [0; 100_000]).expect("a file can be written");
    assert_texts(&mut program("listing", &[text_of(file.path())]), "2\n", "");
}

/// With a file name standard input is not read, and without one it is.
#[test]
fn named_file_and_standard_input() {
    let named = TemporaryFile::holding(&STATION_10);
    let given = TemporaryFile::holding(&[0x00, 0x01, 0x00]);
    let input = || File::open(given.path()).expect("a file can be opened");
    let mut with_name = program("listing", &[text_of(named.path())]);
    assert_texts(with_name.stdin(input()), STATION_10_LISTING, "");
    let mut without = program("listing", &[]);
    assert_texts(without.stdin(input()), "2\n", "");
}

#[test]
fn standard_input_that_cannot_be_read() {
    let file = TemporaryFile::holding(&STATION_10);
    let folder = || File::open(env::temp_dir()).expect("a folder can be opened");
    let error = "standard input: Is a directory\n";
    for name in ["listing", "assemble"] {
        assert_texts(program(name, &[]).stdin(folder()), "", error);
    }
    assert_texts(
        program("rehearse", &[text_of(file.path())]).stdin(folder()),
        "",
        error,
    );
}

#[test]
fn files_that_cannot_be_read() {
    let folder = env::temp_dir();
    let missing = free_path();
    let empty = TemporaryFile::holding(&[]);
    let below_a_file = empty.path().join("file");
    let cases = [
        (folder.as_path(), "Is a directory"),
        (missing.as_path(), "No such file or directory"),
        (below_a_file.as_path(), "Not a directory"),
    ];
    for (path, why) in cases {
        let name = text_of(path);
        let error = format!("{name}: {why}\n");
        for program_name in ["listing", "assemble", "rehearse"] {
            assert_texts(&mut program(program_name, &[name]), "", &error);
        }
        assert_texts(&mut program("rehearse", &[name, "parts"]), "", &error);
    }
}

/// An output that takes no byte.
fn full_output() -> File {
    let mut options = OpenOptions::new();
    options
        .write(true)
        .open("/dev/full")
        .expect("a full output")
}

#[test]
fn standard_output_that_takes_nothing() {
    let file = TemporaryFile::holding(&STATION_10);
    let refused = TemporaryFile::holding(&[]);
    let names = [text_of(file.path()), text_of(refused.path()), "--help"];
    for name in names {
        for program_name in ["listing", "rehearse"] {
            let mut command = program(program_name, &[name]);
            assert_texts(command.stdout(full_output()), "", OUTPUT_LOST);
        }
    }
}

/// Likewise a program file that cannot be written.
#[test]
fn assembled_file_that_is_not_taken() {
    let text = TemporaryFile::holding(b"1 0: v0=1");
    let mut command = program("assemble", &[text_of(text.path())]);
    assert_texts(command.stdout(full_output()), "", OUTPUT_LOST);
}

#[test]
fn help() {
    for (name, usage, word) in [
        ("listing", LISTING_USAGE, "standard input"),
        ("assemble", ASSEMBLE_USAGE, "standard input"),
        ("rehearse", REHEARSE_USAGE, "settle HEX"),
    ] {
        let output = program(name, &["--help"])
            .output()
            .expect("the program starts");
        let text = String::from_utf8(output.stdout).expect("text");
        assert!(
            text.starts_with(usage) && text.contains(word) && text.ends_with(".\n"),
            "{text}"
        );
        assert!(text.lines().all(|line| line.len() <= 120), "{text}");
        assert_eq!(output.stderr, b"", "{name}");
        assert_texts(&mut program(name, &["--help", "parts"]), &text, "");
    }
}

#[test]
fn wrong_arguments() {
    let file = TemporaryFile::holding(&STATION_10);
    let name = text_of(file.path());
    let long = "p".repeat(MAX_PATH + 1);
    let one_file: [&[&str]; 5] = [
        &[""],
        &[name, ""],
        &[name, name],
        &[name, "--help"],
        &[&long, name],
    ];
    for arguments in one_file {
        assert_texts(&mut program("listing", arguments), "", LISTING_USAGE);
        assert_texts(&mut program("assemble", arguments), "", ASSEMBLE_USAGE);
    }
    let rehearse: [&[&str]; 8] = [
        &[],
        &[""],
        &["", "parts"],
        &[name, ""],
        &[name, "part"],
        &[name, "partss"],
        &[name, "--help"],
        &[name, "parts", "parts"],
    ];
    for arguments in rehearse {
        assert_texts(&mut program("rehearse", arguments), "", REHEARSE_USAGE);
    }
    assert_texts(&mut program("rehearse", &[name, &long]), "", REHEARSE_USAGE);
    assert_texts(
        &mut program("rehearse", &[&long, "part"]),
        "",
        REHEARSE_USAGE,
    );
}

/// The longest path, and one byte more.
#[test]
fn longest_file_name() {
    let file = TemporaryFile::holding(&STATION_10);
    let longest = name_of_length(file.path(), MAX_PATH);
    assert_texts(&mut program("listing", &[&longest]), STATION_10_LISTING, "");
    assert_texts(
        &mut program("rehearse", &[&longest]),
        STATION_10_UNBEGUN,
        "",
    );
    for length in [MAX_PATH + 1, MAX_PATH + 2, 2 * MAX_PATH, 100_000] {
        let name = name_of_length(file.path(), length);
        for program_name in ["listing", "assemble", "rehearse"] {
            assert_texts(&mut program(program_name, &[&name]), "", LONG_NAME);
        }
        assert_texts(&mut program("rehearse", &[&name, "parts"]), "", LONG_NAME);
    }
}

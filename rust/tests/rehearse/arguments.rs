//! Programs that are refused, and arguments that name no program.

use std::ffi::OsStr;

use gurvoke::builder::{file, goal, par};
use gurvoke::cases::any_program;
use gurvoke::counts::assert_counts;
use gurvoke::damage::{damaged_file, random_file};
use gurvoke::examples;
use gurvoke::programs::{free_path, TemporaryFile};
use gurvoke::refusals::{FILE_TOO_SHORT, SIZE_OUT_OF_RANGE, WRONG_LENGTH};
use gurvoke::rehearsal::Rehearsal;
use gurvoke::rng::Rng;
use gurvoke::scripts::script;
use gurvoke::sizes::{MAX_FILE_LEN, MAX_PARTS};
use gurvoke::stations::STATION_1;
use gurvoke::unfolding::Program;

use crate::harness::{arguments, assert_both, assert_same, Tally, REHEARSE};

const CALLS: &[u8] = b"begin 00\noffer 7\nsettle 01\n";

/// Expects that a rehearsal of this file prints its refusal and no more, with the marked parts and
/// without.
fn assert_refused(file: &[u8], refusal: u32) {
    for with_parts in [false, true] {
        let rehearsal = Rehearsal {
            file: file.to_vec(),
            calls: CALLS.to_vec(),
            with_parts,
        };
        assert_both(&rehearsal, &format!("refused {refusal}\n"));
    }
}

#[test]
fn refused_programs() {
    for (refusal, file) in examples::files() {
        assert_refused(&file, refusal);
    }
    assert_refused(&[0x01, 0x01], FILE_TOO_SHORT);
}

/// All of the file counts, however long it is.
#[test]
fn files_longer_than_any_program() {
    let mut file = STATION_1.to_vec();
    file.push(0);
    assert_refused(&file, WRONG_LENGTH);
    file.resize(100_000, 0);
    assert_refused(&file, WRONG_LENGTH);
    assert_refused(&[0; 100_000], SIZE_OUT_OF_RANGE);
}

/// The longest file there is, and the same with one byte more.
#[test]
fn longest_file() {
    let goals = vec![goal(0, 1); MAX_PARTS - 1];
    let mut file = file(1, 0, &par(goals));
    assert_eq!(file.len(), MAX_FILE_LEN);
    let rehearsal = Rehearsal {
        file: file.clone(),
        calls: CALLS.to_vec(),
        with_parts: false,
    };
    let text = include_str!("../data/rehearsals/longest_file.out");
    assert_both(&rehearsal, text);
    file.push(0);
    assert_refused(&file, WRONG_LENGTH);
}

/// Damaged and random files. Those that are accepted are rehearsed.
#[test]
fn random_programs() {
    let mut rng = Rng::new(620);
    let mut tally = Tally::default();
    for number in 0..210 {
        let draft = any_program(&mut rng);
        let file = match number % 3 {
            0 => random_file(&mut rng),
            _ => damaged_file(&mut rng, &draft),
        };
        let calls = match Program::read(&file) {
            Ok(program) => script(&mut rng, &program, 20),
            Err(_) => CALLS.to_vec(),
        };
        tally.check(&Rehearsal {
            file,
            calls,
            with_parts: rng.one_in(2),
        });
    }
    assert_counts(file!(), "random_programs", &tally.counts());
}

/// Expects that the program ends and prints nothing.
fn assert_nothing(arguments: &[&OsStr]) {
    assert_eq!(REHEARSE.run(arguments, CALLS), "", "{arguments:?}");
    assert_eq!(REHEARSE.run(arguments, b""), "", "{arguments:?}");
}

#[test]
fn no_program_named() {
    assert_nothing(&[]);
}

#[test]
fn missing_file() {
    let path = free_path();
    assert!(!path.exists());
    assert_nothing(&[path.as_os_str()]);
    assert_nothing(&[path.as_os_str(), OsStr::new("parts")]);
    assert_nothing(&[OsStr::new("")]);
}

#[test]
fn second_argument_that_is_not_parts() {
    let file = TemporaryFile::holding(&STATION_1);
    let long = "parts".repeat(1000);
    let words = [
        "", "p", "part", "partss", "parts ", " parts", "PARTS", "Parts", "marks", "parts000", &long,
    ];
    for word in words {
        assert_nothing(&[file.path().as_os_str(), OsStr::new(word)]);
    }
}

#[test]
fn arguments_after_the_last() {
    let file = TemporaryFile::holding(&STATION_1);
    let path = file.path().as_os_str();
    for word in ["parts", ""] {
        assert_nothing(&[path, OsStr::new("parts"), OsStr::new(word)]);
        assert_nothing(&[path, OsStr::new(word), OsStr::new(""), OsStr::new("parts")]);
    }
}

/// A path may be as long as the system lets it be.
#[test]
fn long_path() {
    let rehearsal = Rehearsal {
        file: STATION_1.to_vec(),
        calls: CALLS.to_vec(),
        with_parts: true,
    };
    let file = TemporaryFile::holding(&rehearsal.file);
    let folder = file.path().parent().expect("a folder");
    let name = file.path().file_name().expect("a name");
    for steps in [1, 100, 1000, 1900] {
        let path = folder.join("./".repeat(steps)).join(name);
        let text = REHEARSE.run(&arguments(&rehearsal, &path), CALLS);
        assert_same("program", &text, &rehearsal.transcript(), &rehearsal);
    }
}

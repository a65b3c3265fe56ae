//! The listing program, run on the paper's examples and on random files.

use std::thread::sleep;
use std::time::Duration;

use gurvoke::cases::{any_program, program, Shape};
use gurvoke::counts::{assert_counts, named};
use gurvoke::damage::{damaged_file, random_file};
use gurvoke::examples;
use gurvoke::hex::hex;
use gurvoke::model;
use gurvoke::parts::{AT_LEAST, SEQ, WAIT};
use gurvoke::programs::{feed, Program, NO_ARGUMENTS};
use gurvoke::refusals::{SIZE_OUT_OF_RANGE, WRONG_LENGTH};
use gurvoke::rng::Rng;
use gurvoke::sizes::{MAX_DEPTH, MAX_FILE_LEN, MAX_PARTS};
use gurvoke::stations::{repeats_above_goal, STATION_10, STATION_10_LISTING};

const LISTING: Program = Program::named("listing");

fn listing(file: &[u8]) -> String {
    LISTING.run(NO_ARGUMENTS, file)
}

/// Expects this text from the program and from the model.
fn assert_listing(file: &[u8], text: &str) {
    assert_eq!(model::listing(file), text, "model, {}", hex(file));
    assert_eq!(listing(file), text, "program, {}", hex(file));
}

/// Expects the same text from the program as from the model.
fn assert_as_model(file: &[u8]) {
    assert_listing(file, &model::listing(file));
}

/// Expects this refusal from the program and from the model.
fn assert_refused(file: &[u8], refusal: u32) {
    assert_listing(file, &format!("{refusal}\n"));
}

#[test]
fn refusals() {
    for (refusal, file) in examples::files() {
        assert_refused(&file, refusal);
    }
}

#[test]
fn station_9() {
    let text = include_str!("data/listings/station_9.out");
    assert_listing(&repeats_above_goal(15), text);
}

#[test]
fn station_10() {
    assert_listing(&STATION_10, STATION_10_LISTING);
}

/// The input may come in pieces.
#[test]
fn slow_input() {
    let text = LISTING.run_fed(NO_ARGUMENTS, |child| {
        for byte in STATION_10 {
            feed(child, &[byte]);
            sleep(Duration::from_millis(5));
        }
    });
    assert_eq!(text, STATION_10_LISTING);
}

/// A SEQ of 199 WAITs, with numbers that are as long as they can be.
#[test]
fn longest_lines() {
    let mut file = vec![200, 32, 16, SEQ];
    file.extend([WAIT; 199]);
    file.extend([199, 0, 0, 0]);
    file.extend([AT_LEAST, 15, 255, 255].repeat(199));

    let mut text = String::from("200 32 16\n0 4 200 255 255 199 0 0 0\n");
    for part in 1..=198 {
        text += &format!("{part} 3 {} 0 {} 3 15 255 255\n", part + 1, part + 1);
    }
    text += "199 3 200 0 255 3 15 255 255\n";
    assert_listing(&file, &text);
}

#[test]
fn largest_programs() {
    let mut rng = Rng::new(200);
    for shape in [Shape::Deep, Shape::Wide, Shape::Mixed] {
        let file = program(&mut rng, MAX_PARTS, MAX_DEPTH, shape).file();
        assert_eq!(model::listing(&file).lines().count(), MAX_PARTS + 1);
        assert_as_model(&file);
    }
}

/// All of the input counts, however long it is.
#[test]
fn input_longer_than_any_file() {
    let mut rng = Rng::new(201);
    let mut file = program(&mut rng, MAX_PARTS, MAX_DEPTH, Shape::Mixed).file();
    assert_eq!(file.len(), MAX_FILE_LEN);
    file.push(0);
    assert_refused(&file, WRONG_LENGTH);
    file.resize(100_000, 0);
    assert_refused(&file, WRONG_LENGTH);
    assert_refused(&[0; 100_000], SIZE_OUT_OF_RANGE);

    let mut short = STATION_10.to_vec();
    short.resize(100_000, 0);
    assert_refused(&short, WRONG_LENGTH);
}

#[test]
fn random_inputs() {
    let mut rng = Rng::new(202);
    let mut seen = 0;
    let mut accepted = 0;
    for number in 0..210 {
        let draft = any_program(&mut rng);
        let file = match number % 3 {
            0 => draft.file(),
            1 => damaged_file(&mut rng, &draft),
            _ => random_file(&mut rng),
        };
        seen += 1;
        accepted += u64::from(model::read(&file).is_ok());
        assert_as_model(&file);
    }
    let counts = named([
        ("random files", seen),
        ("random files that are accepted", accepted),
    ]);
    assert_counts(file!(), "random_inputs", &counts);
}

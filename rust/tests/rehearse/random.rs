//! Random programs with random lists of calls, whole and damaged.

use gurvoke::cases::Shape;
use gurvoke::counts::assert_counts;
use gurvoke::rehearsal::Rehearsal;
use gurvoke::rng::Rng;
use gurvoke::runs;
use gurvoke::scripts::{damaged, script};
use gurvoke::sizes::{MAX_DEPTH, MAX_PARTS};
use gurvoke::stations::STATION_8;
use gurvoke::unfolding::Program;

use crate::harness::Tally;

/// A rehearsal of this program with a random list of so many calls.
fn rehearsal(rng: &mut Rng, file: Vec<u8>, calls: usize) -> Rehearsal {
    let program = Program::read(&file).expect("a valid program");
    Rehearsal {
        calls: script(rng, &program, calls),
        with_parts: rng.one_in(2),
        file,
    }
}

/// Rehearses so many programs, each with up to 500 calls.
fn check_scripts(seed: u64, count: usize, program: impl Fn(&mut Rng) -> Vec<u8>) -> Tally {
    let mut rng = Rng::new(seed);
    let mut tally = Tally::default();
    for _ in 0..count {
        let calls = rng.between(0, 500);
        let file = program(&mut rng);
        tally.check(&rehearsal(&mut rng, file, calls));
    }
    assert_eq!(tally.count("phase"), count as u64, "each has its summary");
    tally
}

/// Programs of any size and shape.
#[test]
fn any_programs() {
    let tally = check_scripts(600, 800, runs::program);
    assert_counts(file!(), "any_programs", &tally.counts());
}

/// Programs in which conditions break just as clocks come due.
#[test]
fn doubtful_programs() {
    let tally = check_scripts(601, 300, runs::doubtful_program);
    assert_counts(file!(), "doubtful_programs", &tally.counts());
}

/// Programs in which several variables are often contested at once.
#[test]
fn contending_programs() {
    let tally = check_scripts(607, 200, runs::contending_program);
    assert_counts(file!(), "contending_programs", &tally.counts());
}

/// Programs in which started clocks are often started again.
#[test]
fn restarting_programs() {
    let tally = check_scripts(608, 200, runs::restarting_program);
    assert_counts(file!(), "restarting_programs", &tally.counts());
}

/// Programs made for sensors that fall silent and come back.
#[test]
fn silent_programs() {
    let tally = check_scripts(609, 200, runs::silent_program);
    assert_counts(file!(), "silent_programs", &tally.counts());
}

/// Small programs, which finish often.
#[test]
fn small_programs() {
    let tally = check_scripts(602, 300, |rng| {
        let parts = rng.between(1, 6);
        let depth = rng.between(2, 4);
        runs::program_of(rng, parts, depth, Shape::Mixed)
    });
    assert_counts(file!(), "small_programs", &tally.counts());
}

/// As many parts as allowed, deep and wide.
#[test]
fn largest_programs() {
    let tally = check_scripts(603, 100, |rng| {
        let shape = rng.pick(&[Shape::Deep, Shape::Wide, Shape::Mixed]);
        let parts = rng.between(MAX_PARTS - 1, MAX_PARTS);
        runs::program_of(rng, parts, MAX_DEPTH, shape)
    });
    assert_counts(file!(), "largest_programs", &tally.counts());
}

/// One byte of a list changed, inserted or removed.
#[test]
fn damaged_scripts() {
    let mut rng = Rng::new(604);
    let mut tally = Tally::default();
    for _ in 0..600 {
        let calls = rng.between(1, 60);
        let file = runs::program(&mut rng);
        let whole = rehearsal(&mut rng, file, calls);
        let calls = damaged(&mut rng, &whole.calls);
        tally.check(&Rehearsal { calls, ..whole });
    }
    assert_counts(file!(), "damaged_scripts", &tally.counts());
    // Some damage makes no call, some makes another one or none at all.
    assert_eq!(tally.count("not a call") + tally.count("phase"), 600);
}

/// A small list with each byte removed, and with each of some bytes put before it and in its place.
#[test]
fn every_place_damaged() {
    let whole = Rehearsal {
        file: STATION_8.to_vec(),
        calls: b"begin 0f\noffer 9 1\nsettle fF\n#\noffer 19\nsettle FA".to_vec(),
        with_parts: true,
    };
    let mut tally = Tally::default();
    for place in 0..whole.calls.len() {
        let (front, back) = whole.calls.split_at(place);
        tally.check(&with_calls(&whole, [front, &back[1..]]));
        for byte in *b" \n1a#\xFF" {
            let longer = [front, &[byte]].concat();
            tally.check(&with_calls(&whole, [&longer, back]));
            tally.check(&with_calls(&whole, [&longer, &back[1..]]));
        }
    }
    assert_counts(file!(), "every_place_damaged", &tally.counts());
    assert_eq!(tally.rehearsals, 13 * whole.calls.len() as u64);
}

fn with_calls(whole: &Rehearsal, calls: [&[u8]; 2]) -> Rehearsal {
    let calls = calls.concat();
    Rehearsal {
        calls,
        ..whole.clone()
    }
}

//! Bytes of allowed records changed: what the executives say to each, and what the unfolding says.

use gurvoke::cases::Shape;
use gurvoke::counts::{assert_counts, named, Counts};
use gurvoke::executive::{Executive, ALL};
use gurvoke::hex::hex;
use gurvoke::record::{ESTIMATE, MARKS, RECORD_LEN};
use gurvoke::rng::Rng;
use gurvoke::runs;
use gurvoke::sizes::{MAX_DEPTH, MAX_PARTS, MAX_VARIABLES, UNKNOWN_VALUE};
use gurvoke::states;
use gurvoke::unfolding::Program;

use super::{check_record, program_file, reached};
use crate::tally::of_all_executives;

/// Every byte of records of runs changed: the marks to a few values, all before them to every one.
#[test]
fn every_byte_changed() {
    let file = program_file();
    let program = Program::read(&file).expect("a valid program");
    let every: Vec<u8> = (0..=255).collect();
    let marks: &[u8] = &[0, 1, 2, 3, 255];
    let mut rng = Rng::new(603);
    for &executive in ALL {
        let mut changed = 0;
        let mut allowed = 0;
        for right in reached(&program) {
            for place in 0..RECORD_LEN {
                let values = if place >= MARKS { marks } else { &every };
                for &value in values {
                    let mut record = right.clone();
                    record[place] = value;
                    let calls = check_record(&mut rng, executive, &file, &program, &record);
                    changed += 1;
                    allowed += u64::from(calls.is_some());
                }
            }
        }
        let bytes = MARKS * every.len() + MAX_PARTS * marks.len();
        assert_eq!(changed, 4 * bytes as u64);
        let counts = named([
            ("changed records", changed),
            ("changed records that are allowed", allowed),
        ]);
        assert_counts(file!(), "every_byte_changed", &counts);
    }
}

/// Any states at all, as records, for programs of any size; and the same with a few bytes changed.
#[test]
fn any_allowed_records() {
    let share = |(place, &executive): (usize, &&'static Executive)| {
        check_allowed_records(executive, if place == 0 { 40_000 } else { 4000 })
    };
    let counts: Vec<Counts> = ALL.iter().enumerate().map(share).collect();
    assert_counts(file!(), "any_allowed_records", &of_all_executives(&counts));
}

/// So many of these records on one executive, and what was counted.
fn check_allowed_records(executive: &'static Executive, count: u64) -> Counts {
    let mut rng = Rng::new(604);
    let mut unknown = 0;
    let mut accepted = 0;
    let mut broken = 0;
    for _ in 0..count {
        let file = runs::program(&mut rng);
        let program = Program::read(&file).expect("a valid program");
        let state = runs::any_state(&mut rng, &program);
        unknown += u64::from(state.estimate.contains(&UNKNOWN_VALUE));
        let mut record = state.record();
        let read = states::read(&program, &record);
        let same = read.is_some_and(|read| read.record() == record);
        assert!(same, "{}: {}", hex(&file), hex(&record));
        let calls = check_record(&mut rng, executive, &file, &program, &record);
        accepted += calls.expect("an allowed record") as u64;

        damage_record(&mut rng, &mut record, &program);
        let calls = check_record(&mut rng, executive, &file, &program, &record);
        broken += u64::from(calls.is_none());
    }
    named([
        ("allowed records", count),
        ("allowed records with an unknown variable", unknown),
        ("calls accepted", accepted),
        ("records that a change breaks", broken),
    ])
}

/// Changes one or two bytes, mostly marks of the program's own parts, or an estimate's byte.
fn damage_record(rng: &mut Rng, record: &mut [u8], program: &Program) {
    for _ in 0..rng.between(1, 2) {
        let part = MARKS + rng.below(program.sizes.parts);
        let variable = ESTIMATE + rng.below(MAX_VARIABLES);
        let any = rng.below(RECORD_LEN);
        let place = rng.pick(&[part, part, part, variable, any]);
        record[place] = match rng.below(4) {
            0 => record[place].wrapping_add(1),
            _ => record[place] ^ 1,
        };
    }
}

/// Records of the largest programs, each mark changed.
#[test]
fn every_mark_of_large_programs() {
    for &executive in ALL {
        let mut rng = Rng::new(605);
        let mut changed = 0;
        let mut refused = 0;
        for shape in [Shape::Deep, Shape::Wide, Shape::Mixed] {
            let file = runs::program_of(&mut rng, MAX_PARTS, MAX_DEPTH, shape);
            let program = Program::read(&file).expect("a valid program");
            let right = runs::any_state(&mut rng, &program).record();
            for part in 0..MAX_PARTS {
                let mut record = right.clone();
                record[MARKS + part] ^= 1;
                let calls = check_record(&mut rng, executive, &file, &program, &record);
                changed += 1;
                refused += u64::from(calls.is_none());
            }
        }
        let counts = named([
            ("records with one mark changed", changed),
            ("records with one mark changed that are refused", refused),
        ]);
        assert_counts(file!(), "every_mark_of_large_programs", &counts);
    }
}

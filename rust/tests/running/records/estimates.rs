//! Every byte at every place of a record's estimate, for the variables of the program and beyond them.

use gurvoke::builder::{file, goal};
use gurvoke::executive::ALL;
use gurvoke::record::{ESTIMATE, FINISHED, OFFERED, PHASE, STARTED, WAITING};
use gurvoke::rng::Rng;
use gurvoke::sizes::{MAX_VALUE, MAX_VARIABLES, UNKNOWN_VALUE};
use gurvoke::unfolding::{Program, Run};

use super::check_record;
use crate::harness::NO_VALUES;

/// Numbers of variables.
const VARIABLES: [usize; 5] = [1, 2, 7, MAX_VARIABLES - 1, MAX_VARIABLES];

/// Whether a record may hold this byte at this place: "entries beyond V, K and N are 0", "estimate
/// values are at most 250", "Records may hold 255 in the estimate".
fn may_stand(byte: u8, place: usize, variables: usize) -> bool {
    match byte {
        0 => true,
        1..=250 | 255 => place < variables,
        251..=254 => false,
    }
}

fn program_file(variables: usize) -> Vec<u8> {
    file(variables, 0, &goal(0, 1))
}

/// The records of a run of the program, one in each phase.
fn records(program: &Program) -> [Vec<u8>; 3] {
    let mut estimate = vec![0; program.sizes.variables];
    let mut run = Run::begin(program, &estimate).expect("an allowed estimate");
    let waiting = run.record();
    run.offer(9, program.sizes.variables).expect("an offer");
    let offered = run.record();
    estimate[0] = 1;
    run.settle(&estimate).expect("a settling");
    let records = [waiting, offered, run.record()];
    let phases = records.each_ref().map(|record| record[PHASE]);
    assert_eq!(phases, [WAITING, OFFERED, FINISHED]);
    records
}

/// Changes the estimate of the program's records, and expects of every executive that it takes them,
/// or gives 10 to each.
fn check_estimates(file: &[u8], change: impl Fn(&mut [u8]), is_allowed: bool) {
    let program = Program::read(file).expect("a valid program");
    let mut rng = Rng::new(607);
    for mut record in records(&program) {
        change(&mut record[ESTIMATE..STARTED]);
        for &executive in ALL {
            let calls = check_record(&mut rng, executive, file, &program, &record);
            let estimate = &record[ESTIMATE..STARTED];
            assert_eq!(calls.is_some(), is_allowed, "{estimate:?}");
        }
    }
}

#[test]
fn every_byte_at_every_place() {
    for variables in VARIABLES {
        let file = program_file(variables);
        for place in 0..MAX_VARIABLES {
            for byte in 0..=255 {
                let is_allowed = may_stand(byte, place, variables);
                check_estimates(&file, |estimate| estimate[place] = byte, is_allowed);
            }
        }
    }
}

/// All variables are unknown. Beside that a byte that is no value is refused all the same, and so is
/// every byte but 0 beyond the variables.
#[test]
fn among_unknown_variables() {
    for variables in VARIABLES {
        let file = program_file(variables);
        let unknown = |estimate: &mut [u8]| estimate[..variables].fill(UNKNOWN_VALUE);
        check_estimates(&file, unknown, true);
        for place in 0..MAX_VARIABLES {
            for byte in NO_VALUES.chain([0, 1, MAX_VALUE as u8, UNKNOWN_VALUE]) {
                let change = |estimate: &mut [u8]| {
                    unknown(estimate);
                    estimate[place] = byte;
                };
                check_estimates(&file, change, may_stand(byte, place, variables));
            }
        }
    }
}

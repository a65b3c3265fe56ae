//! Every byte at every place of an estimate that is handed in: 13 is given exactly from 251 to 254.

use gurvoke::answers::{ANSWERED, DONE, NO_VARIABLE, RUNNING};
use gurvoke::builder::{at_least, file, wait};
use gurvoke::executive::{Executive, ALL};
use gurvoke::record::{ESTIMATE, RECORD_LEN};
use gurvoke::refusals::{ESTIMATE_NOT_ALLOWED, RUN_FINISHED, WRONG_PHASE};
use gurvoke::runs::Call;
use gurvoke::sizes::MAX_VARIABLES;
use gurvoke::stations::STATION_1;

use super::UN;
use crate::harness::{step_through, table_of, NO_VALUES};

/// The paper's example of 13 is 251 (`FB`). Of what is above 250 only 255 has got a meaning.
#[test]
fn bytes_that_are_refused() {
    let refused: Vec<u8> = NO_VALUES.collect();
    assert_eq!(refused, [251, 252, 253, 254]);
}

/// The table of a program with so many variables that waits for a clock for ever, since nothing starts
/// it.
fn waiting_table(variables: usize) -> Vec<u8> {
    table_of(&file(variables, 1, &wait(at_least(0, 0))))
}

/// A record with bytes behind it.
type Record = [u8; RECORD_LEN + 3];

/// What it holds before a beginning.
const FILLING: Record = [0x5A; RECORD_LEN + 3];

fn begin(executive: &Executive, table: &[u8], estimate: &[u8]) -> (u32, Record) {
    let mut record = FILLING;
    let answer = (executive.begin)(table, estimate, &mut record);
    (answer, record)
}

/// Begins with this estimate, and settles with it: both are refused with 13 and write nothing, or both
/// are accepted and store it.
fn check(executive: &Executive, table: &[u8], estimate: &[u8], is_refused: bool) {
    let (begun, fresh) = begin(executive, table, estimate);
    let zeros = vec![0; estimate.len()];
    let (_, mut offered) = begin(executive, table, &zeros);
    let offer = (executive.offer)(table, &mut offered, 5, &mut [0; MAX_VARIABLES]);
    assert_eq!(offer, ANSWERED + u32::from(NO_VARIABLE));
    let mut settled = offered;
    let answer = (executive.settle)(table, &mut settled, estimate);

    let case = format!("{}: {estimate:?}", executive.name);
    if is_refused {
        let refused = ESTIMATE_NOT_ALLOWED;
        assert_eq!((begun, answer), (refused, refused), "{case}");
        assert_eq!(fresh, FILLING, "{case}");
        assert_eq!(settled, offered, "{case}");
        return;
    }
    assert_eq!((begun, answer), (DONE, RUNNING), "{case}");
    let mut stored = [0; MAX_VARIABLES];
    stored[..estimate.len()].copy_from_slice(estimate);
    for record in [fresh, settled] {
        assert_eq!(record[ESTIMATE..][..MAX_VARIABLES], stored, "{case}");
    }
}

#[test]
fn every_byte_at_every_place() {
    for variables in [1, 2, 7, MAX_VARIABLES - 1, MAX_VARIABLES] {
        let table = waiting_table(variables);
        for executive in ALL {
            for others in [0, UN] {
                for place in 0..variables {
                    for byte in 0..=255 {
                        let mut estimate = vec![others; variables];
                        estimate[place] = byte;
                        let is_refused = NO_VALUES.contains(&byte);
                        check(executive, &table, &estimate, is_refused);
                    }
                }
            }
        }
    }
}

/// An estimate is as long as there are variables, whatever it says of them.
#[test]
fn lengths_of_estimates() {
    for variables in [1, 2, MAX_VARIABLES] {
        let table = waiting_table(variables);
        for executive in ALL {
            for length in 0..=MAX_VARIABLES + 2 {
                let estimate = vec![UN; length];
                let (begun, _) = begin(executive, &table, &estimate);
                let accepted = begun == DONE;
                assert_eq!(accepted, length == variables, "{}", executive.name);
                assert!(accepted || begun == ESTIMATE_NOT_ALLOWED);
            }
        }
    }
}

/// In a run: 251 to 254 are refused and change nothing, and 14 and 11 come before 13.
#[test]
fn refused_settlings() {
    let settle = |estimate: &[u8]| Call::Settle {
        estimate: estimate.to_vec(),
    };
    step_through(&STATION_1, &[UN], |run| {
        run.refused(settle(&[UN]), WRONG_PHASE);
        run.offer(10, &[1]);
        for byte in NO_VALUES {
            run.refused(settle(&[byte]), ESTIMATE_NOT_ALLOWED);
        }
        run.refused(settle(&[UN, UN]), ESTIMATE_NOT_ALLOWED);
        assert_eq!(run.record()[ESTIMATE], UN);
        run.runs_on(&[UN]);
        for byte in NO_VALUES.chain([UN]) {
            run.refused(settle(&[byte]), WRONG_PHASE);
        }
        run.offer(10, &[1]);
        run.finishes(&[1]);
        for byte in NO_VALUES.chain([UN]) {
            run.refused(settle(&[byte]), RUN_FINISHED);
        }
        assert_eq!(run.record()[ESTIMATE], 1);
    });
}

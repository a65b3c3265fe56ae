//! Sensors that have nothing to say: over an unknown variable a condition is open, and a GOAL is not
//! reached. Every answer, goal byte, mark and start here is that of the papers' words.

mod doubtful;
mod estimates;
mod maintained;

use gurvoke::answers::{ANSWERED, CONTESTED, NO_GOAL, NO_VARIABLE};
use gurvoke::builder::{choice, differs, equals, file, goal, maintain, par, repeat, seq, wait};
use gurvoke::executive::ALL;
use gurvoke::parts::{Condition, Part};
use gurvoke::record::{ESTIMATE, STARTED};
use gurvoke::sizes::{MAX_VALUE, MAX_VARIABLES, UNKNOWN_VALUE};

use crate::harness::{assert_marks, step_through, table_of, SteppedRun};

/// An unknown variable, as an estimate's byte.
const UN: u8 = UNKNOWN_VALUE;
/// No goal, and contested, as goal bytes.
const NO: u8 = NO_GOAL;
const CO: u8 = CONTESTED;

/// Each condition of variable 0 with the value 1, a value that satisfies it, and one that violates it.
fn conditions() -> [(Condition, u8, u8); 2] {
    [(equals(0, 1), 1, 0), (differs(0, 1), 0, 1)]
}

/// Expects that the record's estimate says this of the first variables, and 0 of all others.
fn assert_estimate(run: &SteppedRun, estimate: &[u8]) {
    let mut bytes = [0; MAX_VARIABLES];
    bytes[..estimate.len()].copy_from_slice(estimate);
    let case = run.board.case();
    assert_eq!(run.record()[ESTIMATE..STARTED], bytes, "{case}");
}

/// It stays for as long as nothing is said, whatever was said before, and ends once it is satisfied.
#[test]
fn an_open_wait_stays() {
    for (condition, satisfying, violating) in conditions() {
        let file = file(1, 0, &wait(condition));
        for first in [UN, satisfying, violating] {
            step_through(&file, &[first], |run| {
                for said in [UN, UN, violating, UN] {
                    run.offer(0, &[NO]);
                    run.runs_on(&[said]);
                    assert_marks(run, [1]);
                }
                run.offer(0, &[NO]);
                run.finishes(&[satisfying]);
            });
        }
    }
}

/// Of a condition and its opposite one is satisfied where the variable is known, and none where not.
#[test]
fn opposite_waits_stay_both() {
    let root = par(vec![wait(equals(0, 1)), wait(differs(0, 1))]);
    step_through(&file(1, 0, &root), &[1], |run| {
        for (said, marks) in [(UN, [1, 1, 1]), (1, [1, 0, 1]), (UN, [1, 0, 1])] {
            run.offer(0, &[NO]);
            run.runs_on(&[said]);
            assert_marks(run, marks);
        }
        run.offer(0, &[NO]);
        run.finishes(&[0]);
    });
}

/// What was said before does not decide, and what is said afterwards does not decide anew.
#[test]
fn an_open_choice_takes_its_second_child() {
    for (condition, satisfying, violating) in conditions() {
        let file = file(2, 0, &choice(condition, goal(1, 1), goal(1, 2)));
        for first in [UN, satisfying, violating] {
            step_through(&file, &[first, 0], |run| {
                run.offer(0, &[NO, NO]);
                run.runs_on(&[UN, 0]);
                assert_marks(run, [1, 0, 1]);
                run.offer(0, &[NO, 2]);
                run.runs_on(&[satisfying, 0]);
                run.offer(0, &[NO, 2]);
                run.finishes(&[satisfying, 2]);
            });
        }
        step_through(&file, &[UN, 0], |run| {
            run.offer(0, &[NO, NO]);
            run.runs_on(&[satisfying, 0]);
            assert_marks(run, [1, 1, 0]);
            run.offer(0, &[NO, 1]);
            run.finishes(&[UN, 1]);
        });
    }
}

/// In each round it is decided by what is said then.
#[test]
fn a_choice_in_each_round() {
    let root = repeat(choice(equals(0, 1), goal(1, 1), goal(1, 2)));
    step_through(&file(2, 0, &root), &[UN, 0], |run| {
        for (said, taken) in [(UN, 2), (1, 1), (UN, 2), (0, 2), (1, 1)] {
            run.offer(0, &[NO, NO]);
            run.runs_on(&[said, 0]);
            run.offer(0, &[NO, taken]);
            run.runs_on(&[UN, taken]);
            assert_marks(run, [1, 1, 0, 0]);
        }
    });
}

/// Whatever the value is that it wants, and though the variable had it before.
#[test]
fn a_goal_on_an_unknown_variable_is_not_reached() {
    for value in [0, 1, MAX_VALUE] {
        let file = file(1, 0, &goal(0, value));
        let value = value as u8;
        for first in [UN, value] {
            step_through(&file, &[first], |run| {
                for _ in 0..3 {
                    run.offer(0, &[value]);
                    run.runs_on(&[UN]);
                    assert_marks(run, [1]);
                }
                run.offer(0, &[value]);
                run.finishes(&[value]);
            });
        }
    }
}

/// Each GOAL looks at its own variable alone.
#[test]
fn goals_of_two_variables() {
    let root = seq(vec![goal(0, 1), goal(1, 2)]);
    step_through(&file(2, 0, &root), &[0, 2], |run| {
        run.offer(0, &[1, NO]);
        run.runs_on(&[UN, 2]);
        assert_marks(run, [1, 1, 0]);
        run.offer(0, &[1, NO]);
        run.runs_on(&[1, UN]);
        assert_marks(run, [1, 0, 1]);
        run.offer(0, &[NO, 2]);
        run.runs_on(&[UN, UN]);
        assert_marks(run, [1, 0, 1]);
        run.offer(0, &[NO, 2]);
        run.finishes(&[UN, 2]);
    });
}

/// A run may begin with an unknown variable, and finish with one: the record has the byte.
#[test]
fn the_record_has_the_byte() {
    let root = par(vec![goal(0, 1), wait(equals(1, 1))]);
    step_through(&file(2, 0, &root), &[UN, 7], |run| {
        assert_estimate(run, &[UN, 7]);
        run.offer(0, &[1, NO]);
        assert_estimate(run, &[UN, 7]);
        run.runs_on(&[1, UN]);
        assert_estimate(run, &[1, UN]);
        run.offer(0, &[NO, NO]);
        assert_estimate(run, &[1, UN]);
        run.finishes(&[UN, 1]);
        assert_estimate(run, &[UN, 1]);
    });
}

/// The next offer reads the byte that a settling has stored, on any board that is given the record:
/// the MAINTAIN, which 1 would violate, is open.
#[test]
fn the_next_offer_reads_the_byte() {
    let file = file(2, 0, &maintain(equals(0, 0), goal(1, 1)));
    let table = table_of(&file);
    step_through(&file, &[0, 0], |run| {
        run.offer(5, &[NO, 1]);
        for (said, wanted) in [(UN, [NO, 1]), (1, [NO, NO])] {
            for executive in ALL {
                let mut record = run.record().to_vec();
                (executive.settle)(&table, &mut record, &[said, 0]);
                assert_eq!(record[ESTIMATE], said, "{}", executive.name);
                let mut goals = [0; 2];
                let answer = (executive.offer)(&table, &mut record, 6, &mut goals);
                let none = ANSWERED + u32::from(NO_VARIABLE);
                assert_eq!((answer, goals), (none, wanted), "{}", executive.name);
            }
        }
        run.runs_on(&[UN, 0]);
        run.offer(6, &[NO, 1]);
    });
}

/// A goal byte that says "no goal" says nothing of the variable, and an unknown variable nothing of
/// its goals: 0 is wanted while it is unknown, and 1 is unknown while nobody wants it. 2 is contested.
#[test]
fn no_goal_and_unknown_are_two_things() {
    let root = par(vec![goal(0, 1), wait(equals(1, 1)), goal(2, 1), goal(2, 2)]);
    step_through(&file(3, 0, &root), &[UN, UN, UN], |run| {
        run.offer_naming(2, 0, &[1, NO, CO]);
        run.runs_on(&[1, UN, UN]);
        assert_marks(run, [1, 0, 1, 1, 1]);
        // Now 0 is known, and nobody wants it either.
        run.offer_naming(2, 0, &[NO, NO, CO]);
        assert_estimate(run, &[1, UN, UN]);
        run.runs_on(&[UN, UN, 1]);
        assert_marks(run, [1, 0, 1, 0, 1]);
        run.offer(0, &[NO, NO, 2]);
        run.runs_on(&[UN, 1, UN]);
        assert_marks(run, [1, 0, 0, 0, 1]);
        run.offer(0, &[NO, NO, 2]);
        run.finishes(&[UN, UN, 2]);
    });
}

/// How many parts the program below has over each variable.
const PARTS_OF_ONE: usize = 5;

/// A GOAL of 1, a WAIT for 1, a WAIT for another value than 1, and a GOAL of 1 for as long as the
/// variable has another value than 2.
fn parts_over(variable: u8) -> [Part; 4] {
    [
        goal(variable, 1),
        wait(equals(variable, 1)),
        wait(differs(variable, 1)),
        maintain(differs(variable, 2), goal(variable, 1)),
    ]
}

/// The marks of the root and of all parts over 32 variables, where those over one have marks of their
/// own.
fn marks_but(variable: usize, own: [u8; PARTS_OF_ONE]) -> [u8; 1 + PARTS_OF_ONE * MAX_VARIABLES] {
    let mut marks = [1; 1 + PARTS_OF_ONE * MAX_VARIABLES];
    marks[1 + PARTS_OF_ONE * variable..][..PARTS_OF_ONE].copy_from_slice(&own);
    marks
}

/// All variables there can be are unknown: nothing ends, and all is wanted that was. Then one of them
/// comes back, each in its turn, and what is over the others stays as it is.
#[test]
fn all_variables_are_unknown() {
    let root = par((0..MAX_VARIABLES as u8).flat_map(parts_over).collect());
    let all_unknown = [UN; MAX_VARIABLES];
    for variable in 0..MAX_VARIABLES {
        let back = |value| {
            let mut estimate = all_unknown;
            estimate[variable] = value;
            estimate
        };
        step_through(&file(MAX_VARIABLES, 0, &root), &all_unknown, |run| {
            run.offer(0, &[1; MAX_VARIABLES]);
            run.runs_on(&all_unknown);
            assert_estimate(run, &all_unknown);
            assert_marks(run, marks_but(variable, [1, 1, 1, 1, 1]));
            run.offer(0, &[1; MAX_VARIABLES]);
            run.runs_on(&back(2));
            assert_marks(run, marks_but(variable, [1, 1, 0, 1, 1]));
            run.offer(0, &[1; MAX_VARIABLES]);
            assert_marks(run, marks_but(variable, [1, 1, 0, 1, 0]));
            run.runs_on(&back(1));
            assert_marks(run, marks_but(variable, [0, 0, 0, 0, 0]));
            assert_estimate(run, &back(1));
            let mut left = [1; MAX_VARIABLES];
            left[variable] = NO;
            run.offer(0, &left);
        });
    }
}

//! MAINTAINs whose variable is unknown: they go on, and are violated once it comes back so.

use gurvoke::builder::{below, differs, equals, file, goal, maintain, seq, start};
use gurvoke::parts::Part;

use super::{conditions, NO, UN};
use crate::harness::{assert_marks, assert_starts, step_through};

/// It goes on for as long as nothing is said, also from the beginning of the run on, and when the
/// sensor comes back with a value that satisfies it.
#[test]
fn an_open_maintain_goes_on() {
    for (condition, satisfying, _) in conditions() {
        let root = seq(vec![maintain(condition, goal(1, 1)), goal(1, 2)]);
        for first in [UN, satisfying] {
            step_through(&file(2, 0, &root), &[first, 0], |run| {
                for said in [UN, UN, satisfying, UN, UN] {
                    run.offer(0, &[NO, 1]);
                    assert_marks(run, [1, 1, 1, 0]);
                    run.runs_on(&[said, 0]);
                    assert_marks(run, [1, 1, 1, 0]);
                }
                // The GOAL inside it ends as ever, and the MAINTAIN with it.
                run.offer(0, &[NO, 1]);
                run.runs_on(&[UN, 1]);
                assert_marks(run, [1, 0, 0, 1]);
                run.offer(0, &[NO, 2]);
                run.finishes(&[UN, 2]);
            });
        }
    }
}

/// The sensor comes back with a value that violates it: the next offer drops what is inside, and the
/// settling after that ends it, whatever is said then.
#[test]
fn a_maintain_ends_when_the_sensor_comes_back_bad() {
    for (condition, satisfying, violating) in conditions() {
        let root = seq(vec![maintain(condition, goal(1, 1)), goal(1, 2)]);
        for said in [satisfying, violating, UN] {
            step_through(&file(2, 0, &root), &[UN, 0], |run| {
                run.offer(0, &[NO, 1]);
                run.runs_on(&[UN, 0]);
                run.offer(0, &[NO, 1]);
                run.runs_on(&[violating, 0]);
                assert_marks(run, [1, 1, 1, 0]);
                run.offer(0, &[NO, NO]);
                assert_marks(run, [1, 1, 0, 0]);
                run.runs_on(&[said, 0]);
                assert_marks(run, [1, 0, 0, 1]);
                run.offer(0, &[NO, 2]);
            });
        }
    }
}

/// The MAINTAIN's variable is the one that the GOAL inside it wants.
#[test]
fn a_goal_of_the_variable_itself() {
    let root = maintain(differs(0, 2), goal(0, 1));
    for (said, goals) in [(UN, 1), (0, 1), (2, NO)] {
        step_through(&file(1, 0, &root), &[UN], |run| {
            run.offer(0, &[1]);
            run.runs_on(&[said]);
            run.offer(0, &[goals]);
            run.finishes(&[1]);
        });
    }
}

/// A START inside it starts its clock, which it does not inside one that is violated.
#[test]
fn a_start_inside_an_open_maintain() {
    for (condition, _, violating) in conditions() {
        let file = file(1, 1, &maintain(condition, start(0)));
        for (first, started) in [(UN, Some(7)), (violating, None)] {
            step_through(&file, &[first], |run| {
                run.offer(7, &[NO]);
                run.finishes(&[UN]);
                assert_starts(run, &[started]);
            });
        }
    }
}

/// A MAINTAIN over variable 0, one over variable 1 inside it, a GOAL of variable 2 inside that, and
/// then another GOAL of variable 2.
fn nested() -> Vec<u8> {
    let inner = maintain(equals(1, 0), goal(2, 1));
    let outer = maintain(equals(0, 0), inner);
    file(3, 0, &seq(vec![outer, goal(2, 2)]))
}

#[test]
fn one_inside_the_other() {
    // What is said of 0 and 1, the goal of 2 then, and the marks after the offer.
    let offers = [
        ([UN, UN], 1, [1, 1, 1, 1, 0]),
        ([UN, 0], 1, [1, 1, 1, 1, 0]),
        ([0, UN], 1, [1, 1, 1, 1, 0]),
        ([UN, 1], NO, [1, 1, 1, 0, 0]),
        ([1, UN], NO, [1, 1, 0, 0, 0]),
        ([0, 1], NO, [1, 1, 1, 0, 0]),
    ];
    for (said, goal, marks) in offers {
        step_through(&nested(), &[said[0], said[1], 0], |run| {
            run.offer(0, &[NO, NO, goal]);
            assert_marks(run, marks);
            run.runs_on(&[UN, UN, 0]);
            let goes_on = goal == 1;
            let after = if goes_on { marks } else { [1, 0, 0, 0, 1] };
            assert_marks(run, after);
            run.offer(0, &[NO, NO, if goes_on { 1 } else { 2 }]);
        });
    }
}

/// A MAINTAIN over a clock around one over a variable.
fn in_time(inner: Part) -> Part {
    maintain(below(0, 5), maintain(differs(0, 2), inner))
}

/// The limit on a clock breaks while the variable is unknown.
#[test]
fn a_clock_breaks_in_the_silence() {
    let root = seq(vec![start(0), in_time(goal(1, 1))]);
    step_through(&file(2, 1, &root), &[UN, 0], |run| {
        run.offer(10, &[NO, NO]);
        run.runs_on(&[UN, 0]);
        run.offer(14, &[NO, 1]);
        run.runs_on(&[UN, 0]);
        assert_marks(run, [1, 0, 1, 1, 1]);
        run.offer(15, &[NO, NO]);
        assert_marks(run, [1, 0, 1, 0, 0]);
        run.finishes(&[UN, 0]);
    });
}

/// The clock is not started and the variable is unknown: both are open. Then the variable alone is
/// violated.
#[test]
fn both_are_open() {
    step_through(&file(2, 1, &in_time(goal(1, 1))), &[UN, 0], |run| {
        for time in [0, 5, u32::MAX] {
            run.offer(time, &[NO, 1]);
            run.runs_on(&[UN, 0]);
            assert_marks(run, [1, 1, 1]);
        }
        run.offer(u32::MAX, &[NO, 1]);
        run.runs_on(&[2, 0]);
        run.offer(u32::MAX, &[NO, NO]);
        assert_marks(run, [1, 1, 0]);
        run.finishes(&[UN, 0]);
    });
}

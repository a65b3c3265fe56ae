//! WAITs and CHOICEs over a clock that is started again: those judged in the cycle of the START read
//! the start before it, and those after it the new one.

use gurvoke::builder::{
    at_least, below, choice, equals, goal, maintain, par, repeat, seq, start, wait,
};
use gurvoke::parts::{Condition, Part};

use super::{assert_marks, assert_start, both_orders, cycle, last_cycle, step};

/// START 0, and then, in either order in a PAR, START 0 and a WAIT on clock 0.
fn waits_beside_a_start(condition: Condition) -> [Part; 2] {
    both_orders(start(0), wait(condition)).map(|both| seq(vec![start(0), both]))
}

/// The clock is started at 10, and the second START is judged beside the WAIT "at least 5". At 15 the
/// WAIT ends by the old start. At 14 it does not, and then it waits for 5 seconds from 14 on.
#[test]
fn a_wait_for_a_reading_beside_a_start() {
    for root in waits_beside_a_start(at_least(0, 5)) {
        for time in [15, 16, u32::MAX] {
            step(1, &root, |run| {
                cycle(run, 10);
                last_cycle(run, time);
                assert_start(run, time);
            });
        }
        step(1, &root, |run| {
            cycle(run, 10);
            cycle(run, 14);
            assert_start(run, 14);
            cycle(run, 15);
            cycle(run, 18);
            last_cycle(run, 19);
            assert_start(run, 14);
        });
    }
}

/// The same with "below 5". At 14 the WAIT ends by the old start. At 15 it does not, though by the new
/// start the clock would read 0; from the next cycle on it does, up to 4 seconds after that start.
#[test]
fn a_wait_below_a_reading_beside_a_start() {
    for root in waits_beside_a_start(below(0, 5)) {
        for time in [10, 14] {
            step(1, &root, |run| {
                cycle(run, 10);
                last_cycle(run, time);
                assert_start(run, time);
            });
        }
        for time in [15, 19] {
            step(1, &root, |run| {
                cycle(run, 10);
                cycle(run, 15);
                assert_start(run, 15);
                last_cycle(run, time);
                assert_start(run, 15);
            });
        }
        step(1, &root, |run| {
            cycle(run, 10);
            cycle(run, 15);
            cycle(run, 20);
            cycle(run, u32::MAX);
            assert_start(run, 15);
        });
    }
}

/// The START and the WAIT stand in composites of their own, and not next to each other in the table.
#[test]
fn a_wait_deep_beside_a_start() {
    let waiting = maintain(equals(0, 0), seq(vec![wait(at_least(0, 5)), goal(0, 1)]));
    for both in both_orders(repeat(start(0)), waiting) {
        step(1, &both, |run| {
            cycle(run, 10);
            // Each cycle starts the clock, and the WAIT reads the start of the one before.
            cycle(run, 14);
            assert_start(run, 14);
            cycle(run, 18);
            assert_start(run, 18);
            cycle(run, 23);
            assert_start(run, 23);
            run.offer(24, &[1]);
        });
    }
}

/// A WAIT beside a REPEAT that starts its clock in each cycle: it ends when two cycles are far enough
/// apart.
#[test]
fn a_wait_on_a_clock_that_each_cycle_starts() {
    let root = par(vec![wait(at_least(0, 5)), repeat(start(0))]);
    step(1, &root, |run| {
        for time in (10..=50).step_by(4) {
            cycle(run, time);
            assert_start(run, time);
            assert_marks(run, [1, 1, 1, 1]);
        }
        cycle(run, 55);
        assert_start(run, 55);
        assert_marks(run, [1, 0, 1, 1]);
    });
}

/// A START and a WAIT on its clock in each round: the WAIT is as long in every one.
#[test]
fn a_wait_is_as_long_in_every_round() {
    let round = seq(vec![start(0), wait(at_least(0, 30)), goal(0, 1)]);
    step(1, &repeat(round), |run| {
        for begun in [100, 150, 200, 250] {
            cycle(run, begun);
            assert_start(run, begun);
            assert_marks(run, [1, 1, 0, 1, 0]);
            cycle(run, begun);
            cycle(run, begun + 29);
            assert_marks(run, [1, 1, 0, 1, 0]);
            cycle(run, begun + 30);
            assert_marks(run, [1, 1, 0, 0, 1]);
            run.offer(begun + 31, &[1]);
            run.runs_on(&[1]);
            assert_marks(run, [1, 1, 1, 0, 0]);
            assert_start(run, begun);
        }
    });
}

/// In each round a CHOICE follows the START: it decides by the start of its own round.
#[test]
fn a_choice_in_each_round() {
    let chosen = choice(at_least(0, 5), goal(0, 1), goal(0, 2));
    let root = repeat(seq(vec![start(0), chosen]));
    step(1, &root, |run| {
        for (begun, decided, branch) in [(10, 14, 2), (30, 34, 2), (40, 45, 1), (50, 50, 2)] {
            cycle(run, begun);
            assert_start(run, begun);
            cycle(run, decided);
            run.offer(decided, &[branch]);
            run.runs_on(&[branch]);
            assert_marks(run, [1, 1, 1, 0, 0, 0]);
        }
    });
}

/// Steps through rounds of a START and, beside it, a CHOICE over its clock: the time of each round, and
/// the value of the GOAL that the CHOICE takes.
fn check_rounds(condition: Condition, rounds: &[(u32, u8)]) {
    let chosen = choice(condition, goal(0, 1), goal(0, 2));
    for both in both_orders(start(0), chosen) {
        step(1, &repeat(both), |run| {
            for &(time, taken) in rounds {
                cycle(run, time);
                assert_start(run, time);
                run.offer(time, &[taken]);
                run.runs_on(&[taken]);
                assert_start(run, time);
            }
        });
    }
}

/// In each round a CHOICE decides beside the START, by the start of the round before: first by none,
/// so for its second child, then 5 seconds after 10, then 4 seconds after 15, then 5 after 19. With
/// "below 5" the new start would always take the first child.
#[test]
fn a_choice_beside_a_start_in_each_round() {
    let rounds = [(10, 2), (15, 1), (19, 2), (24, 1), (24, 2)];
    check_rounds(at_least(0, 5), &rounds);
    let rounds = [(10, 2), (15, 2), (19, 1), (24, 2), (24, 1)];
    check_rounds(below(0, 5), &rounds);
}

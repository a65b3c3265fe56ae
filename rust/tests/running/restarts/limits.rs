//! MAINTAINs: limits on a clock that is started again, and STARTs inside a MAINTAIN that is violated,
//! which start nothing.

use gurvoke::builder::{at_least, below, equals, file, maintain, par, repeat, seq, start};

use super::{assert_marks, assert_start, assert_starts, both_orders, cycle, last_cycle, step, NO};
use crate::harness::step_through;

/// A limit on a clock that each cycle starts again: an offer reads the start that the settling before
/// has left, so it is kept for as long as the rounds follow each other in time.
#[test]
fn a_limit_from_the_start_of_each_round() {
    let root = maintain(below(0, 5), repeat(start(0)));
    step(1, &root, |run| {
        for time in (10..=50).step_by(4) {
            cycle(run, time);
            assert_start(run, time);
        }
        // Five seconds after the last start it is violated: the START inside starts nothing.
        run.offer(55, &[NO]);
        assert_marks(run, [1, 0, 0]);
        run.finishes(&[0]);
        assert_start(run, 50);
    });
    // Late from the second round on.
    step(1, &root, |run| {
        cycle(run, 10);
        last_cycle(run, 15);
        assert_start(run, 10);
    });
}

/// The opposite limit: the clock must read at least 3 at each offer, so a round that follows too soon
/// after the last start breaks it.
#[test]
fn a_limit_that_a_start_breaks() {
    let root = maintain(at_least(0, 3), repeat(start(0)));
    step(1, &root, |run| {
        cycle(run, 10);
        cycle(run, 13);
        cycle(run, 16);
        assert_start(run, 16);
        // By the start at 13 it would read 5.
        run.offer(18, &[NO]);
        assert_marks(run, [1, 0, 0]);
        run.finishes(&[0]);
        assert_start(run, 16);
    });
}

/// A MAINTAIN that its own clock breaks: at 14 the START inside starts the clock again, at 15 it is
/// lost.
#[test]
fn a_limit_breaks_before_the_start() {
    let root = seq(vec![start(0), maintain(below(0, 5), start(0))]);
    for (time, left) in [(14, 14), (15, 10)] {
        step(1, &root, |run| {
            cycle(run, 10);
            last_cycle(run, time);
            assert_start(run, left);
        });
    }
}

/// Inside a MAINTAIN that the offer finds violated a START starts nothing: a started clock keeps its
/// start, and one that is not stays so, whatever the settling's estimate. Where it is not violated the
/// START does.
#[test]
fn a_violated_maintain_starts_nothing() {
    let held = maintain(equals(0, 0), start(0));
    step_through(&file(1, 1, &held), &[1], |run| {
        last_cycle(run, 20);
        assert_starts(run, &[None]);
    });
    let root = seq(vec![start(0), held]);
    for mended in [0, 1] {
        step(1, &root, |run| {
            run.offer(10, &[NO]);
            run.runs_on(&[1]);
            run.offer(20, &[NO]);
            run.finishes(&[mended]);
            assert_start(run, 10);
        });
    }
    step(1, &root, |run| {
        cycle(run, 10);
        // A settling looks at no MAINTAIN.
        run.offer(20, &[NO]);
        run.finishes(&[1]);
        assert_start(run, 20);
    });
}

/// The same with the STARTs three parts deep in the MAINTAIN, one of them of a clock that is not
/// started.
#[test]
fn a_violated_maintain_starts_nothing_deep_inside() {
    let deep = repeat(seq(vec![par(vec![start(0), start(1)])]));
    let root = seq(vec![start(0), maintain(equals(0, 0), deep)]);
    step(2, &root, |run| {
        run.offer(10, &[NO]);
        run.runs_on(&[1]);
        run.offer(20, &[NO]);
        assert_marks(run, [1, 0, 1, 0, 0, 0, 0, 0]);
        run.finishes(&[0]);
        assert_starts(run, &[Some(10), None]);
    });
    step(2, &root, |run| {
        cycle(run, 10);
        cycle(run, 20);
        assert_starts(run, &[Some(20), Some(20)]);
        // Broken after a round: both keep the starts of that round.
        run.offer(30, &[NO]);
        run.runs_on(&[1]);
        assert_starts(run, &[Some(30), Some(30)]);
        last_cycle(run, 40);
        assert_starts(run, &[Some(30), Some(30)]);
    });
}

/// A MAINTAIN inside a violated one, whose own condition holds, starts nothing either.
#[test]
fn a_maintain_inside_a_violated_one() {
    let inner = maintain(below(0, 100), start(0));
    let root = seq(vec![start(0), maintain(equals(0, 0), inner)]);
    step(1, &root, |run| {
        run.offer(10, &[NO]);
        run.runs_on(&[1]);
        last_cycle(run, 20);
        assert_start(run, 10);
    });
}

/// Beside a violated MAINTAIN a START does what it says: for another clock, and for the same one.
#[test]
fn a_start_beside_a_violated_maintain() {
    let held = maintain(equals(0, 0), start(0));
    for (beside, left) in [(1, [Some(10), Some(20)]), (0, [Some(20), None])] {
        for both in both_orders(held.clone(), start(beside)) {
            step(2, &seq(vec![start(0), both]), |run| {
                run.offer(10, &[NO]);
                run.runs_on(&[1]);
                run.offer(20, &[NO]);
                run.finishes(&[1]);
                assert_starts(run, &left);
            });
        }
    }
}

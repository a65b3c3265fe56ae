//! The doubtful cycle with a gap: three parts deep a sensor falls silent just as the frame tilts and as
//! a clock comes due, and comes back.

use gurvoke::builder::{
    at_least, choice, differs, equals, file, goal, maintain, par, seq, start, wait,
};
use gurvoke::parts::{Condition, Part};
use gurvoke::sizes::MAX_DEPTH;

use super::{NO, UN};
use crate::harness::{assert_marks, assert_starts, step_through, SteppedRun};

/// What variable 0 says of the frame. Variable 1 is what the GOALs want.
const LEVEL: u8 = 0;
const TILTED: u8 = 2;

/// Whether the frame is level, in both ways to say so.
fn level() -> [Condition; 2] {
    [equals(0, LEVEL.into()), differs(0, TILTED.into())]
}

/// START 0; then, while the frame is level, a WAIT until clock 0 reads 5, START 1 and GOAL 1=1; then
/// GOAL 1=3. The MAINTAIN has depth 3: its parts are 3 to 7, and the last GOAL is 8.
fn three_deep(level: Condition) -> Vec<u8> {
    let inner = seq(vec![wait(at_least(0, 5)), start(1), goal(1, 1)]);
    let held = par(vec![maintain(level, inner)]);
    file(2, 2, &seq(vec![start(0), held, goal(1, 3)]))
}

/// Steps through the program with either condition.
fn step(steps: impl Fn(&mut SteppedRun)) {
    for level in level() {
        step_through(&three_deep(level), &[LEVEL, 0], &steps);
    }
}

/// A cycle in which nothing is wanted.
fn cycle(run: &mut SteppedRun, time: u32, frame: u8) {
    run.offer(time, &[NO, NO]);
    run.runs_on(&[frame, 0]);
}

/// Up to the offer at which the clock comes due. The settling before it hears nothing.
fn up_to_the_silence(run: &mut SteppedRun) {
    cycle(run, 10, LEVEL);
    assert_starts(run, &[Some(10), None]);
    cycle(run, 14, UN);
    run.offer(15, &[NO, NO]);
    assert_marks(run, [1, 0, 1, 1, 1, 1, 0, 0, 0]);
}

/// The MAINTAIN has been found violated: it ends, and the last GOAL begins.
fn down_to_the_last_goal(run: &mut SteppedRun, frame: u8) {
    assert_marks(run, [1, 0, 1, 1, 0, 0, 0, 0, 0]);
    run.runs_on(&[frame, 0]);
    assert_marks(run, [1, 0, 0, 0, 0, 0, 0, 0, 1]);
    run.offer(20, &[NO, 3]);
    run.finishes(&[frame, 3]);
}

/// The sensor is silent for one cycle, and comes back with the tilt. The WAIT has ended in the
/// silence, and START 1 is lost.
#[test]
fn back_with_the_tilt_at_once() {
    for frame in [LEVEL, TILTED, UN] {
        step(|run| {
            up_to_the_silence(run);
            run.runs_on(&[TILTED, 0]);
            assert_marks(run, [1, 0, 1, 1, 1, 0, 1, 0, 0]);
            run.offer(16, &[NO, NO]);
            down_to_the_last_goal(run, frame);
            assert_starts(run, &[Some(10), None]);
        });
    }
}

/// It is silent for one cycle more: START 1 is done in the silence, and the GOAL is lost.
#[test]
fn back_with_the_tilt_later() {
    for frame in [LEVEL, TILTED, UN] {
        step(|run| {
            up_to_the_silence(run);
            run.runs_on(&[UN, 0]);
            assert_marks(run, [1, 0, 1, 1, 1, 0, 1, 0, 0]);
            cycle(run, 16, TILTED);
            assert_marks(run, [1, 0, 1, 1, 1, 0, 0, 1, 0]);
            assert_starts(run, &[Some(10), Some(16)]);
            run.offer(17, &[NO, NO]);
            down_to_the_last_goal(run, frame);
            assert_starts(run, &[Some(10), Some(16)]);
        });
    }
}

/// The frame is level again when the sensor comes back, or it never does: all is done.
#[test]
fn back_without_the_tilt_or_not_at_all() {
    for frame in [LEVEL, UN] {
        step(|run| {
            up_to_the_silence(run);
            run.runs_on(&[frame, 0]);
            cycle(run, 16, frame);
            assert_starts(run, &[Some(10), Some(16)]);
            run.offer(17, &[NO, 1]);
            run.runs_on(&[frame, 1]);
            assert_marks(run, [1, 0, 0, 0, 0, 0, 0, 0, 1]);
            run.offer(18, &[NO, 3]);
            run.finishes(&[frame, 3]);
        });
    }
}

/// The sensor says that the frame tilts, and falls silent only then: the offer has found it, and the
/// WAIT that comes due is lost.
#[test]
fn silent_after_the_tilt_was_told() {
    for frame in [LEVEL, UN] {
        step(|run| {
            cycle(run, 10, LEVEL);
            cycle(run, 14, TILTED);
            run.offer(15, &[NO, NO]);
            down_to_the_last_goal(run, frame);
            assert_starts(run, &[Some(10), None]);
        });
    }
}

/// Silent from the settling on in which the clock comes due: the WAIT is over the clock, and ends.
#[test]
fn silent_as_the_wait_ends() {
    step(|run| {
        cycle(run, 10, LEVEL);
        cycle(run, 14, LEVEL);
        cycle(run, 15, UN);
        assert_marks(run, [1, 0, 1, 1, 1, 0, 1, 0, 0]);
        cycle(run, 16, TILTED);
        assert_starts(run, &[Some(10), Some(16)]);
        run.offer(17, &[NO, NO]);
        down_to_the_last_goal(run, UN);
    });
}

/// In the silent cycle a WAIT for the clock ends, one for the frame stays, and a CHOICE over it takes
/// its second child.
#[test]
fn other_parts_in_the_silence() {
    for level in level() {
        let chosen = choice(level, goal(1, 1), goal(1, 2));
        let beside = seq(vec![wait(at_least(0, 4)), chosen]); // 5: 6, 7: 8, 9
        let waits = [wait(at_least(0, 5)), wait(level)]; // 10, 11
        let inner = par([vec![beside], waits.to_vec()].concat()); // 4
        let held = par(vec![maintain(level, inner)]); // 2: 3
        let root = seq(vec![start(0), held]);
        step_through(&file(2, 1, &root), &[LEVEL, 0], |run| {
            cycle(run, 10, LEVEL);
            assert_marks(run, [1, 0, 1, 1, 1, 1, 1, 0, 0, 0, 1, 1]);
            cycle(run, 14, UN);
            assert_marks(run, [1, 0, 1, 1, 1, 1, 0, 1, 0, 0, 1, 1]);
            cycle(run, 15, UN);
            assert_marks(run, [1, 0, 1, 1, 1, 1, 0, 1, 0, 1, 0, 1]);
            run.offer(16, &[NO, 2]);
            run.finishes(&[LEVEL, 2]);
        });
    }
}

/// So many SEQs around a part.
fn around(seqs: usize, part: Part) -> Part {
    (0..seqs).fold(part, |part, _| seq(vec![part]))
}

/// The same as deep as parts can stand: the WAIT has depth 16.
#[test]
fn as_deep_as_allowed() {
    for level in level() {
        let inner = seq(vec![wait(at_least(0, 5)), start(1), goal(1, 1)]);
        let held = around(MAX_DEPTH - 4, maintain(level, inner));
        let root = seq(vec![start(0), held]);
        for (frame, started) in [(TILTED, None), (LEVEL, Some(16)), (UN, Some(16))] {
            step_through(&file(2, 2, &root), &[LEVEL, 0], |run| {
                cycle(run, 10, LEVEL);
                cycle(run, 14, UN);
                cycle(run, 15, frame);
                run.offer(16, &[NO, NO]);
                if frame == TILTED {
                    run.finishes(&[UN, 0]);
                } else {
                    run.runs_on(&[UN, 0]);
                    run.offer(17, &[NO, 1]);
                    run.finishes(&[UN, 1]);
                }
                assert_starts(run, &[Some(10), started]);
            });
        }
    }
}

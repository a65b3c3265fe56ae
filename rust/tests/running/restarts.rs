//! What a START does to its clock: it sets it to the cycle's time, whether or not the clock is
//! started, and is not seen by the judgements of its own cycle. Every answer, mark and start here is
//! that of the papers' words.

mod judged;
mod limits;

use gurvoke::answers::NO_GOAL;
use gurvoke::builder::{
    at_least, below, choice, equals, file, goal, maintain, par, repeat, seq, start, wait,
};
use gurvoke::parts::Part;
use gurvoke::record::{start_place, RECORD_LEN};
use gurvoke::refusals::{
    BUFFER_TOO_SHORT, ESTIMATE_NOT_ALLOWED, RUN_FINISHED, TIME_BEFORE_LAST, WRONG_PHASE,
};
use gurvoke::runs::Call;
use gurvoke::sizes::{MAX_CLOCKS, TIME_LEN};
use gurvoke::stations::STATION_7;

use crate::harness::{assert_marks, assert_starts, step_through, SteppedRun, NO_VALUES};

/// No goal, as a goal byte.
const NO: u8 = NO_GOAL;

/// The last clock of a program with as many as allowed.
const LAST_CLOCK: u8 = MAX_CLOCKS as u8 - 1;

/// A program of one variable and so many clocks, begun with 0.
fn step(clocks: usize, root: &Part, steps: impl Fn(&mut SteppedRun)) {
    step_through(&file(1, clocks, root), &[0], steps);
}

/// A cycle at this time in which no goal is offered, and after which the run goes on.
fn cycle(run: &mut SteppedRun, time: u32) {
    run.offer(time, &[NO]);
    run.runs_on(&[0]);
}

/// A cycle at this time in which no goal is offered, and which finishes the run.
fn last_cycle(run: &mut SteppedRun, time: u32) {
    run.offer(time, &[NO]);
    run.finishes(&[0]);
}

/// Expects that clock 0, and no other one, is started, at this time.
fn assert_start(run: &SteppedRun, start: u32) {
    assert_starts(run, &[Some(start)]);
}

/// Two parts of a PAR, in either order.
fn both_orders(one: Part, other: Part) -> [Part; 2] {
    let there = par(vec![one.clone(), other.clone()]);
    let back = par(vec![other, one]);
    [there, back]
}

#[test]
fn station_7_in_between() {
    step_through(&STATION_7, &[0], |run| {
        assert_starts(run, &[None]);
        run.offer(10, &[NO]);
        assert_starts(run, &[None]);
        run.runs_on(&[0]);
        assert_start(run, 10);
        run.offer(20, &[NO]);
        assert_start(run, 10);
        run.finishes(&[0]);
        assert_start(run, 20);
    });
}

#[test]
fn three_starts() {
    let root = seq(vec![start(0), start(0), start(0)]);
    step(1, &root, |run| {
        cycle(run, 10);
        assert_start(run, 10);
        cycle(run, 20);
        assert_start(run, 20);
        last_cycle(run, 1000);
        assert_start(run, 1000);
    });
}

/// A clock that is started again at the time of its start has that start; at 0 too, where only the
/// flag tells it from one that is not started.
#[test]
fn the_time_stands_still() {
    let root = seq(vec![start(0), start(0), start(0)]);
    for time in [0, 10, u32::MAX] {
        step(1, &root, |run| {
            cycle(run, time);
            assert_start(run, time);
            cycle(run, time);
            assert_start(run, time);
            last_cycle(run, time);
            assert_start(run, time);
        });
    }
    step(1, &root, |run| {
        cycle(run, 10);
        cycle(run, 10);
        assert_start(run, 10);
        last_cycle(run, 11);
        assert_start(run, 11);
    });
}

/// Two STARTs of one clock in one cycle set the same time, as the first start and as a later one.
#[test]
fn two_starts_in_one_cycle() {
    let twice = par(vec![start(0), start(0)]);
    step(1, &twice, |run| {
        last_cycle(run, 7);
        assert_start(run, 7);
    });
    let apart = par(vec![
        seq(vec![start(0)]),
        maintain(equals(0, 0), repeat(start(0))),
        start(0),
    ]);
    let root = seq(vec![start(0), twice, apart]);
    step(1, &root, |run| {
        cycle(run, 10);
        cycle(run, 20);
        assert_start(run, 20);
        cycle(run, 30);
        assert_start(run, 30);
    });
}

/// Of three clocks that are started, those are set that a marked START names.
#[test]
fn only_the_clock_named_is_set() {
    let root = seq(vec![
        par(vec![start(0), start(1), start(2)]),
        start(1),
        par(vec![start(2), start(0)]),
        wait(at_least(1, 20)),
        start(1),
    ]);
    step(3, &root, |run| {
        cycle(run, 10);
        assert_starts(run, &[Some(10), Some(10), Some(10)]);
        cycle(run, 20);
        assert_starts(run, &[Some(10), Some(20), Some(10)]);
        cycle(run, 30);
        assert_starts(run, &[Some(30), Some(20), Some(30)]);
        // The WAIT reads clock 1, which was started at 20.
        cycle(run, 39);
        cycle(run, 40);
        assert_starts(run, &[Some(30), Some(20), Some(30)]);
        last_cycle(run, 41);
        assert_starts(run, &[Some(30), Some(41), Some(30)]);
    });
}

/// One clock is started, one is started for the first time, and one never is.
#[test]
fn a_first_start_beside_a_second() {
    let root = seq(vec![start(2), par(vec![start(0), start(2)])]);
    step(3, &root, |run| {
        cycle(run, 10);
        assert_starts(run, &[None, None, Some(10)]);
        last_cycle(run, 20);
        assert_starts(run, &[Some(20), None, Some(20)]);
    });
}

/// A START that a settling marks starts nothing before the next cycle: as the following child of a
/// SEQ, in a PAR, in a MAINTAIN and as the chosen child of a CHOICE.
#[test]
fn a_start_newly_marked() {
    let in_par = par(vec![start(0), start(1)]);
    let held = maintain(equals(0, 1), start(0));
    for (following, after) in [(start(0), None), (in_par, Some(30)), (held, None)] {
        let root = seq(vec![start(0), goal(0, 1), following]);
        step(2, &root, |run| {
            cycle(run, 10);
            run.offer(20, &[1]);
            run.runs_on(&[1]);
            assert_starts(run, &[Some(10), None]);
            run.offer(30, &[NO]);
            run.finishes(&[1]);
            assert_starts(run, &[Some(30), after]);
        });
    }
    let chosen = choice(equals(0, 0), start(0), goal(0, 1));
    step(1, &seq(vec![start(0), chosen]), |run| {
        cycle(run, 10);
        cycle(run, 20);
        assert_start(run, 10);
        last_cycle(run, 30);
        assert_start(run, 30);
    });
}

/// A REPEAT begins its START anew in the settling in which the round ends, and the next settling sets
/// the clock.
#[test]
fn a_start_newly_marked_by_a_round() {
    let root = repeat(seq(vec![start(0), goal(0, 1)]));
    step(1, &root, |run| {
        for begun in [10, 30, 50] {
            cycle(run, begun);
            assert_start(run, begun);
            run.offer(begun + 10, &[1]);
            run.runs_on(&[1]);
            assert_marks(run, [1, 1, 1, 0]);
            assert_start(run, begun);
        }
    });
    // The START is the whole round: it ends and is marked again in each settling.
    step(1, &repeat(start(0)), |run| {
        for time in [0, 1, 1, 20, u32::MAX] {
            cycle(run, time);
            assert_marks(run, [1, 1]);
            assert_start(run, time);
        }
    });
}

/// A refused call starts nothing, with a marked START, before the first start and after it.
#[test]
fn refused_calls_start_nothing() {
    let settle = |estimate: &[u8]| Call::Settle {
        estimate: estimate.to_vec(),
    };
    let offer = |time, room| Call::Offer { time, room };
    let refuse_settlings = |run: &mut SteppedRun| {
        for estimate in [&[NO_VALUES.start][..], &[NO_VALUES.end - 1], &[], &[0, 0]] {
            run.refused(settle(estimate), ESTIMATE_NOT_ALLOWED);
        }
        run.refused(offer(30, 1), WRONG_PHASE);
    };
    step_through(&STATION_7, &[0], |run| {
        run.refused(settle(&[0]), WRONG_PHASE);
        run.offer(10, &[NO]);
        refuse_settlings(run);
        assert_starts(run, &[None]);
        run.runs_on(&[0]);
        run.refused(offer(9, 1), TIME_BEFORE_LAST);
        run.refused(offer(20, 0), BUFFER_TOO_SHORT);
        run.refused(settle(&[0]), WRONG_PHASE);
        assert_start(run, 10);
        run.offer(20, &[NO]);
        refuse_settlings(run);
        assert_start(run, 10);
        run.finishes(&[0]);
        run.refused(offer(30, 1), RUN_FINISHED);
        run.refused(settle(&[0]), RUN_FINISHED);
        assert_start(run, 20);
    });
}

/// From 0 to the last time there is, for each clock there can be: its four bytes change, and nothing
/// of its neighbours does, nor what stands behind the record.
#[test]
fn every_clock_from_zero_to_the_last_time() {
    let all = par((0..=LAST_CLOCK).map(start).collect());
    for clock in 0..=LAST_CLOCK {
        let root = seq(vec![all.clone(), start(clock), start(clock)]);
        step(MAX_CLOCKS, &root, |run| {
            let behind = run.board.record.content()[RECORD_LEN..].to_vec();
            assert!(!behind.is_empty());
            let mut starts = [Some(0); MAX_CLOCKS];
            cycle(run, 0);
            assert_starts(run, &starts);
            // A number whose bytes all differ.
            cycle(run, 0x0403_0201);
            starts[usize::from(clock)] = Some(0x0403_0201);
            assert_starts(run, &starts);
            let place = start_place(clock.into());
            assert_eq!(run.record()[place..place + TIME_LEN], [1, 2, 3, 4]);
            last_cycle(run, u32::MAX);
            starts[usize::from(clock)] = Some(u32::MAX);
            assert_starts(run, &starts);
            assert_eq!(run.board.record.content()[RECORD_LEN..], behind);
        });
    }
}

/// At the last time a clock that was started there again reads 0, and one from 0 reads all of it.
#[test]
fn readings_at_the_last_time() {
    let waits = [wait(below(0, 1)), wait(at_least(1, u16::MAX))];
    let root = seq(vec![
        par(vec![start(0), start(1)]),
        start(0),
        par(waits.to_vec()),
    ]);
    step(2, &root, |run| {
        cycle(run, 0);
        cycle(run, u32::MAX);
        assert_starts(run, &[Some(u32::MAX), Some(0)]);
        last_cycle(run, u32::MAX);
    });
}

//! The stations of document 01 and the cycles that it warns of, with the values that it gives.

use gurvoke::builder::{
    at_least, below, choice, differs, equals, file, goal, maintain, par, seq, start, wait,
};
use gurvoke::examples;
use gurvoke::executive::ALL;
use gurvoke::model;
use gurvoke::record::{
    start_place, time_at, ESTIMATE, FINISHED, MARKS, OFFERED, PHASE, RECORD_LEN, STARTED, STARTS,
    TIME, WAITING,
};
use gurvoke::refusals::{
    BUFFER_TOO_SHORT, ESTIMATE_NOT_ALLOWED, NOT_A_TABLE, RUN_FINISHED, TIME_BEFORE_LAST, TOO_DEEP,
    WRONG_PHASE,
};
use gurvoke::runs::Call;
use gurvoke::sizes::{MAX_CLOCKS, MAX_PARTS, MAX_VALUE, MAX_VARIABLES, TIME_LEN, UNKNOWN_VALUE};
use gurvoke::stations::{
    repeats_above_goal, rows_of_repeats_above_goal, STATION_1, STATION_10, STATION_2, STATION_3,
    STATION_4, STATION_5, STATION_6, STATION_7, STATION_8,
};

use crate::harness::{step_through, NO_VALUES};

/// Times for stations that give none.
const TIMES: [u32; 8] = [0, 1, 4, 5, 6, 1000, u32::MAX - 1, u32::MAX];

#[test]
fn station_1() {
    step_through(&STATION_1, &[0], |run| {
        run.offer(0, &[0x01]);
        run.runs_on(&[0]);
        run.offer(0, &[0x01]);
        run.finishes(&[1]);
    });
}

/// Any settling finishes: with every estimate, an unknown variable too, at any time.
#[test]
fn station_2() {
    for time in TIMES {
        for value in (0..=MAX_VALUE as u8).chain([UNKNOWN_VALUE]) {
            step_through(&STATION_2, &[2], |run| {
                run.offer(time, &[0xFF]);
                run.finishes(&[value]);
            });
        }
    }
}

#[test]
fn station_3() {
    for time in TIMES {
        step_through(&STATION_3, &[0], |run| run.offer(time, &[0x01]));
    }
}

#[test]
fn station_4() {
    for time in TIMES {
        step_through(&STATION_4, &[0], |run| {
            run.offer(time, &[0xFF]);
            run.runs_on(&[0]);
            run.offer(time, &[0x02]);
        });
    }
}

#[test]
fn station_5() {
    step_through(&STATION_5, &[0], |run| {
        run.offer_naming(0, 0, &[0xFE]);
        run.runs_on(&[1]);
        run.offer(0, &[0x02]);
    });
}

#[test]
fn station_6() {
    step_through(&STATION_6, &[0], |run| {
        for time in TIMES {
            run.offer(time, &[0x01]);
            run.runs_on(&[1]);
        }
        run.offer(u32::MAX, &[0x01]);
    });
}

#[test]
fn station_7() {
    step_through(&STATION_7, &[0], |run| {
        run.offer(10, &[0xFF]);
        run.runs_on(&[0]);
        assert_eq!(time_at(run.record(), start_place(0)), 10, "at 10");
        run.offer(20, &[0xFF]);
        run.finishes(&[0]);
        assert_eq!(run.record()[PHASE], FINISHED);
        assert_eq!(time_at(run.record(), TIME), 20, "last time");
        assert_eq!(run.record()[STARTED], 1, "clock 0 is started");
        assert_eq!(time_at(run.record(), start_place(0)), 20, "again at 20");
    });
}

#[test]
fn station_8() {
    step_through(&STATION_8, &[0], |run| {
        run.offer(100, &[0xFF]);
        run.runs_on(&[0]);
        run.offer(109, &[0xFF]);
        run.runs_on(&[0]);
        run.offer(110, &[0xFF]);
        run.finishes(&[0]);
    });
}

/// 15 REPEATs above a GOAL run; the rows of 16 are the table of no file.
#[test]
fn station_9() {
    step_through(&repeats_above_goal(15), &[1], |run| {
        run.offer(0, &[0x00]);
        run.runs_on(&[0]);
        run.offer(0, &[0x00]);
    });
    assert_eq!(model::read(&repeats_above_goal(16)), Err(TOO_DEEP));
    let rows = rows_of_repeats_above_goal(16);
    for executive in ALL {
        let mut record = [0x5A; RECORD_LEN];
        assert_eq!((executive.begin)(&rows, &[0], &mut record), NOT_A_TABLE);
        assert_eq!(record, [0x5A; RECORD_LEN]);
    }
}

/// A run of station 10's table: the whole record, byte by byte as the paper lays it out.
#[test]
fn station_10() {
    step_through(&STATION_10, &[7], |run| {
        let fresh = [
            &[0][..],                    // phase
            &[0; TIME_LEN],              // last time
            &[7],                        // estimate of variable 0
            &[0; MAX_VARIABLES - 1],     // no other variable
            &[0; MAX_CLOCKS],            // no clock started
            &[0; MAX_CLOCKS * TIME_LEN], // no start times
            &[1, 1, 0],                  // SEQ and its first child are marked
            &[0; MAX_PARTS - 3],         // no other part
        ]
        .concat();
        assert_eq!(run.record(), fresh);

        run.offer(0x0102, &[0xFF]);
        let mut offered = fresh.clone();
        offered[PHASE] = OFFERED;
        offered[TIME..ESTIMATE].copy_from_slice(&[0x02, 0x01, 0, 0]);
        assert_eq!(run.record(), offered);

        run.runs_on(&[9]);
        let mut settled = offered.clone();
        settled[PHASE] = WAITING;
        settled[ESTIMATE] = 9;
        settled[STARTED] = 1;
        settled[STARTS..STARTS + TIME_LEN].copy_from_slice(&[0x02, 0x01, 0, 0]);
        settled[MARKS..MARKS + 3].copy_from_slice(&[1, 0, 1]);
        assert_eq!(run.record(), settled);
    });
}

/// The paper's examples of refused offers and settlings.
#[test]
fn refusals_of_the_paper() {
    for (refusal, mut calls) in examples::calls() {
        let refused = calls.pop().expect("an example has a call");
        step_through(&STATION_1, &[0], |run| {
            for call in &calls {
                run.accepted(call.clone());
            }
            run.refused(refused.clone(), refusal);
        });
    }
}

/// The same refusals for other reasons, all in one run.
#[test]
fn refusals_beside_the_examples() {
    let offer_at = |time| Call::Offer { time, room: 1 };
    let settle_with = |estimate: &[u8]| Call::Settle {
        estimate: estimate.to_vec(),
    };
    step_through(&STATION_1, &[0], |run| {
        run.refused(Call::Offer { time: 0, room: 0 }, BUFFER_TOO_SHORT);
        run.offer(10, &[0x01]);
        run.refused(offer_at(10), WRONG_PHASE);
        run.refused(settle_with(&[]), ESTIMATE_NOT_ALLOWED);
        run.runs_on(&[0]);
        run.refused(offer_at(9), TIME_BEFORE_LAST);
        run.offer(10, &[0x01]);
        run.finishes(&[1]);
        run.refused(settle_with(&[1]), RUN_FINISHED);
    });
}

/// Where several refusals apply: an offer gives 14, 11, 12, 8, a settling 14, 11, 13.
#[test]
fn the_earlier_refusal_wins() {
    let bad_offer = Call::Offer { time: 0, room: 0 };
    let bad_estimate = Call::Settle {
        estimate: vec![NO_VALUES.start, 0],
    };
    step_through(&STATION_1, &[0], |run| {
        run.refused(bad_estimate.clone(), WRONG_PHASE);
        run.offer(1, &[0x01]);
        run.refused(bad_offer.clone(), WRONG_PHASE);
        run.refused(bad_estimate.clone(), ESTIMATE_NOT_ALLOWED);
        run.runs_on(&[0]);
        run.refused(bad_offer.clone(), TIME_BEFORE_LAST);
        run.refused(Call::Offer { time: 1, room: 0 }, BUFFER_TOO_SHORT);
        run.offer(1, &[0x01]);
        run.finishes(&[1]);
        run.refused(bad_offer.clone(), RUN_FINISHED);
        run.refused(bad_estimate.clone(), RUN_FINISHED);
    });
}

/// Misreading: a clock started this cycle read at this settling.
#[test]
fn a_clock_started_this_cycle_is_not_read() {
    let parts = par(vec![start(0), wait(at_least(0, 0))]);
    step_through(&file(1, 1, &parts), &[0], |run| {
        run.offer(3, &[0xFF]);
        run.runs_on(&[0]);
        run.offer(3, &[0xFF]);
        run.finishes(&[0]);
    });
}

/// Misreading: an unstarted clock taken as 0, so "below 5" holds.
#[test]
fn an_unstarted_clock_reads_nothing() {
    let waits = par(vec![wait(below(0, 5)), wait(at_least(0, 0))]);
    step_through(&file(1, 1, &waits), &[0], |run| {
        for time in TIMES {
            run.offer(time, &[0xFF]);
            run.runs_on(&[0]);
            assert_eq!(run.record()[MARKS..MARKS + 3], [1, 1, 1], "both wait");
        }
    });
    let second_branch = choice(below(0, 5), goal(0, 1), goal(0, 2));
    step_through(&file(1, 1, &second_branch), &[0], |run| {
        run.offer(0, &[0xFF]);
        run.runs_on(&[0]);
        run.offer(0, &[0x02]);
    });
}

/// Misreading: a CHOICE whose branch has just ended taken for a deciding one.
#[test]
fn a_choice_ends_with_its_branch() {
    let root = choice(equals(0, 0), goal(0, 0), goal(0, 2));
    step_through(&file(1, 1, &root), &[0], |run| {
        run.offer(0, &[0xFF]);
        run.runs_on(&[0]);
        run.offer(0, &[0x00]);
        run.finishes(&[0]);
    });
}

/// Misreading: a part initialised at this settling judged in the same settling.
#[test]
fn a_part_just_begun_is_not_judged() {
    let root = seq(vec![goal(0, 1), goal(0, 1), start(0), wait(equals(0, 1))]);
    step_through(&file(1, 1, &root), &[0], |run| {
        run.offer(0, &[0x01]);
        run.runs_on(&[1]);
        run.offer(1, &[0x01]);
        run.runs_on(&[1]);
        assert_eq!(run.record()[STARTED], 0, "START has only just begun");
        run.offer(2, &[0xFF]);
        run.runs_on(&[1]);
        assert_eq!(time_at(run.record(), start_place(0)), 2);
        run.offer(3, &[0xFF]);
        run.finishes(&[1]);
    });
}

/// A MAINTAIN is checked at offers alone: a child that ends in the settling whose estimate breaks
/// the condition ends it as ever.
#[test]
fn a_settling_checks_no_maintain() {
    let root = maintain(differs(0, 2), goal(0, 2));
    step_through(&file(1, 1, &root), &[0], |run| {
        run.offer(0, &[0x02]);
        run.finishes(&[2]);
    });
    let held = maintain(differs(0, 2), goal(0, 1));
    step_through(&file(1, 1, &held), &[0], |run| {
        run.offer(0, &[0x01]);
        run.runs_on(&[2]);
        run.offer(0, &[0xFF]);
        run.finishes(&[0]);
    });
}

/// The buyer's doubtful cycle: a condition breaks just as a clock comes due, three parts deep. The
/// broken MAINTAIN offers nothing and ends, and nothing inside it goes on or starts a clock.
#[test]
fn a_condition_breaks_as_a_clock_comes_due() {
    let inner = seq(vec![wait(at_least(0, 5)), start(1), goal(0, 1)]);
    let root = seq(vec![start(0), maintain(differs(0, 2), inner), goal(0, 3)]);
    let doubtful = file(1, 2, &root);
    // The condition holds at the cycle in which the clock is due: the START is next, then the GOAL.
    step_through(&doubtful, &[0], |run| {
        run.offer(10, &[0xFF]);
        run.runs_on(&[0]);
        run.offer(14, &[0xFF]);
        run.runs_on(&[0]);
        run.offer(15, &[0xFF]);
        run.runs_on(&[0]);
        run.offer(15, &[0xFF]);
        run.runs_on(&[0]);
        assert_eq!(
            run.record()[STARTED..STARTED + 2],
            [1, 1],
            "clock 1 is started too"
        );
        run.offer(15, &[0x01]);
    });
    // An estimate breaks it one cycle before, so that the WAIT is lost at the offer of the cycle in
    // which the clock is due; or at that cycle's settling, so that the WAIT ends there and the START
    // that has begun is lost at the next offer.
    for broken_at in [14, 15] {
        step_through(&doubtful, &[0], |run| {
            run.offer(10, &[0xFF]);
            run.runs_on(&[0]);
            run.offer(broken_at, &[0xFF]);
            run.runs_on(&[2]);
            run.offer(15, &[0xFF]);
            run.runs_on(&[0]);
            run.offer(15, &[0x03]);
            run.finishes(&[3]);
            assert_eq!(
                run.record()[STARTED..STARTED + 2],
                [1, 0],
                "clock 1 is never started"
            );
        });
    }
}

/// A clock's limit that breaks a MAINTAIN at the very reading for which a WAIT inside it waits.
#[test]
fn one_clock_breaks_and_comes_due() {
    let inner = seq(vec![wait(at_least(0, 5)), goal(0, 1)]);
    let root = seq(vec![start(0), maintain(below(0, 5), inner), goal(0, 2)]);
    step_through(&file(1, 1, &root), &[0], |run| {
        run.offer(u32::MAX - 5, &[0xFF]);
        run.runs_on(&[0]);
        run.offer(u32::MAX - 1, &[0xFF]);
        run.runs_on(&[0]);
        run.offer(u32::MAX, &[0xFF]);
        run.runs_on(&[0]);
        run.offer(u32::MAX, &[0x02]);
    });
}

//! The worked example of the source paper: the Mars entry sequence of Figure 3, run through the
//! cycles of section 6. Goals, marked locations and clock starts are those that the paper names.
//!
//! What becomes of the figure's locations, as the text of sections 3, 5 and 6 tells of each:
//!
//! | Location | In the figure | Part |
//! |---|---|---|
//! | 1 | outermost composite | 0 SEQ |
//! | 2 | goal engine=standby | 1 GOAL |
//! | 3 | clock initialization t1=0 | 2 START |
//! | 4 | waits for t1 ≥ 270 mins, else to itself | 3 WAIT |
//! | 5 | goal nav=inertial | 4 GOAL |
//! | 6 | clock initialization t2=0 | 5 START |
//! | 7 | waits for t2 ≥ 4 mins, else to itself | 6 WAIT |
//! | 8 | MAINTAIN entry=initiated not entailed | 7 MAINTAIN over 8 PAR |
//! | 9 | re-marks itself and 10 in every cycle | 9 REPEAT |
//! | 10 | goal att=entry-orient | 10 GOAL |
//! | 11 | waits for att=entry-orient, then 12 | 12 WAIT in 11 SEQ |
//! | 12 | goal lander=separated | 13 GOAL in 11 SEQ |
//!
//! What cannot be carried over:
//!
//! - Tenths of seconds: times are whole seconds here. Each of the paper's times is cut to whole
//!   seconds, and every comparison that it makes comes out the same.
//! - Location 9 starts a fresh copy of 10 in every cycle, RMPL's "always", which document 01 leaves
//!   out. REPEAT begins 10 again whenever it ends, so att=entry-orient is offered in every cycle
//!   all the same.
//! - An estimate says one value of each variable, so "does not entail entry=initiated" becomes
//!   "entry differs from initiated".
//! - The paper notes a clock's initialization early in a cycle, here the settling notes it; both
//!   note the time of that cycle, and neither reads the clock before the next one.
//! - Commands and the plant model stay outside: the estimates that follow are those that the paper
//!   says mode estimation gives.

use gurvoke::answers::NO_GOAL;
use gurvoke::builder::{
    at_least, differs, equals, file, goal, maintain, par, repeat, seq, start, wait,
};
use gurvoke::record::{start_place, time_at, MARKS, STARTED};

use crate::harness::{step_through, SteppedRun};

// The variables, and their values.
const ENGINE: u8 = 0;
const NAV: u8 = 1;
const ATT: u8 = 2;
const LANDER: u8 = 3;
const ENTRY: u8 = 4;

const STANDBY: u8 = 1; // engine; 0 is off
const INERTIAL: u8 = 1; // nav; 0 is Earth-relative
const ENTRY_ORIENT: u8 = 1; // att; 0 is cruise-orient
const SEPARATED: u8 = 1; // lander; 0 is connected
const UNSUCCESSFUL_ATTEMPT: u8 = 2; // lander
const INITIATED: u8 = 1; // entry; 0 is not-initiated

// The clocks.
const T1: u8 = 0;
const T2: u8 = 1;

/// "{engine=off, nav=Earth-relative, att=cruise-orient, lander=connected, entry=not-initiated}"
const INITIAL: [u8; 5] = [0; 5];
const IN_STANDBY: [u8; 5] = [STANDBY, 0, 0, 0, 0];
const NAVIGATING: [u8; 5] = [STANDBY, INERTIAL, 0, 0, 0];
const ORIENTED: [u8; 5] = [STANDBY, INERTIAL, ENTRY_ORIENT, 0, 0];
const RELEASED: [u8; 5] = [STANDBY, INERTIAL, ENTRY_ORIENT, SEPARATED, 0];
const ENTERING: [u8; 5] = [STANDBY, INERTIAL, ENTRY_ORIENT, SEPARATED, INITIATED];

const NO_GOALS: [u8; 5] = [NO_GOAL; 5];

fn entry_sequence() -> Vec<u8> {
    let hold = repeat(goal(ATT, ENTRY_ORIENT.into())); // 9, 10
    let separate = seq(vec![
        wait(equals(ATT, ENTRY_ORIENT.into())), // 11
        goal(LANDER, SEPARATED.into()),         // 12
    ]);
    let root = seq(vec![
        goal(ENGINE, STANDBY.into()), // 2
        start(T1),                    // 3
        wait(at_least(T1, 270 * 60)), // 4
        goal(NAV, INERTIAL.into()),   // 5
        start(T2),                    // 6
        wait(at_least(T2, 4 * 60)),   // 7
        maintain(differs(ENTRY, INITIATED.into()), par(vec![hold, separate])), // 8
    ]);
    file(5, 2, &root)
}

/// The goal bytes that assert these goals and no others.
fn asserting(goals: &[(u8, u8)]) -> [u8; 5] {
    let mut bytes = NO_GOALS;
    for &(variable, value) in goals {
        bytes[usize::from(variable)] = value;
    }
    bytes
}

/// The parts that stand for these locations, with the SEQ around 11 and 12 where one of them is.
fn parts_of(locations: &[usize]) -> Vec<usize> {
    let part = |location: &usize| match location {
        1..=7 => vec![location - 1],
        8 => vec![7, 8],
        9 | 10 => vec![*location],
        11 | 12 => vec![11, location + 1],
        _ => panic!("the figure has no location {location}"),
    };
    locations.iter().flat_map(part).collect()
}

/// The parts that the record marks.
fn marked_parts(run: &SteppedRun) -> Vec<usize> {
    let marks = &run.record()[MARKS..];
    (0..marks.len()).filter(|&part| marks[part] == 1).collect()
}

/// The paper's marked locations are the record's marked parts.
fn assert_marked(run: &SteppedRun, locations: &[usize]) {
    assert_eq!(marked_parts(run), parts_of(locations), "{locations:?}");
}

/// The clock was initialized at this time.
fn assert_started(run: &SteppedRun, clock: u8, time: u32) {
    let clock = usize::from(clock);
    assert_eq!(run.record()[STARTED + clock], 1);
    assert_eq!(time_at(run.record(), start_place(clock)), time);
}

/// One cycle of section 6: its time, the goals asserted, the estimate read, the locations marked
/// after.
fn cycle(run: &mut SteppedRun, time: u32, goals: &[(u8, u8)], estimate: [u8; 5], marked: &[usize]) {
    run.offer(time, &asserting(goals));
    run.runs_on(&estimate);
    assert_marked(run, marked);
}

/// From the initial state through cycle N3, in which the entry orientation is reached.
fn up_to_entry_orientation(run: &mut SteppedRun) {
    assert_marked(run, &[1, 2]);
    // Cycle 1, 0.0 sec. "The only goal constraint asserted is engine=standby."
    cycle(run, 0, &[(ENGINE, STANDBY)], IN_STANDBY, &[1, 3]);
    // Cycle 2, 0.5 sec. "We note 0.5 sec as the initialization time for t1. No goal constraints are
    // asserted."
    cycle(run, 0, &[], IN_STANDBY, &[1, 4]);
    assert_started(run, T1, 0);
    // Cycle 3, 1.1 sec. "Since t1 is less than 270 minutes … locations 1 and 4 remain marked."
    cycle(run, 1, &[], IN_STANDBY, &[1, 4]);
    // "Locations 1 and 4 remain marked in cycles 4 to N1": up to the last second before.
    cycle(run, 8000, &[], IN_STANDBY, &[1, 4]);
    cycle(run, 16199, &[], IN_STANDBY, &[1, 4]);
    // Cycle N1, 16200.6 sec. "After taking the enabled transition, locations 1 and 5 are marked."
    cycle(run, 16200, &[], IN_STANDBY, &[1, 5]);
    // Cycle N1 + 1, 16201.2 sec. "Location 5 asserts the goal constraint nav=inertial."
    cycle(run, 16201, &[(NAV, INERTIAL)], NAVIGATING, &[1, 6]);
    // Cycle N1 + 2, 16201.8 sec. "Location 6 asserts the clock initialization t2=0."
    cycle(run, 16201, &[], NAVIGATING, &[1, 7]);
    assert_started(run, T2, 16201);
    // Cycle N1 + 3, 16202.3 sec. "Locations 1 and 7 remain marked."
    cycle(run, 16202, &[], NAVIGATING, &[1, 7]);
    cycle(run, 16440, &[], NAVIGATING, &[1, 7]);
    // Cycle N2, 16442.2 sec. "The marked locations for the next cycle are 1, 8, 9, 10, and 11."
    cycle(run, 16442, &[], NAVIGATING, &[1, 8, 9, 10, 11]);
    // Cycle N2 + 1, 16442.7 sec. "The only goal constraint asserted is att=entry-orient … not yet
    // achieved."
    let hold = (ATT, ENTRY_ORIENT);
    cycle(run, 16442, &[hold], NAVIGATING, &[1, 8, 9, 10, 11]);
    cycle(run, 16447, &[hold], NAVIGATING, &[1, 8, 9, 10, 11]);
    // Cycle N3, 16452.9 sec. "This time, ME confirms achievement of this goal … 1, 8, 9, 10 and
    // 12."
    cycle(run, 16452, &[hold], ORIENTED, &[1, 8, 9, 10, 12]);
}

/// The remaining cycles: the orientation is held until entry is initiated, and then all ends.
fn down_to_entry(run: &mut SteppedRun) {
    let hold = (ATT, ENTRY_ORIENT);
    // "Execution continues with locations 1, 8, 9, and 10 remaining marked (and att=entry-orient
    // continuing to be asserted as a goal) until ME indicates that entry=initiated."
    for time in 16454..16460 {
        cycle(run, time, &[hold], RELEASED, &[1, 8, 9, 10]);
    }
    cycle(run, 16460, &[hold], ENTERING, &[1, 8, 9, 10]);
    // "At this point, location 8's maintenance constraint becomes violated … execution of the Mars
    // entry THCA terminates." Step 2 of the next cycle sees it before any goal is set up, and
    // unmarks the subautomata of location 8: the MAINTAIN keeps its mark, and has none inside.
    run.offer(16461, &NO_GOALS);
    assert_eq!(marked_parts(run), [0, 7]);
    run.finishes(&ENTERING);
    assert_marked(run, &[]);
}

/// "A fault-free execution of the Mars entry sequence."
#[test]
fn fault_free_execution() {
    step_through(&entry_sequence(), &INITIAL, |run| {
        up_to_entry_orientation(run);
        // Cycle N3 + 1, 16453.3 sec. "The configuration goal passed to MR now consists of
        // att=entry-orient and lander=separated … leading to marked locations 1, 8, 9, and 10."
        let both = [(ATT, ENTRY_ORIENT), (LANDER, SEPARATED)];
        cycle(run, 16453, &both, RELEASED, &[1, 8, 9, 10]);
        down_to_entry(run);
        assert_started(run, T1, 0);
        assert_started(run, T2, 16201);
    });
}

/// Section 3: the primary latches fail. "The control sequencer will continue to assert this goal to
/// the deductive controller until it has been achieved."
#[test]
fn the_primary_latches_fail() {
    step_through(&entry_sequence(), &INITIAL, |run| {
        up_to_entry_orientation(run);
        let both = [(ATT, ENTRY_ORIENT), (LANDER, SEPARATED)];
        let mut failed = ORIENTED;
        failed[usize::from(LANDER)] = UNSUCCESSFUL_ATTEMPT;
        cycle(run, 16453, &both, failed, &[1, 8, 9, 10, 12]);
        cycle(run, 16453, &both, failed, &[1, 8, 9, 10, 12]);
        cycle(run, 16454, &both, RELEASED, &[1, 8, 9, 10]);
        down_to_entry(run);
    });
}

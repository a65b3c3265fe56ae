//! Records that are allowed though no run comes to them: what a settling makes of them.

use gurvoke::builder::{differs, file, goal, maintain, seq, start};
use gurvoke::executive::{Executive, ALL};
use gurvoke::record::{
    start_place, time_at, Phase, ESTIMATE, MARKS, OFFERED, PHASE, RECORD_LEN, STARTED, TIME,
    WAITING,
};
use gurvoke::rng::Rng;
use gurvoke::runs::Call;
use gurvoke::sizes::UNKNOWN_VALUE;
use gurvoke::states;
use gurvoke::unfolding::{Program, Progress};

use crate::harness::{table_of, Board, Given};

/// MAINTAIN(variable 0 differs from 2, GOAL 0=1) and then GOAL 0=3, with a record in phase 1.
fn held_record(estimate: u8, marks: [u8; 4]) -> (Vec<u8>, Vec<u8>) {
    let root = seq(vec![maintain(differs(0, 2), goal(0, 1)), goal(0, 3)]);
    let mut record = vec![0; RECORD_LEN];
    record[PHASE] = OFFERED;
    record[ESTIMATE] = estimate;
    record[MARKS..MARKS + 4].copy_from_slice(&marks);
    (file(1, 0, &root), record)
}

/// Settles a record with this estimate on every executive, and gives the record after it.
fn settle_record(file: &[u8], record: &[u8], estimate: u8) -> Vec<Vec<u8>> {
    let program = Program::read(file).expect("a valid program");
    let mut rng = Rng::new(606);
    let settle = |&executive: &&'static Executive| {
        let mut state = states::read(&program, record).expect("an allowed record");
        assert_eq!(state.phase, Phase::Offered);
        let mut board = Board::holding(&mut rng, executive, &table_of(file), record);
        let estimate = vec![estimate];
        let given = board.call(&mut rng, &mut state, &Call::Settle { estimate });
        assert_eq!(given, Given::Settled(Progress::Running));
        board.record.content().to_vec()
    };
    ALL.iter().map(settle).collect()
}

/// Phase 1, the condition holds or is open, and yet MAINTAIN's child is unmarked: "Any other marked
/// composite with nothing marked inside after this ends too", so it ends and its next begins.
#[test]
fn a_maintain_hollow_for_no_reason() {
    for estimate in [0, UNKNOWN_VALUE] {
        let (file, record) = held_record(estimate, [1, 1, 0, 0]);
        for after in settle_record(&file, &record, estimate) {
            assert_eq!(after[PHASE], WAITING);
            assert_eq!(after[MARKS..MARKS + 4], [1, 0, 0, 1]);
        }
    }
}

/// Phase 1, the condition is violated by the estimate stored, and yet the marks inside stand: a
/// settling looks at no MAINTAIN's condition, so the GOAL goes on, or ends when it is reached.
#[test]
fn a_broken_maintain_with_its_marks() {
    let (file, record) = held_record(2, [1, 1, 1, 0]);
    for after in settle_record(&file, &record, 2) {
        assert_eq!(after[MARKS..MARKS + 4], [1, 1, 1, 0]);
    }
    for after in settle_record(&file, &record, 1) {
        assert_eq!(after[MARKS..MARKS + 4], [1, 0, 0, 1]);
    }
}

/// MAINTAIN(variable 0 differs from 2, START 0) and then GOAL 0=3, with a record in phase 1: the last
/// time is 30, and clock 0 was started at `started_at`. No run comes to that: the only START of clock 0
/// has not ended yet.
fn started_record(started_at: u8, estimate: u8, marks: [u8; 4]) -> (Vec<u8>, Vec<u8>) {
    let root = seq(vec![maintain(differs(0, 2), start(0)), goal(0, 3)]);
    let mut record = vec![0; RECORD_LEN];
    record[PHASE] = OFFERED;
    record[TIME] = 30;
    record[ESTIMATE] = estimate;
    record[STARTED] = 1;
    record[start_place(0)] = started_at;
    record[MARKS..MARKS + 4].copy_from_slice(&marks);
    (file(1, 1, &root), record)
}

/// The START is marked, though its clock is started: it sets it to the last time. So it does where the
/// condition is violated by the estimate stored and yet the marks inside stand, since a settling looks
/// at no MAINTAIN's condition.
#[test]
fn a_started_clock_before_its_first_start() {
    for started_at in [0, 29, 30] {
        for estimate in [0, 2] {
            let (file, record) = started_record(started_at, estimate, [1, 1, 1, 0]);
            for after in settle_record(&file, &record, 0) {
                assert_eq!(after[MARKS..MARKS + 4], [1, 0, 0, 1]);
                assert_eq!(after[STARTED], 1);
                assert_eq!(time_at(&after, start_place(0)), 30);
            }
        }
    }
}

/// The START is not marked: the clock keeps its start, whether or not the MAINTAIN, in which nothing is
/// marked, is violated.
#[test]
fn a_started_clock_without_its_start() {
    for estimate in [0, 2] {
        let (file, record) = started_record(25, estimate, [1, 1, 0, 0]);
        for after in settle_record(&file, &record, 0) {
            assert_eq!(after[MARKS..MARKS + 4], [1, 0, 0, 1]);
            assert_eq!(after[STARTED], 1);
            assert_eq!(time_at(&after, start_place(0)), 25);
        }
    }
}

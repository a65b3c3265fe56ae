//! Each clause of "a record is allowed when" broken, and nothing else.

use gurvoke::examples::NO_PHASE;
use gurvoke::executive::ALL;
use gurvoke::record::{
    start_place, ESTIMATE, FINISHED, MARKS, OFFERED, PHASE, RECORD_LEN, STARTED, TIME, WAITING,
};
use gurvoke::refusals::RECORD_NOT_ALLOWED;
use gurvoke::rng::Rng;
use gurvoke::runs::Call;
use gurvoke::sizes::{MAX_CLOCKS, MAX_PARTS, MAX_VARIABLES, TIME_LEN, UNKNOWN_VALUE};
use gurvoke::states;
use gurvoke::unfolding::Program;

use super::{mark, program_file, reached, unmark, PARTS};
use crate::harness::{table_of, Board, NO_VALUES};

/// An offer and a settling that nothing but the record can stand against.
fn two_calls() -> [Call; 2] {
    let offer = Call::Offer {
        time: u32::MAX,
        room: 2,
    };
    let estimate = vec![0, 0];
    [offer, Call::Settle { estimate }]
}

/// Every executive refuses the record with 10, for both calls, and changes nothing. The paper's
/// clauses over the tree refuse it too.
fn assert_not_allowed(record: &[u8], clause: &str) {
    let file = program_file();
    let program = Program::read(&file).expect("a valid program");
    assert!(states::read(&program, record).is_none(), "{clause}");
    let mut rng = Rng::new(600);
    for &executive in ALL {
        let mut board = Board::holding(&mut rng, executive, &table_of(&file), record);
        for call in two_calls() {
            board.assert_refused(&mut rng, &call, RECORD_NOT_ALLOWED);
        }
    }
}

/// Changes each record of a run in which `fits` holds so that it breaks the clause. Unchanged, each
/// is allowed.
fn break_clause(clause: &str, fits: fn(&[u8]) -> bool, damage: impl Fn(&mut [u8])) {
    let program = Program::read(&program_file()).expect("a valid program");
    let mut broken = 0;
    for mut record in reached(&program) {
        assert!(states::read(&program, &record).is_some());
        if fits(&record) {
            damage(&mut record);
            assert_not_allowed(&record, clause);
            broken += 1;
        }
    }
    assert!(broken > 0, "{clause}");
}

fn any(_: &[u8]) -> bool {
    true
}

fn unfinished(record: &[u8]) -> bool {
    record[PHASE] != FINISHED
}

fn waiting(record: &[u8]) -> bool {
    record[PHASE] == WAITING
}

fn finished(record: &[u8]) -> bool {
    record[PHASE] == FINISHED
}

/// The records in which the CHOICE is decided and clock 1 is started.
fn decided(record: &[u8]) -> bool {
    record[MARKS + 8] == 1
}

fn clock_1_started(record: &[u8]) -> bool {
    record[STARTED + 1] == 1
}

fn clock_1_unstarted(record: &[u8]) -> bool {
    record[STARTED + 1] == 0
}

/// The paper's example of a record that is not allowed.
#[test]
fn phase_of_the_paper() {
    break_clause("phase", any, |record| record[PHASE] = NO_PHASE);
}

#[test]
fn values_not_named() {
    for phase in FINISHED + 1..=255 {
        break_clause("phase", any, |record| record[PHASE] = phase);
    }
    for value in [2, 3, 128, 254, 255] {
        for clock in 0..2 {
            break_clause("flag", any, |record| record[STARTED + clock] = value);
        }
        for part in 0..PARTS {
            break_clause("mark", any, |record| record[MARKS + part] = value);
        }
    }
    for value in NO_VALUES {
        for variable in 0..2 {
            break_clause("estimate", any, |record| {
                record[ESTIMATE + variable] = value
            });
        }
    }
}

#[test]
fn entries_beyond_the_sizes() {
    for value in [1, UNKNOWN_VALUE] {
        for variable in 2..MAX_VARIABLES {
            break_clause("beyond V", any, |record| {
                record[ESTIMATE + variable] = value
            });
        }
        for clock in 2..MAX_CLOCKS {
            break_clause("beyond K", any, |record| record[STARTED + clock] = value);
            for byte in 0..TIME_LEN {
                break_clause("start beyond K", any, |record| {
                    record[start_place(clock) + byte] = value
                });
                break_clause("clock beyond K", any, |record| {
                    record[STARTED + clock] = 1;
                    record[start_place(clock) + byte] = value;
                });
            }
        }
        for part in PARTS..MAX_PARTS {
            break_clause("beyond N", any, |record| record[MARKS + part] = value);
        }
    }
}

#[test]
fn times_of_clocks() {
    for byte in 0..TIME_LEN {
        break_clause("unstarted, with a time", any, |record| {
            record[start_place(0) + byte] = 1
        });
        break_clause("unstarted, with a time", clock_1_unstarted, |record| {
            record[start_place(1) + byte] = 1
        });
    }
    break_clause("flag taken away", clock_1_started, |record| {
        record[STARTED + 1] = 0
    });
    break_clause("one after the last time", clock_1_started, |record| {
        record[start_place(1)] = record[TIME] + 1
    });
    for byte in 1..TIME_LEN {
        break_clause("far after the last time", clock_1_started, |record| {
            record[start_place(1) + byte] = 1
        });
    }
    break_clause("last time before a start", clock_1_started, |record| {
        record[TIME] = 4
    });
    break_clause("started after time 0", clock_1_unstarted, |record| {
        record[STARTED] = 1;
        record[start_place(0)] = 1;
    });
}

#[test]
fn marks_and_the_phase() {
    break_clause("finished, with its marks", unfinished, |record| {
        record[PHASE] = FINISHED
    });
    for part in 0..PARTS {
        break_clause("finished, with a mark", finished, |record| {
            mark(record, &[part])
        });
    }
    break_clause("no mark", unfinished, |record| record[MARKS..].fill(0));
    break_clause("not finished", finished, |record| record[PHASE] = WAITING);
    break_clause("not finished", finished, |record| record[PHASE] = OFFERED);
    break_clause("root unmarked", unfinished, |record| unmark(record, &[0]));
}

/// Nothing is marked inside an unmarked part, however deep.
#[test]
fn marks_inside_unmarked_parts() {
    // The first branch's GOAL, while the branch is not marked.
    break_clause("GOAL in no branch", unfinished, |record| mark(record, &[7]));
    // A part unmarked above marked ones, at depth 2, 3 and 4.
    for part in [1, 2, 5, 9, 10] {
        break_clause("parent taken away", decided, |record| {
            unmark(record, &[part])
        });
    }
    // Parts whose parent is unmarked, and its parent too, up to the whole way to the root.
    break_clause("inside one unmarked", unfinished, |record| {
        mark(record, &[14])
    });
    break_clause("inside two unmarked", unfinished, |record| {
        unmark(record, &[10, 11, 12]);
        mark(record, &[14]);
    });
    break_clause("inside three unmarked", unfinished, |record| {
        unmark(record, &[9, 10, 11, 12]);
        mark(record, &[14]);
    });
    break_clause(
        "inside three unmarked, with its parent",
        unfinished,
        |record| {
            unmark(record, &[9, 10, 11, 12]);
            mark(record, &[13, 14, 15]);
        },
    );
    break_clause("inside a dropped MAINTAIN", unfinished, |record| {
        unmark(record, &[2])
    });
}

#[test]
fn numbers_of_marked_children() {
    break_clause("SEQ with none", unfinished, |record| unmark(record, &[3]));
    break_clause("SEQ with two", unfinished, |record| mark(record, &[4]));
    break_clause("SEQ with three", unfinished, |record| {
        mark(record, &[11, 12, 13, 14])
    });
    break_clause("SEQ of one with none", unfinished, |record| {
        unmark(record, &[8]);
        mark(record, &[6]);
    });
    break_clause("REPEAT with none", unfinished, |record| {
        unmark(record, &[10, 11, 12])
    });
    break_clause("PAR with none", decided, |record| {
        unmark(record, &[12]);
        mark(record, &[13]);
    });
    break_clause("root PAR with none", unfinished, |record| {
        record[MARKS + 1..].fill(0)
    });
    break_clause("CHOICE with two", unfinished, |record| {
        mark(record, &[6, 7, 8])
    });
    break_clause("MAINTAIN with none before an offer", waiting, |record| {
        unmark(record, &[2, 3])
    });
}

#[test]
fn records_too_short() {
    let program = Program::read(&program_file()).expect("a valid program");
    for record in reached(&program) {
        for len in 0..RECORD_LEN {
            assert_not_allowed(&record[..len], "length");
        }
    }
}

/// 10 comes before 14, 11, 12, 13 and 8.
#[test]
fn a_record_not_allowed_comes_first() {
    let file = program_file();
    let program = Program::read(&file).expect("a valid program");
    let mut rng = Rng::new(602);
    for mut record in reached(&program) {
        record[MARKS + MAX_PARTS - 1] = 1;
        for &executive in ALL {
            let mut board = Board::holding(&mut rng, executive, &table_of(&file), &record);
            let offer = Call::Offer { time: 0, room: 0 };
            let estimate = vec![NO_VALUES.start];
            board.assert_refused(&mut rng, &offer, RECORD_NOT_ALLOWED);
            board.assert_refused(&mut rng, &Call::Settle { estimate }, RECORD_NOT_ALLOWED);
        }
    }
}

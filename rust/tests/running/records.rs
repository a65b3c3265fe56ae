//! Records that are not allowed, clause by clause, and records that are though no run comes to
//! them.

mod changes;
mod clauses;
mod estimates;
mod unreached;

use gurvoke::builder::{
    at_least, choice, differs, equals, file, goal, maintain, par, repeat, seq, start, wait,
};
use gurvoke::executive::{Executive, ALL};
use gurvoke::record::{start_place, time_at, FINISHED, MARKS, PHASE, STARTED};
use gurvoke::refusals::RECORD_NOT_ALLOWED;
use gurvoke::rng::Rng;
use gurvoke::runs::{self, Call};
use gurvoke::states;
use gurvoke::unfolding::{Program, Run};

use crate::harness::{table_of, Board, Given};

/// The number of parts of the program below.
const PARTS: usize = 17;

/// Two variables, two clocks and 17 parts, of every kind, numbered as the comments say.
fn program_file() -> Vec<u8> {
    let root = par(vec![
        // 0
        maintain(
            // 1
            differs(0, 2),
            seq(vec![goal(0, 1), wait(equals(1, 1))]), // 2: 3, 4
        ),
        choice(
            // 5
            at_least(0, 1),
            seq(vec![goal(1, 3)]), // 6: 7
            start(0),              // 8
        ),
        repeat(seq(vec![
            // 9: 10
            start(1),                          // 11
            wait(at_least(1, 100)),            // 12
            par(vec![goal(1, 4), goal(1, 4)]), // 13: 14, 15
        ])),
        wait(equals(0, 5)), // 16
    ]);
    file(2, 2, &root)
}

/// Records of runs of the program, in every phase. The first waits for an offer: the CHOICE is
/// decided for its START, clock 1 was started at 5, and the last time is 5. The second is that
/// after an offer at 9.
fn reached(program: &Program) -> [Vec<u8>; 4] {
    let mut run = Run::begin(program, &[0, 0]).expect("an allowed estimate");
    let fresh = run.record();
    run.offer(5, 2).expect("an offer");
    run.settle(&[0, 0]).expect("a settling");
    let waiting = run.record();
    run.offer(9, 2).expect("an offer");
    let offered = run.record();
    // No run of this program ends, since its REPEAT does not; a record may say so all the same.
    let mut finished = waiting.clone();
    finished[PHASE] = FINISHED;
    finished[MARKS..].fill(0);
    [waiting, offered, fresh, finished]
}

/// The marks of the first two records above.
#[test]
fn marks_of_the_example() {
    let program = Program::read(&program_file()).expect("a valid program");
    let [waiting, offered, fresh, _] = reached(&program);
    let begun = [1, 1, 1, 1, 0, 1, 0, 0, 0, 1, 1, 1, 0, 0, 0, 0, 1];
    let decided = [1, 1, 1, 1, 0, 1, 0, 0, 1, 1, 1, 0, 1, 0, 0, 0, 1];
    assert_eq!(fresh[MARKS..MARKS + PARTS], begun);
    assert_eq!(waiting[MARKS..MARKS + PARTS], decided);
    assert_eq!(offered[MARKS..MARKS + PARTS], decided);
    assert_eq!(waiting[STARTED..STARTED + 2], [0, 1]);
    assert_eq!(time_at(&waiting, start_place(1)), 5);
}

fn unmark(record: &mut [u8], parts: &[usize]) {
    for part in parts {
        record[MARKS + part] = 0;
    }
}

fn mark(record: &mut [u8], parts: &[usize]) {
    for part in parts {
        record[MARKS + part] = 1;
    }
}

/// What the clauses leave free is allowed, so that those above are refused for their clause alone.
#[test]
fn marks_that_are_allowed() {
    let file = program_file();
    let program = Program::read(&file).expect("a valid program");
    let [waiting, offered, _, _] = reached(&program);
    let changes: [fn(&mut [u8]); 6] = [
        |record| unmark(record, &[5, 8]), // PAR without its CHOICE
        |record| unmark(record, &[8]),    // CHOICE with none
        |record| unmark(record, &[1, 2, 3, 5, 8, 16]), // PAR with one
        |record| {
            unmark(record, &[12]);
            mark(record, &[13, 15]); // SEQ at its last child, a PAR with one
        },
        |record| {
            unmark(record, &[3]);
            mark(record, &[4]); // SEQ at its second child
        },
        |record| {
            record[STARTED..STARTED + 2].copy_from_slice(&[1, 1]);
            record[start_place(0)..start_place(2)].copy_from_slice(&[5, 0, 0, 0, 0, 0, 0, 0]);
        },
    ];
    let mut rng = Rng::new(601);
    for &executive in ALL {
        for change in changes {
            for record in [&waiting, &offered] {
                let mut record = record.clone();
                change(&mut record);
                let accepted = check_record(&mut rng, executive, &file, &program, &record);
                assert_eq!(accepted, Some(1));
            }
        }
    }
}

/// Makes both calls on this record. Where it holds a state, allowed or not reached by any run, all
/// is compared with the unfolding from that state; else both calls must get 10. Gives how many of
/// the calls were accepted, if the record is allowed.
fn check_record(
    rng: &mut Rng,
    executive: &'static Executive,
    file: &[u8],
    program: &Program,
    record: &[u8],
) -> Option<usize> {
    let board = Board::holding(rng, executive, &table_of(file), record);
    let time = rng.pick(&[u32::MAX, u32::MAX, 5, 9]);
    let room = program.sizes.variables;
    let estimate = runs::first_estimate(rng, program);
    let calls = [Call::Offer { time, room }, Call::Settle { estimate }];
    let Some(state) = states::read(program, record) else {
        for call in calls {
            board.clone().assert_refused(rng, &call, RECORD_NOT_ALLOWED);
        }
        return None;
    };
    let mut accepted = 0;
    for call in calls {
        let given = board.clone().call(rng, &mut state.clone(), &call);
        accepted += usize::from(!matches!(given, Given::Refused(_)));
    }
    Some(accepted)
}

//! The examples and stations of document 01, with the numbers and bytes that it gives.

use gurvoke::examples::{self, Example};
use gurvoke::model;
use gurvoke::parts::{
    AT_LEAST, BELOW, CHOICE, DIFFERS, EQUALS, GOAL, MAINTAIN, PAR, REPEAT, SEQ, START, WAIT,
};
use gurvoke::refusals::{
    BUFFER_TOO_SHORT, FILE_TOO_SHORT, NOT_A_TABLE, NOT_ONE_TREE, OPERAND_NOT_ALLOWED,
    SIZE_OUT_OF_RANGE, TOO_DEEP, UNKNOWN_KIND, WRONG_LENGTH,
};
use gurvoke::rng::Rng;
use gurvoke::sizes::{file_len, table_len, MAX_PARTS, MAX_TABLE_LEN, SIZES_LEN};
use gurvoke::stations::{repeats_above_goal, rows_of_repeats_above_goal, STATION_10};

use crate::harness::{check_compile, check_decompile};

/// A table of one GOAL and the file that gives it.
const ONE_GOAL: [u8; 8] = [0x01, 0x01, 0x00, 0x01, 0x00, 0x00, 0x00, 0x00];
const ONE_GOAL_TABLE: [u8; 11] = [1, 1, 0, 1, 1, 255, 255, 0, 0, 0, 0];

/// The table of station 10, as the listing shows it.
const STATION_10_TABLE: [u8; 27] = [
    3, 1, 1, // sizes
    4, 3, 255, 255, 2, 0, 0, 0, //
    2, 2, 0, 2, 0, 0, 0, 0, //
    3, 3, 0, 255, 3, 0, 10, 0,
];

/// More room than any table or file needs.
const AMPLE: usize = 2 * MAX_TABLE_LEN;

/// Expects a refusal from library and model.
fn assert_file_refused(file: &[u8], table_len: usize, number: u32) {
    let mut rng = Rng::new(1);
    assert_eq!(check_compile(&mut rng, file, table_len), Err(number));
}

/// Expects a refusal from library and model.
fn assert_table_refused(table: &[u8], file_len: usize, number: u32) {
    let mut rng = Rng::new(2);
    assert_eq!(check_decompile(&mut rng, table, file_len), Err(number));
}

/// Expects this table for this file, from library and model, and the file back for the table.
fn assert_pair(file: &[u8], table: &[u8]) {
    let mut rng = Rng::new(3);
    assert_eq!(check_compile(&mut rng, file, table.len()), Ok(()));
    assert_eq!(check_decompile(&mut rng, table, file.len()), Ok(()));
    for compile in [gurvoke::compile, model::compile] {
        let mut output = vec![0x5A; table.len() + 2];
        assert_eq!(compile(file, &mut output), Ok(()));
        assert_eq!(output[..table.len()], *table);
        assert_eq!(output[table.len()..], [0x5A, 0x5A]);
    }
    for decompile in [gurvoke::decompile, model::decompile] {
        let mut output = vec![0x5A; file.len() + 2];
        assert_eq!(decompile(table, &mut output), Ok(()));
        assert_eq!(output[..file.len()], *file);
        assert_eq!(output[file.len()..], [0x5A, 0x5A]);
    }
}

/// A file of these sizes and parts, each a kind with its operand.
fn file_of(variables: u8, clocks: u8, parts: &[(u8, [u8; 4])]) -> Vec<u8> {
    let mut file = vec![parts.len() as u8, variables, clocks];
    file.extend(parts.iter().map(|(kind, _)| kind));
    file.extend(parts.iter().flat_map(|(_, operand)| operand));
    file
}

/// A SEQ of as many GOALs as make `parts` parts.
fn seq_of_goals(parts: u8) -> Vec<u8> {
    let mut list = vec![(SEQ, [parts - 1, 0, 0, 0])];
    list.resize(usize::from(parts), (GOAL, [0; 4]));
    file_of(1, 0, &list)
}

#[test]
fn each_refusal_of_the_paper() {
    for (refusal, example) in examples::all() {
        match example {
            Example::File(file) => assert_file_refused(&file, AMPLE, refusal),
            Example::Buffer { file, table_len } => assert_file_refused(&file, table_len, refusal),
            Example::Table(table) => assert_table_refused(&table, AMPLE, refusal),
            // Of runs.
            Example::Phase(_) | Example::Calls(_) => {}
        }
    }
}

/// One byte less than is needed.
#[test]
fn a_buffer_too_short_by_one() {
    assert_file_refused(&ONE_GOAL, table_len(1) - 1, BUFFER_TOO_SHORT);
    assert_table_refused(&ONE_GOAL_TABLE, file_len(1) - 1, BUFFER_TOO_SHORT);
}

/// Reading refuses 1 to 7 in this order, each over all parts, and then 8.
#[test]
fn the_earlier_refusal_wins() {
    assert_file_refused(&[0x00, 0x00], 0, FILE_TOO_SHORT);
    assert_file_refused(&[0x01, 0x00, 0x00, 0x09], 0, SIZE_OUT_OF_RANGE);
    assert_file_refused(&[0x01, 0x01, 0x00, 0x09], 0, WRONG_LENGTH);

    let bad_operand = (GOAL, [1, 0, 0, 0]);
    let unknown = (9, [0, 0, 0, 0]);
    let lone_repeat = (REPEAT, [0, 0, 0, 0]);
    assert_file_refused(&file_of(1, 0, &[bad_operand, unknown]), 0, UNKNOWN_KIND);
    assert_file_refused(
        &file_of(1, 0, &[lone_repeat, lone_repeat, bad_operand]),
        0,
        OPERAND_NOT_ALLOWED,
    );
    assert_file_refused(&file_of(1, 0, &[lone_repeat; 17]), 0, NOT_ONE_TREE);
    assert_file_refused(&repeats_above_goal(16), 0, TOO_DEEP);
    assert_file_refused(&ONE_GOAL, 0, BUFFER_TOO_SHORT);

    assert_table_refused(&[], 0, NOT_A_TABLE);
    assert_table_refused(&ONE_GOAL_TABLE[..table_len(1) - 1], 0, NOT_A_TABLE);
    assert_table_refused(&ONE_GOAL_TABLE, 0, BUFFER_TOO_SHORT);
}

#[test]
fn sizes_at_their_limits() {
    let goal = (GOAL, [0; 4]);
    for (variables, clocks) in [(1, 0), (32, 0), (1, 16), (32, 16)] {
        let file = file_of(variables, clocks, &[goal]);
        let table = [&[1, variables, clocks][..], &ONE_GOAL_TABLE[SIZES_LEN..]].concat();
        assert_pair(&file, &table);
    }
    for (variables, clocks) in [(0, 0), (33, 0), (1, 17), (255, 0), (1, 255)] {
        assert_file_refused(
            &file_of(variables, clocks, &[goal]),
            AMPLE,
            SIZE_OUT_OF_RANGE,
        );
    }
    assert_file_refused(&[0, 1, 0], AMPLE, SIZE_OUT_OF_RANGE);
    assert_file_refused(&seq_of_goals(201), AMPLE, SIZE_OUT_OF_RANGE);
    assert_file_refused(&seq_of_goals(255), AMPLE, SIZE_OUT_OF_RANGE);
}

#[test]
fn two_hundred_parts() {
    let mut table = vec![200, 1, 0, 4, 200, 255, 255, 199, 0, 0, 0];
    for part in 1..=199 {
        let next = if part == 199 { 255 } else { part + 1 };
        table.extend([1, part + 1, 0, next, 0, 0, 0, 0]);
    }
    assert_pair(&seq_of_goals(200), &table);
}

#[test]
fn operands_at_their_limits() {
    let accepted: [(u8, [u8; 4]); 9] = [
        (GOAL, [0, 1, 250, 0]),
        (START, [0, 0, 0, 0]),
        (WAIT, [EQUALS, 1, 250, 0]),
        (WAIT, [DIFFERS, 0, 0, 0]),
        (WAIT, [AT_LEAST, 0, 255, 255]),
        (WAIT, [BELOW, 0, 251, 0]),
        (WAIT, [BELOW, 0, 0, 1]),
        (GOAL, [0, 0, 0, 0]),
        (START, [0, 0, 0, 0]),
    ];
    for (kind, operand) in accepted {
        let table = [&[1, 2, 1, kind, 1, 255, 255][..], &operand].concat();
        assert_pair(&file_of(2, 1, &[(kind, operand)]), &table);
    }
    let refused: [(u8, [u8; 4]); 20] = [
        (GOAL, [1, 0, 0, 0]),
        (GOAL, [0, 2, 0, 0]),
        (GOAL, [0, 0, 251, 0]),
        (GOAL, [0, 0, 0, 1]),
        (START, [1, 0, 0, 0]),
        (START, [0, 1, 0, 0]),
        (START, [0, 0, 1, 0]),
        (START, [0, 0, 0, 1]),
        (WAIT, [0, 0, 0, 0]),
        (WAIT, [5, 0, 0, 0]),
        (WAIT, [EQUALS, 2, 0, 0]),
        (WAIT, [DIFFERS, 0, 251, 0]),
        (WAIT, [EQUALS, 0, 0, 1]),
        (WAIT, [AT_LEAST, 1, 0, 0]),
        (SEQ, [0, 0, 0, 0]),
        (PAR, [0, 0, 0, 0]),
        (SEQ, [1, 1, 0, 0]),
        (PAR, [1, 0, 1, 0]),
        (MAINTAIN, [0, 0, 0, 0]),
        (REPEAT, [1, 0, 0, 0]),
    ];
    for (kind, operand) in refused {
        assert_file_refused(
            &file_of(2, 1, &[(kind, operand)]),
            AMPLE,
            OPERAND_NOT_ALLOWED,
        );
    }
    // A START needs a clock.
    assert_file_refused(
        &file_of(1, 0, &[(START, [0; 4])]),
        AMPLE,
        OPERAND_NOT_ALLOWED,
    );
}

#[test]
fn parts_that_form_no_single_tree() {
    let goal = (GOAL, [0; 4]);
    let repeat = (REPEAT, [0; 4]);
    let choice = (CHOICE, [EQUALS, 0, 0, 0]);
    let not_one_tree: [&[(u8, [u8; 4])]; 6] = [
        &[goal, goal],
        &[repeat, goal, goal],
        &[choice, goal],
        &[(SEQ, [2, 0, 0, 0]), goal],
        &[(PAR, [255, 0, 0, 0]), goal],
        &[repeat, repeat],
    ];
    for parts in not_one_tree {
        assert_file_refused(&file_of(1, 0, parts), AMPLE, NOT_ONE_TREE);
    }

    // Many more children asked for than a byte can count; in the second file 256 too many.
    let most_children = (SEQ, [255, 0, 0, 0]);
    assert_file_refused(
        &file_of(1, 0, &[most_children; MAX_PARTS]),
        AMPLE,
        NOT_ONE_TREE,
    );
    let mut parts = vec![most_children, (PAR, [200, 0, 0, 0])];
    parts.resize(MAX_PARTS, goal);
    assert_file_refused(&file_of(1, 0, &parts), AMPLE, NOT_ONE_TREE);
}

#[test]
fn as_deep_as_a_file_can_say() {
    assert_file_refused(&repeats_above_goal(MAX_PARTS - 1), AMPLE, TOO_DEEP);
    assert_file_refused(
        &file_of(1, 0, &[(REPEAT, [0; 4]); MAX_PARTS]),
        AMPLE,
        NOT_ONE_TREE,
    );
}

#[test]
fn station_9() {
    assert_pair(&repeats_above_goal(15), &rows_of_repeats_above_goal(15));
    assert_file_refused(&repeats_above_goal(16), AMPLE, TOO_DEEP);
    assert_table_refused(&rows_of_repeats_above_goal(16), AMPLE, NOT_A_TABLE);
}

#[test]
fn station_10() {
    assert_pair(&STATION_10, &STATION_10_TABLE);
}

/// Every composite kind in one program, its table worked out by hand.
#[test]
fn each_kind_in_one_table() {
    let file = file_of(
        2,
        1,
        &[
            (PAR, [4, 0, 0, 0]),             // 0 PAR
            (MAINTAIN, [DIFFERS, 0, 2, 0]),  // 1   MAINTAIN variable 0 differs from 2
            (GOAL, [0, 0, 1, 0]),            // 2     GOAL
            (CHOICE, [AT_LEAST, 0, 0, 1]),   // 3   CHOICE clock 0 at least 256
            (WAIT, [BELOW, 0, 5, 0]),        // 4     WAIT clock 0 below 5
            (SEQ, [1, 0, 0, 0]),             // 5     SEQ
            (GOAL, [0, 1, 250, 0]),          // 6       GOAL
            (REPEAT, [0, 0, 0, 0]),          // 7   REPEAT
            (SEQ, [3, 0, 0, 0]),             // 8     SEQ
            (START, [0, 0, 0, 0]),           // 9       START
            (REPEAT, [0, 0, 0, 0]),          // 10      REPEAT
            (WAIT, [EQUALS, 1, 7, 0]),       // 11        WAIT
            (GOAL, [0, 0, 0, 0]),            // 12      GOAL
            (WAIT, [AT_LEAST, 0, 255, 255]), // 13  WAIT
        ],
    );
    let table = [
        14, 2, 1, // sizes
        5, 14, 255, 255, 4, 0, 0, 0, // 0
        6, 3, 0, 255, 2, 0, 2, 0, // 1
        1, 3, 1, 255, 0, 0, 1, 0, // 2
        7, 7, 0, 255, 3, 0, 0, 1, // 3
        3, 5, 3, 255, 4, 0, 5, 0, // 4
        4, 7, 3, 255, 1, 0, 0, 0, // 5
        1, 7, 5, 255, 0, 1, 250, 0, // 6
        8, 13, 0, 255, 0, 0, 0, 0, // 7
        4, 13, 7, 8, 3, 0, 0, 0, // 8
        2, 10, 8, 10, 0, 0, 0, 0, // 9
        8, 12, 8, 12, 0, 0, 0, 0, // 10
        3, 12, 10, 11, 1, 1, 7, 0, // 11
        1, 13, 8, 255, 0, 0, 0, 0, // 12
        3, 14, 0, 255, 3, 0, 255, 255, // 13
    ];
    assert_pair(&file, &table);
}

/// A table has exactly its length: a byte more makes it no table.
#[test]
fn a_longer_table_is_none() {
    let mut table = STATION_10_TABLE.to_vec();
    table.push(0);
    assert_table_refused(&table, AMPLE, NOT_A_TABLE);
}

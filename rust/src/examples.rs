//! The examples of document 01's table "Refusal by refusal".

use crate::refusals::{
    BUFFER_TOO_SHORT, ESTIMATE_NOT_ALLOWED, FILE_TOO_SHORT, NOT_A_TABLE, NOT_ONE_TREE,
    OPERAND_NOT_ALLOWED, RECORD_NOT_ALLOWED, RUN_FINISHED, SIZE_OUT_OF_RANGE, TIME_BEFORE_LAST,
    TOO_DEEP, UNKNOWN_KIND, WRONG_LENGTH, WRONG_PHASE,
};
use crate::runs::Call;
use crate::stations::repeats_above_goal;

/// Bytes that are not the table of any file.
pub const NO_TABLE: [u8; 3] = [0x01, 0x01, 0x00];

/// A phase byte that no record has.
pub const NO_PHASE: u8 = 7;

/// What gets a refusal.
#[derive(Debug)]
pub enum Example {
    /// This file is read, with room for any table.
    File(Vec<u8>),
    /// This file is read into so many bytes.
    Buffer { file: Vec<u8>, table_len: usize },
    /// These bytes are given back, with room for any file.
    Table(Vec<u8>),
    /// The phase of a run's record becomes this byte, and an offer or a settling is made.
    Phase(u8),
    /// Station 1 begins with 00, and these calls are made: all are accepted but the last one.
    Calls(Vec<Call>),
}

/// The example of each refusal. The paper knows none of the last one.
pub fn all() -> Vec<(u32, Example)> {
    use Example::{Buffer, Calls, File, Phase, Table};
    let one_part = repeats_above_goal(0);
    let table_len = 10;
    vec![
        (FILE_TOO_SHORT, File(vec![])),
        (SIZE_OUT_OF_RANGE, File(vec![0x00, 0x01, 0x00])),
        (WRONG_LENGTH, File(vec![0x01, 0x01, 0x00, 0x01])),
        (UNKNOWN_KIND, File(vec![1, 1, 0, 9, 0, 0, 0, 0])),
        (OPERAND_NOT_ALLOWED, File(vec![1, 1, 0, 1, 0, 1, 0, 0])),
        (NOT_ONE_TREE, File(vec![1, 1, 0, 8, 0, 0, 0, 0])),
        (TOO_DEEP, File(repeats_above_goal(16))),
        (
            BUFFER_TOO_SHORT,
            Buffer {
                file: one_part,
                table_len,
            },
        ),
        (NOT_A_TABLE, Table(NO_TABLE.to_vec())),
        (RECORD_NOT_ALLOWED, Phase(NO_PHASE)),
        (WRONG_PHASE, Calls(vec![settle(0)])),
        (
            TIME_BEFORE_LAST,
            Calls(vec![offer(10), settle(0), offer(9)]),
        ),
        (ESTIMATE_NOT_ALLOWED, Calls(vec![offer(10), settle(0xFB)])),
        (RUN_FINISHED, Calls(vec![offer(10), settle(1), offer(10)])),
    ]
}

/// The examples that are files.
pub fn files() -> impl Iterator<Item = (u32, Vec<u8>)> {
    all()
        .into_iter()
        .filter_map(|(refusal, example)| match example {
            Example::File(file) => Some((refusal, file)),
            _ => None,
        })
}

/// The examples that are calls of a run.
pub fn calls() -> impl Iterator<Item = (u32, Vec<Call>)> {
    all()
        .into_iter()
        .filter_map(|(refusal, example)| match example {
            Example::Calls(calls) => Some((refusal, calls)),
            _ => None,
        })
}

fn offer(time: u32) -> Call {
    Call::Offer { time, room: 1 }
}

fn settle(value: u8) -> Call {
    let estimate = vec![value];
    Call::Settle { estimate }
}

#[cfg(test)]
mod tests {
    use super::*;
    use crate::refusals::{self, NOTHING_AT_WORK};

    #[test]
    fn each_refusal_but_the_last_has_its_example() {
        let numbers = refusals::ALL.iter().map(|(_, number)| *number);
        let with_example: Vec<u32> = all().iter().map(|(refusal, _)| *refusal).collect();
        let expected: Vec<u32> = numbers.filter(|&number| number < NOTHING_AT_WORK).collect();
        assert_eq!(with_example, expected);
    }
}

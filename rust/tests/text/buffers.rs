//! Buffers of every length, for texts of every answer.

use gurvoke::answers::DONE;
use gurvoke::counts::assert_counts;
use gurvoke::refusals::{
    BUFFER_TOO_SHORT, NOT_A_TEXT, OPERAND_NOT_ALLOWED, SIZE_OUT_OF_RANGE, TOO_DEEP,
};
use gurvoke::rng::Rng;
use gurvoke::sizes::{file_len, MAX_DEPTH, MAX_PARTS};
use gurvoke::text::long::{list, nest};
use gurvoke::text::program;

use crate::harness::{check_text, Tally};

/// Bytes more than are needed, up to which buffers are tried.
const MORE: usize = 10;

/// Accepted texts: too short up to one less than the file, then just enough and more.
#[test]
fn files_of_every_size() {
    let mut rng = Rng::new(330);
    let mut tally = Tally::default();
    for steps in [1, 2, 3, 20, MAX_PARTS - 1] {
        for joint in [";", ","] {
            let text = list("v0=1", joint, steps);
            let exact = program(&text).expect("an accepted text").sizes.file_len();
            for len in 0..=exact + MORE {
                let expected = match len < exact {
                    true => Err(BUFFER_TOO_SHORT),
                    false => Ok(()),
                };
                let answer = check_text(&mut rng, &text, len);
                assert_eq!(answer, expected, "{steps} steps into {len} bytes");
                tally.note(answer);
            }
        }
    }
    assert_counts(file!(), "files_of_every_size", &tally.counts());
    tally.require(&[(DONE, 100), (BUFFER_TOO_SHORT, 1000)]);
}

/// A refused text has the same refusal whatever the room.
#[test]
fn refusals_come_before_the_buffers() {
    let mut rng = Rng::new(331);
    let mut tally = Tally::default();
    let refused: [(Vec<u8>, u32); 5] = [
        (b"1 1: v0=1;".to_vec(), NOT_A_TEXT),
        (b"0 1: v0=1".to_vec(), SIZE_OUT_OF_RANGE),
        (list("v0=1", ",", MAX_PARTS), SIZE_OUT_OF_RANGE),
        (b"1 1: v0=1; v0=2; v1=3".to_vec(), OPERAND_NOT_ALLOWED),
        (nest("repeat(", MAX_DEPTH, "v0=1", ")"), TOO_DEEP),
    ];
    for (text, refusal) in refused {
        for len in 0..=file_len(MAX_PARTS) + MORE {
            let answer = check_text(&mut rng, &text, len);
            assert_eq!(answer, Err(refusal), "into {len} bytes");
            tally.note(answer);
        }
    }
    assert_counts(file!(), "refusals_come_before_the_buffers", &tally.counts());
}

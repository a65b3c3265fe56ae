//! Random texts: written from random programs, and damaged.

use gurvoke::answers::DONE;
use gurvoke::counts::assert_counts;
use gurvoke::refusals::{
    BUFFER_TOO_SHORT, NOT_A_TEXT, OPERAND_NOT_ALLOWED, SIZE_OUT_OF_RANGE, TOO_DEEP,
};
use gurvoke::rng::Rng;
use gurvoke::sizes::{file_len, MAX_FILE_LEN};
use gurvoke::text::cases::{damaged, spoilt, typed_program, with_damaged_signs};
use gurvoke::text::{self, printer::written};

use crate::harness::{check_all, check_text, expect_program, Tally};

/// Programs that a text can say, in all ways that they can be written.
#[test]
fn valid_texts() {
    let mut rng = Rng::new(320);
    let mut tally = Tally::default();
    for _ in 0..40_000 {
        let typed = typed_program(&mut rng);
        let text = written(&mut rng, &typed);
        expect_program(&mut rng, &mut tally, &text, &typed);
    }
    assert_counts(file!(), "valid_texts", &tally.counts());
    tally.require(&[(DONE, 80_000), (BUFFER_TOO_SHORT, 100_000)]);
}

/// Programs with sizes, operands or depths that the grammar lets through and a file does not.
#[test]
fn spoilt_programs() {
    let mut rng = Rng::new(321);
    let mut tally = Tally::default();
    for _ in 0..40_000 {
        let valid = typed_program(&mut rng);
        let typed = spoilt(&mut rng, valid);
        let text = written(&mut rng, &typed);
        check_any(&mut rng, &mut tally, &text);
    }
    assert_counts(file!(), "spoilt_programs", &tally.counts());
    tally.require(&[
        (DONE, 2_000),
        (SIZE_OUT_OF_RANGE, 10_000),
        (OPERAND_NOT_ALLOWED, 5_000),
        (TOO_DEEP, 2_000),
        (BUFFER_TOO_SHORT, 1_000),
    ]);
}

/// Bytes dropped, doubled, exchanged, put in and cut off.
#[test]
fn damaged_texts() {
    let mut rng = Rng::new(322);
    let mut tally = Tally::default();
    for _ in 0..60_000 {
        let typed = perhaps_spoilt(&mut rng);
        let whole = written(&mut rng, &typed);
        let text = damaged(&mut rng, &whole);
        check_any(&mut rng, &mut tally, &text);
    }
    assert_counts(file!(), "damaged_texts", &tally.counts());
    tally.require(&LEAST_OF_DAMAGED);
}

/// Whole signs dropped, doubled, exchanged and cut off.
#[test]
fn damaged_signs() {
    let mut rng = Rng::new(323);
    let mut tally = Tally::default();
    for _ in 0..60_000 {
        let typed = perhaps_spoilt(&mut rng);
        let text = with_damaged_signs(&mut rng, &typed);
        check_any(&mut rng, &mut tally, &text);
    }
    assert_counts(file!(), "damaged_signs", &tally.counts());
    tally.require(&LEAST_OF_DAMAGED);
}

/// How often each answer comes at least where texts are damaged.
const LEAST_OF_DAMAGED: [(u32, u64); 6] = [
    (DONE, 1_000),
    (SIZE_OUT_OF_RANGE, 500),
    (OPERAND_NOT_ALLOWED, 500),
    (TOO_DEEP, 100),
    (BUFFER_TOO_SHORT, 500),
    (NOT_A_TEXT, 20_000),
];

fn perhaps_spoilt(rng: &mut Rng) -> text::Typed {
    let typed = typed_program(rng);
    match rng.one_in(4) {
        true => spoilt(rng, typed),
        false => typed,
    }
}

/// Compares one call into a buffer of random length or, for one text in ten and for all that are
/// accepted, all that can be done with the text.
fn check_any(rng: &mut Rng, tally: &mut Tally, text: &[u8]) {
    let program = text::program(text);
    if program.is_ok() || rng.one_in(10) {
        _ = check_all(rng, tally, text);
        return;
    }
    let any = rng.below(MAX_FILE_LEN);
    let room = rng.pick(&[0, file_len(1), any, MAX_FILE_LEN]);
    tally.note(check_text(rng, text, room));
}

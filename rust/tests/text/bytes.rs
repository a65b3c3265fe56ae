//! Every byte at every place of short texts, and every shorter text.

use gurvoke::answers::DONE;
use gurvoke::counts::assert_counts;
use gurvoke::refusals::{BUFFER_TOO_SHORT, NOT_A_TEXT, OPERAND_NOT_ALLOWED, SIZE_OUT_OF_RANGE};
use gurvoke::rng::Rng;
use gurvoke::sizes::MAX_FILE_LEN;
use gurvoke::text::{self, LINE_END};

use crate::harness::{check_all, check_cut, check_text, expect, Tally};

/// Short texts that have every sign between them.
const TEXTS: [&[u8]; 5] = [
    b"1 1: v0=1",
    b"1 1:start c0;wait c0>=10",
    b"2 1:maintain v0!=2(v1=1,v0=2)",
    b"1 1:if c0<5 then v0=1 else repeat v0=2",
    b"10 2:\n(wait v9=250);\n(start c1)\n",
];

/// Each byte in the place of each, and before each and behind the last.
#[test]
fn every_byte_at_every_place() {
    let mut rng = Rng::new(340);
    let mut tally = Tally::default();
    for text in TEXTS {
        for place in 0..=text.len() {
            let (front, back) = text.split_at(place);
            for byte in 0..=u8::MAX {
                let longer = [front, &[byte], back].concat();
                check(&mut rng, &mut tally, &longer);
                if let Some((_, rest)) = back.split_first() {
                    let changed = [front, &[byte], rest].concat();
                    check(&mut rng, &mut tally, &changed);
                }
            }
        }
    }
    assert_counts(file!(), "every_byte_at_every_place", &tally.counts());
    tally.require(&[
        (DONE, 500),
        (SIZE_OUT_OF_RANGE, 20),
        (OPERAND_NOT_ALLOWED, 50),
        (BUFFER_TOO_SHORT, 100),
        (NOT_A_TEXT, 50_000),
    ]);
}

/// One call, and all that can be done with a text that is accepted.
fn check(rng: &mut Rng, tally: &mut Tally, text: &[u8]) {
    if text::program(text).is_ok() {
        _ = check_all(rng, tally, text);
    } else {
        tally.note(check_text(rng, text, MAX_FILE_LEN));
    }
}

/// Where nothing belongs, a space and a line end may stand, and no other byte.
#[test]
fn bytes_where_nothing_belongs() {
    let mut rng = Rng::new(341);
    let mut tally = Tally::default();
    for byte in 0..=u8::MAX {
        let expected = match byte {
            b' ' | LINE_END => Ok(()),
            _ => Err(NOT_A_TEXT),
        };
        let places: [(&[u8], &[u8]); 4] = [
            (b"", b" 1 1:(v0=1)"),
            (b"1 1:(", b"(v0=1))"),
            (b"1 1:(v0=1 ", b")"),
            (b"1 1:(v0=1)", b""),
        ];
        for (front, back) in places {
            let text = [front, &[byte], back].concat();
            expect(&mut rng, &mut tally, &text, expected);
        }
    }
    assert_counts(file!(), "bytes_where_nothing_belongs", &tally.counts());
}

/// Every shorter piece of a text, with the rest standing behind it in memory.
#[test]
fn cut_texts() {
    let mut rng = Rng::new(342);
    let mut tally = Tally::default();
    for text in TEXTS {
        for len in 0..=text.len() {
            tally.note(check_cut(&mut rng, text, len, MAX_FILE_LEN));
        }
    }
    assert_counts(file!(), "cut_texts", &tally.counts());
}

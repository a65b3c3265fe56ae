//! Texts worked out by hand from document 02's R-5.

use gurvoke::counts::assert_counts;
use gurvoke::hex::hex;
use gurvoke::rng::Rng;
use gurvoke::sizes::MAX_FILE_LEN;
use gurvoke::text::examples::{self, Example};
use gurvoke::typing;

use crate::harness::{expect, with_room, Tally};

#[test]
fn each_gets_what_stands_beside_it() {
    with_room(|| {
        let mut rng = Rng::new(300);
        let mut tally = Tally::default();
        for example in examples::all() {
            let answer = example.gives.as_ref().map(drop).map_err(|refusal| *refusal);
            expect(&mut rng, &mut tally, &example.text, answer);
            check_bytes(&example);
        }
        assert_counts(file!(), "each_gets_what_stands_beside_it", &tally.counts());
    });
}

/// Stands in each byte of a buffer before a call.
const FILLING: u8 = 0x5A;

/// The library's bytes beside those by hand, with no model between.
fn check_bytes(example: &Example) {
    let mut file = [FILLING; MAX_FILE_LEN + 1];
    let answer = typing::write_file(&example.text, &mut file);
    let mut expected = [FILLING; MAX_FILE_LEN + 1];
    let wanted = example
        .gives
        .as_ref()
        .map_err(|refusal| *refusal)
        .map(|bytes| {
            expected[..bytes.len()].copy_from_slice(bytes);
        });
    assert_eq!(answer, wanted, "{example}");
    assert!(file == expected, "{example}: {}", hex(&file));
}

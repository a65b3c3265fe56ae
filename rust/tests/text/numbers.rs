//! Numbers about every limit, in each place where a number may stand.

use std::ops::RangeInclusive;

use gurvoke::counts::assert_counts;
use gurvoke::refusals::{NOT_A_TEXT, OPERAND_NOT_ALLOWED, SIZE_OUT_OF_RANGE};
use gurvoke::rng::Rng;
use gurvoke::sizes::{MAX_CLOCKS, MAX_VALUE, MAX_VARIABLES, MIN_VARIABLES};

use crate::harness::{expect, Tally};

/// Stands in a text for the number that is tried.
const NUMBER: &str = "#";

/// Numbers in decimal up to 65535 without leading zeros.
const NUMBERS: [usize; 30] = [
    0, 1, 9, 10, 15, 16, 17, 31, 32, 33, 99, 100, 250, 251, 255, 256, 257, 272, 288, 300, 506, 999,
    1000, 9999, 10_000, 32_767, 32_768, 65_280, 65_534, 65_535,
];

/// What is no such number.
const NO_NUMBERS: [&str; 26] = [
    // Too large.
    "65536",
    "65537",
    "65545",
    "70000",
    "99999",
    "100000",
    "655350",
    "4294967296",
    "4294967297",
    "18446744073709551616",
    "18446744073709551617",
    "99999999999999999999",
    // With leading zeros.
    "00",
    "01",
    "010",
    "000",
    "065535",
    "00000000000000000001",
    // Not in decimal.
    "",
    "-1",
    "+1",
    "1.0",
    "0x1",
    "1e1",
    "a",
    "1 0",
];

/// A text with a place for a number, the numbers that a program allows there, and the refusal of
/// others.
struct Place {
    text: String,
    allowed: RangeInclusive<usize>,
    refusal: u32,
}

/// All places. Where the number is no size, there are as many variables and clocks as there can be.
fn places() -> Vec<Place> {
    let variables = 0..=MAX_VARIABLES - 1;
    let clocks = 0..=MAX_CLOCKS - 1;
    let values = 0..=usize::from(MAX_VALUE);
    let readings = 0..=usize::from(u16::MAX);
    let mut places = vec![
        size("# 0: v0=1", MIN_VARIABLES..=MAX_VARIABLES),
        size("1 #: v0=1", 0..=MAX_CLOCKS),
        operand("v#=1", &variables),
        operand("v0=#", &values),
        operand("start c#", &clocks),
    ];
    let conditions = [
        ("v#=1", &variables),
        ("v0=#", &values),
        ("v#!=1", &variables),
        ("v0!=#", &values),
        ("c#>=5", &clocks),
        ("c0>=#", &readings),
        ("c#<5", &clocks),
        ("c0<#", &readings),
    ];
    for (condition, allowed) in conditions {
        for step in [
            format!("wait {condition}"),
            format!("maintain {condition} v0=1"),
            format!("if {condition} then v0=1 else v0=2"),
            format!("v0=1; (repeat wait {condition})"),
        ] {
            places.push(operand(&step, allowed));
        }
    }
    places
}

fn size(text: &str, allowed: RangeInclusive<usize>) -> Place {
    Place {
        text: text.to_string(),
        allowed,
        refusal: SIZE_OUT_OF_RANGE,
    }
}

fn operand(step: &str, allowed: &RangeInclusive<usize>) -> Place {
    Place {
        text: format!("{MAX_VARIABLES} {MAX_CLOCKS}: {step}"),
        allowed: allowed.clone(),
        refusal: OPERAND_NOT_ALLOWED,
    }
}

#[test]
fn each_number_in_each_place() {
    let mut rng = Rng::new(350);
    let mut tally = Tally::default();
    for place in places() {
        let text_with = |number: &str| place.text.replace(NUMBER, number).into_bytes();
        for number in NUMBERS {
            let expected = match place.allowed.contains(&number) {
                true => Ok(()),
                false => Err(place.refusal),
            };
            let text = text_with(&number.to_string());
            expect(&mut rng, &mut tally, &text, expected);
        }
        for no_number in NO_NUMBERS {
            let text = text_with(no_number);
            expect(&mut rng, &mut tally, &text, Err(NOT_A_TEXT));
        }
    }
    assert_counts(file!(), "each_number_in_each_place", &tally.counts());
}

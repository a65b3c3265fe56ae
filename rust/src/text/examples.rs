//! Texts with what each gives, worked out by hand from document 02's R-5.

mod refused;

use std::fmt;

use super::long::{list, nest, padded, SIZES};
use super::{shown, MAX_TEXT_LEN};
use crate::builder::{
    at_least, below, choice, differs, equals, file, goal, maintain, par, repeat, seq, start, wait,
};
use crate::parts::Part;
use crate::refusals::{NOT_A_TEXT, OPERAND_NOT_ALLOWED, SIZE_OUT_OF_RANGE, TOO_DEEP};
use crate::sizes::{MAX_DEPTH, MAX_PARTS};
use crate::stations::{
    STATION_1, STATION_10, STATION_2, STATION_3, STATION_4, STATION_5, STATION_6, STATION_7,
    STATION_8,
};
use refused::{OUTSIDE, REFUSED};

/// A text with what it gives where there is room for any file.
#[derive(Clone)]
pub struct Example {
    pub text: Vec<u8>,
    /// The program file, or the refusal.
    pub gives: Result<Vec<u8>, u32>,
}

impl fmt::Display for Example {
    fn fmt(&self, formatter: &mut fmt::Formatter) -> fmt::Result {
        formatter.write_str(&shown(&self.text))
    }
}

/// All examples.
pub fn all() -> Vec<Example> {
    let outside = OUTSIDE.iter().map(|text| (text.to_vec(), Err(NOT_A_TEXT)));
    let refused = REFUSED.iter().map(|(text, no)| (text.to_vec(), Err(*no)));
    let accepted = trees()
        .into_iter()
        .map(|(text, root)| (text.to_vec(), Ok(file(1, 1, &root))));
    outside
        .chain(refused)
        .chain(accepted)
        .chain(files())
        .chain(about_limits())
        .map(|(text, gives)| Example { text, gives })
        .collect()
}

/// Texts of one variable and one clock, with the trees that they say.
fn trees() -> Vec<(&'static [u8], Part)> {
    [alone(), joined(), bracketed(), written_otherwise()].concat()
}

/// Each form, and which signs bind how.
fn alone() -> Vec<(&'static [u8], Part)> {
    let two = || choice(equals(0, 1), goal(0, 1), goal(0, 2));
    let then_two = choice(equals(0, 1), seq(vec![goal(0, 1), goal(0, 2)]), goal(0, 3));
    let last_two = choice(differs(0, 1), goal(0, 1), par(vec![goal(0, 2), goal(0, 3)]));
    let nested = choice(at_least(0, 5), two(), goal(0, 3));
    let last_nested = choice(below(0, 5), goal(0, 3), two());
    vec![
        (b"1 1: v0=0", goal(0, 0)),
        (b"1 1: v0=250", goal(0, 250)),
        (b"1 1: start c0", start(0)),
        (b"1 1: wait v0=1", wait(equals(0, 1))),
        (b"1 1: wait v0!=1", wait(differs(0, 1))),
        (b"1 1: wait c0>=5", wait(at_least(0, 5))),
        (b"1 1: wait c0<5", wait(below(0, 5))),
        (b"1 1: wait c0>=0", wait(at_least(0, 0))),
        (b"1 1: wait c0>=251", wait(at_least(0, 251))),
        (b"1 1: wait c0<256", wait(below(0, 256))),
        (b"1 1: wait c0<65535", wait(below(0, 65535))),
        (b"1 1: repeat v0=1", repeat(goal(0, 1))),
        (b"1 1: repeat repeat start c0", repeat(repeat(start(0)))),
        (
            b"1 1: maintain v0!=2 repeat wait c0>=5",
            maintain(differs(0, 2), repeat(wait(at_least(0, 5)))),
        ),
        (b"1 1: if v0=1 then v0=1 else v0=2", two()),
        (b"1 1: if v0=1 then (v0=1; v0=2) else v0=3", then_two),
        (b"1 1: if v0!=1 then v0=1 else (v0=2, v0=3)", last_two),
        (
            b"1 1: if c0>=5 then if v0=1 then v0=1 else v0=2 else v0=3",
            nested,
        ),
        (
            b"1 1: if c0<5 then v0=3 else if v0=1 then v0=1 else v0=2",
            last_nested,
        ),
    ]
}

/// Steps joined by `;` and `,`.
fn joined() -> Vec<(&'static [u8], Part)> {
    let two = || choice(equals(0, 1), goal(0, 1), goal(0, 2));
    vec![
        (b"1 1: v0=1;v0=2", seq(vec![goal(0, 1), goal(0, 2)])),
        (b"1 1: v0=1,v0=2", par(vec![goal(0, 1), goal(0, 2)])),
        (
            b"1 1: v0=1;v0=2;v0=3",
            seq(vec![goal(0, 1), goal(0, 2), goal(0, 3)]),
        ),
        (
            b"1 1: v0=1,v0=2,v0=3",
            par(vec![goal(0, 1), goal(0, 2), goal(0, 3)]),
        ),
        (
            b"1 1: v0=1;v0=2,v0=3",
            par(vec![seq(vec![goal(0, 1), goal(0, 2)]), goal(0, 3)]),
        ),
        (
            b"1 1: v0=1,v0=2;v0=3",
            par(vec![goal(0, 1), seq(vec![goal(0, 2), goal(0, 3)])]),
        ),
        (
            b"1 1: if v0=1 then v0=1 else v0=2 ; v0=3",
            seq(vec![two(), goal(0, 3)]),
        ),
        (
            b"1 1: v0=3 , if v0=1 then v0=1 else v0=2 , v0=4",
            par(vec![goal(0, 3), two(), goal(0, 4)]),
        ),
        (
            b"1 1: maintain v0=1 v0=2 ; v0=3",
            seq(vec![maintain(equals(0, 1), goal(0, 2)), goal(0, 3)]),
        ),
        (
            b"1 1: repeat v0=1 , v0=2",
            par(vec![repeat(goal(0, 1)), goal(0, 2)]),
        ),
    ]
}

/// A bracketed group remains a part of its own, and brackets round one step make none.
fn bracketed() -> Vec<(&'static [u8], Part)> {
    let one_two = || seq(vec![goal(0, 1), goal(0, 2)]);
    let beside = || par(vec![goal(0, 1), goal(0, 2)]);
    vec![
        (b"1 1: (v0=1)", goal(0, 1)),
        (b"1 1: ((((v0=1))))", goal(0, 1)),
        (b"1 1: ((v0=1;v0=2))", one_two()),
        (b"1 1: ((v0=1,v0=2))", beside()),
        (b"1 1: (v0=1);((v0=2))", one_two()),
        (b"1 1: (v0=1;v0=2);v0=3", seq(vec![one_two(), goal(0, 3)])),
        (b"1 1: v0=3;(v0=1;v0=2)", seq(vec![goal(0, 3), one_two()])),
        (b"1 1: (v0=1,v0=2),v0=3", par(vec![beside(), goal(0, 3)])),
        (b"1 1: v0=3,(v0=1,v0=2)", par(vec![goal(0, 3), beside()])),
        (b"1 1: (v0=1,v0=2);v0=3", seq(vec![beside(), goal(0, 3)])),
        (b"1 1: v0=3;(v0=1,v0=2)", seq(vec![goal(0, 3), beside()])),
        // As without brackets.
        (b"1 1: (v0=1;v0=2),v0=3", par(vec![one_two(), goal(0, 3)])),
        (b"1 1: v0=3,(v0=1;v0=2)", par(vec![goal(0, 3), one_two()])),
        (b"1 1: repeat(v0=1;v0=2)", repeat(one_two())),
        (b"1 1: repeat(repeat(v0=1))", repeat(repeat(goal(0, 1)))),
        (
            b"1 1: (repeat v0=1);v0=2",
            seq(vec![repeat(goal(0, 1)), goal(0, 2)]),
        ),
    ]
}

/// Gaps where none need be, and none where none need be.
fn written_otherwise() -> Vec<(&'static [u8], Part)> {
    let held = maintain(below(0, 5), goal(0, 1));
    let two = || choice(equals(0, 1), goal(0, 1), goal(0, 2));
    vec![
        (b"1 1:v0=1", goal(0, 1)),
        (b"  1  1  :  v0  =  1  ", goal(0, 1)),
        (b"\n1\n1\n:\nv0\n=\n1\n", goal(0, 1)),
        (b"\n \n1 \n 1: \n\n v0=1\n", goal(0, 1)),
        (b"1 1:start c0", start(0)),
        (b"1 1:start\nc0", start(0)),
        (b"1 1:wait v0 != 1", wait(differs(0, 1))),
        (b"1 1:wait c0\n>=\n5", wait(at_least(0, 5))),
        (b"1 1:repeat(v0=1)", repeat(goal(0, 1))),
        (b"1 1:maintain c0<5(v0=1)", held),
        (b"1 1:if v0=1 then(v0=1)else(v0=2)", two()),
        (b"1 1:(if v0=1 then(v0=1)else v0=2)", two()),
        (b"1 1: ( ( v0=1 ) ) ", goal(0, 1)),
    ]
}

/// What a text gives: its file, or a refusal.
type Given = (Vec<u8>, Result<Vec<u8>, u32>);

/// Document 02's own text, the stations of document 01, and sizes at their limits, with the bytes
/// of their files.
fn files() -> Vec<Given> {
    let files: [(&[u8], &[u8]); 14] = [
        (b"1 1: start c0 ; wait c0>=10", &STATION_10),
        (b"1 1: v0=1", &STATION_1),
        (b"1 1: maintain v0!=2 v0=1", &STATION_2),
        (b"1 1: maintain c0<5 v0=1", &STATION_3),
        (b"1 1: if c0>=0 then v0=1 else v0=2", &STATION_4),
        (b"1 1: v0=1, v0=2", &STATION_5),
        (b"1 1: repeat v0=1", &STATION_6),
        (b"1 1: start c0; start c0", &STATION_7),
        (b"1 1:start c0;wait c0>=10", &STATION_8),
        (b"1 0: v0=0", &[1, 1, 0, 1, 0, 0, 0, 0]),
        (b"32 16: v31=250", &[1, 32, 16, 1, 0, 31, 250, 0]),
        (b"32 16: start c15", &[1, 32, 16, 2, 0, 15, 0, 0]),
        (b"10 9: wait v9!=10", &[1, 10, 9, 3, 2, 9, 10, 0]),
        (
            b"2 1: wait c0<258, v1=3",
            &[3, 2, 1, 5, 3, 1, 2, 0, 0, 0, 4, 0, 2, 1, 0, 1, 3, 0],
        ),
    ];
    let given = |(text, file): (&[u8], &[u8])| (text.to_vec(), Ok(file.to_vec()));
    files.map(given).to_vec()
}

/// Texts about the most bytes, parts and levels, of one variable and one clock.
fn about_limits() -> Vec<Given> {
    [about_most_bytes(), about_most_parts_and_levels()].concat()
}

fn about_most_bytes() -> Vec<Given> {
    let one_goal = || Ok(STATION_1.to_vec());
    let text = list("v0=1", ";", 1);
    let of_len = |len| padded(&text, SIZES.len(), b' ', len);
    vec![
        (of_len(MAX_TEXT_LEN), one_goal()),
        (of_len(MAX_TEXT_LEN + 1), Err(NOT_A_TEXT)),
        // As many pairs of brackets as there is room for, and one more.
        (nest("(", 8188, "v0=1", ")"), one_goal()),
        (nest("(", 8189, "v0=1", ")"), Err(NOT_A_TEXT)),
        // As many open brackets as there is room for.
        (nest("(", 16_380, "", ""), Err(NOT_A_TEXT)),
    ]
}

fn about_most_parts_and_levels() -> Vec<Given> {
    let under_repeats = |levels| (0..levels).fold(goal(0, 1), |part, _| repeat(part));
    let deepest = file(1, 1, &under_repeats(MAX_DEPTH - 1));
    let longest = file(1, 1, &seq(vec![goal(0, 1); MAX_PARTS - 1]));
    let repeats = |levels, inner| nest("repeat ", levels, inner, "");
    vec![
        (list("v0=1", ";", MAX_PARTS - 1), Ok(longest)),
        (list("v0=1", ";", MAX_PARTS), Err(SIZE_OUT_OF_RANGE)),
        // One part and 256, which a byte takes for one, and as many as are allowed and 256.
        (list("v0=1", ";", 256), Err(SIZE_OUT_OF_RANGE)),
        (list("v0=1", ";", 255 + MAX_PARTS), Err(SIZE_OUT_OF_RANGE)),
        (repeats(MAX_DEPTH - 1, "v0=1"), Ok(deepest)),
        (repeats(MAX_DEPTH, "v0=1"), Err(TOO_DEEP)),
        (repeats(MAX_DEPTH, "v1=1"), Err(OPERAND_NOT_ALLOWED)),
        (repeats(MAX_PARTS - 1, "v0=1"), Err(TOO_DEEP)),
        (repeats(MAX_PARTS, "v0=1"), Err(SIZE_OUT_OF_RANGE)),
        (repeats(MAX_PARTS, "v1=1"), Err(SIZE_OUT_OF_RANGE)),
        (repeats(MAX_PARTS, "v1=1)"), Err(NOT_A_TEXT)),
    ]
}

//! The stations of document 01 as lists of calls, with the texts that they give: `NAME.calls` and
//! `NAME.out` in `tests/data/rehearsals`. The texts have the marked parts.

use gurvoke::builder::{differs, equals, file, goal, maintain, par, wait};
use gurvoke::examples;
use gurvoke::hex::hex;
use gurvoke::rehearsal::Rehearsal;
use gurvoke::runs::Call;
use gurvoke::stations::{
    repeats_above_goal, STATION_1, STATION_10, STATION_2, STATION_3, STATION_4, STATION_5,
    STATION_6, STATION_7, STATION_8,
};

use crate::harness::{assert_as_model, assert_model, assert_program};

/// A program file, a list of calls, and the text that they give.
type Station = (Vec<u8>, &'static str, &'static str);

/// The station of this name, for this program file.
macro_rules! station {
    ($name:literal, $file:expr) => {
        (
            $file.to_vec(),
            include_str!(concat!("../data/rehearsals/", $name, ".calls")),
            include_str!(concat!("../data/rehearsals/", $name, ".out")),
        )
    };
}

fn all() -> [Station; 15] {
    [
        station!("station_1", STATION_1),
        station!("station_2", STATION_2),
        station!("station_3", STATION_3),
        station!("station_4", STATION_4),
        station!("station_5", STATION_5),
        station!("station_6", STATION_6),
        station!("station_7", STATION_7),
        station!("station_8", STATION_8),
        // The program has no clock.
        station!("station_9", repeats_above_goal(15)),
        // No call is made.
        station!("station_9_refused", repeats_above_goal(16)),
        station!("station_10", STATION_10),
        // Refusals 8 and 10 to 14, and two beginnings that are refused.
        station!("refusals", STATION_1),
        // Variables 1 and 3 are contested, and the lower one is named. A beginning counts the
        // cycles anew.
        station!("two_contested", five_goals()),
        // Variables 0 and 31 are contested. What contends for 0 stands in a MAINTAIN, and when this
        // is violated the name moves up to 31.
        station!("the_name_moves", first_and_last()),
        // 32 variables, all unknown at first. Each WAIT stays until its own variable is known.
        station!("gaps", three_waits()),
    ]
}

/// A PAR of GOALs over four variables.
fn five_goals() -> Vec<u8> {
    let goals = [(1, 1), (1, 2), (3, 1), (2, 7), (3, 2)];
    let goals = goals.map(|(variable, value)| goal(variable, value));
    file(4, 0, &par(goals.to_vec()))
}

/// Two GOALs for the last of 32 variables, two for the first as long as variable 1 is not 1, and one
/// for variable 2.
fn first_and_last() -> Vec<u8> {
    let held = par(vec![goal(0, 1), goal(0, 2)]);
    let root = par(vec![
        goal(31, 1),
        goal(31, 2),
        maintain(differs(1, 1), held),
        goal(2, 7),
    ]);
    file(32, 0, &root)
}

/// WAITs on the first two of 32 variables, and on the last.
fn three_waits() -> Vec<u8> {
    let waits = [equals(0, 1), differs(1, 1), equals(31, 1)].map(wait);
    file(32, 0, &par(waits.to_vec()))
}

/// Each station with the marked parts, and without them: then the text lacks their lines.
fn with_texts() -> Vec<(Rehearsal, String)> {
    let mut rehearsals = Vec::new();
    for (file, calls, text) in all() {
        let with = Rehearsal {
            file,
            calls: calls.as_bytes().to_vec(),
            with_parts: true,
        };
        let without = Rehearsal {
            with_parts: false,
            ..with.clone()
        };
        rehearsals.push((with, text.to_string()));
        rehearsals.push((without, without_parts(text)));
    }
    rehearsals
}

fn without_parts(text: &str) -> String {
    let lines = text.split_inclusive('\n');
    lines.filter(|line| !line.starts_with("parts")).collect()
}

#[test]
fn model_of_the_stations() {
    for (rehearsal, text) in with_texts() {
        assert_model(&rehearsal, &text);
    }
}

#[test]
fn stations() {
    for (rehearsal, text) in with_texts() {
        assert_program(&rehearsal, &text);
    }
}

/// The paper's examples of refused offers and settlings: the last call alone is refused.
#[test]
fn examples_of_refusals() {
    for (refusal, calls) in examples::calls() {
        let lines: String = calls.iter().map(line).collect();
        let text = assert_as_model(&Rehearsal {
            file: STATION_1.to_vec(),
            calls: format!("begin 00\n{lines}").into_bytes(),
            with_parts: false,
        });
        let answers: Vec<&str> = text.lines().take(1 + calls.len()).collect();
        let (last, before) = answers.split_last().expect("an answer for each call");
        assert_eq!(*last, format!("refused {refusal}"));
        assert!(!before.iter().any(|answer| answer.starts_with("refused")));
    }
}

fn line(call: &Call) -> String {
    match call {
        Call::Offer { time, room } => format!("offer {time} {room}\n"),
        Call::Settle { estimate } => format!("settle {}\n", hex(estimate)),
    }
}

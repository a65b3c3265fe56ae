//! Long lists of calls, long lines, and lists that come in pieces.

use std::thread::sleep;
use std::time::Duration;

use gurvoke::counts::{assert_counts, named};
use gurvoke::programs::{feed, TemporaryFile};
use gurvoke::rehearsal::{Rehearsal, MAX_LINE};
use gurvoke::rng::Rng;
use gurvoke::runs;
use gurvoke::scripts::script;
use gurvoke::stations::STATION_1;
use gurvoke::unfolding::Program;

use crate::harness::{
    arguments, assert_as_model, assert_both, assert_model, assert_same, REHEARSE,
};

/// Station 1 with these calls.
fn station_1(calls: Vec<u8>) -> Rehearsal {
    Rehearsal {
        file: STATION_1.to_vec(),
        calls,
        with_parts: false,
    }
}

/// A beginning, and 100,000 cycles of which the last one finishes.
fn long_list() -> Vec<u8> {
    let mut calls = String::from("begin 00\n");
    for time in 1..100_000 {
        calls += &format!("offer {time}\nsettle 00\n");
    }
    calls += "offer 100000\nsettle 01\n";
    calls.into_bytes()
}

/// 200,000 calls in one rehearsal.
#[test]
fn long_input() {
    let mut text = String::from("begun\n");
    text += &"goals 01 named none\nrunning\n".repeat(99_999);
    text += "goals 01 named none\nfinished\n";
    let summary = include_str!("../data/rehearsals/long_input_summary.out");
    let rehearsal = station_1(long_list());
    let whole = text.clone() + summary;
    assert_both(&rehearsal, &whole);
    let answers = text.lines().count() as u64;
    let counts = named([("calls in the longest rehearsal", answers)]);
    assert_counts(file!(), "long_input", &counts);

    let mut calls = long_list();
    calls.extend(b"settled 01\noffer 100000\n");
    let rehearsal = station_1(calls);
    let cut = text + "line 200002: not a call\n";
    assert_both(&rehearsal, &cut);
}

/// Lines that are passed over count too.
#[test]
fn many_lines_with_no_call() {
    let mut calls = b"\n#\n \n".repeat(100_000);
    calls.extend(b"begin 00\nx\n");
    let rehearsal = station_1(calls);
    let text = "begun\nline 300002: not a call\n";
    assert_both(&rehearsal, text);
}

/// Lists that come so many bytes at a time.
#[test]
fn pieces() {
    let mut rng = Rng::new(610);
    for (piece, calls, pause) in [(1, 12, 1000), (7, 60, 1000), (4095, 2000, 4000)] {
        for with_parts in [false, true] {
            let file = runs::program(&mut rng);
            let program = Program::read(&file).expect("a valid program");
            let rehearsal = Rehearsal {
                calls: script(&mut rng, &program, calls),
                file,
                with_parts,
            };
            assert!(rehearsal.calls.len() > 4 * piece);
            assert_in_pieces(&rehearsal, piece, Duration::from_micros(pause));
        }
    }
}

/// A line that is no call in a list that comes byte by byte.
#[test]
fn pieces_of_a_line_that_is_no_call() {
    let rehearsal = station_1(b"begin 00\n\noffer 1\nsettle 0\nsettle 00\n".to_vec());
    let text = "begun\ngoals 01 named none\nline 4: not a call\n";
    assert_model(&rehearsal, text);
    assert_in_pieces(&rehearsal, 1, Duration::from_millis(1));
}

/// Expects the model's text when the calls come so many bytes at a time, with pauses in which the
/// program can take what has come.
fn assert_in_pieces(rehearsal: &Rehearsal, piece: usize, pause: Duration) {
    let file = TemporaryFile::holding(&rehearsal.file);
    let text = REHEARSE.run_fed(&arguments(rehearsal, file.path()), |child| {
        for bytes in rehearsal.calls.chunks(piece) {
            feed(child, bytes);
            sleep(pause);
        }
    });
    assert_same(
        "program in pieces",
        &text,
        &rehearsal.transcript(),
        rehearsal,
    );
}

/// A line of so many bytes that has this call and nothing else.
fn padded(call: &str, len: usize, before: usize) -> Vec<u8> {
    let mut line = vec![b' '; len];
    line[before..before + call.len()].copy_from_slice(call.as_bytes());
    line
}

/// Lines of a length at and about the longest: a call in the middle of spaces, at the front and at
/// the end, a comment, and nothing but spaces.
fn long_lines(len: usize) -> Vec<Vec<u8>> {
    let call = "offer 7";
    vec![
        padded(call, len, 0),
        padded(call, len, len / 2),
        padded(call, len, len - call.len()),
        padded("", len, 0),
        padded("#", len, 0),
        padded("#", len, len - 1),
        padded("x", len, len - 1),
        zeros_before("7", len),
        pairs(len),
    ]
}

/// An offer with many zeros.
fn zeros_before(number: &str, len: usize) -> Vec<u8> {
    let zeros = "0".repeat(len - "offer ".len() - number.len());
    format!("offer {zeros}{number}").into_bytes()
}

/// A beginning with many pairs. Where the number of digits is odd, it is no call.
fn pairs(len: usize) -> Vec<u8> {
    let digits = "0".repeat(len - "begin ".len());
    format!("begin {digits}").into_bytes()
}

/// A line at the front of a list, after some others, and at its end without a line feed.
fn around(line: &[u8]) -> [Vec<u8>; 3] {
    let some = b"begin 00\n# some lines\n".repeat(40);
    [
        [line, b"\nbegin 00\n"].concat(),
        [&some, line, b"\noffer 8\n"].concat(),
        [&some[some.len() / 2..], line].concat(),
    ]
}

#[test]
fn longest_lines() {
    let mut ended = 0;
    let mut went_on = 0;
    for len in [MAX_LINE - 1, MAX_LINE, MAX_LINE + 1, MAX_LINE + 2] {
        for line in long_lines(len) {
            for calls in around(&line) {
                let text = assert_as_model(&station_1(calls));
                let cut = text.ends_with("not a call\n");
                assert!(cut || len <= MAX_LINE, "a line of {len} bytes");
                ended += u64::from(cut);
                went_on += u64::from(!cut);
            }
        }
    }
    let counts = named([
        ("lists that end at a long line", ended),
        ("lists that go on after a long line", went_on),
    ]);
    assert_counts(file!(), "longest_lines", &counts);
}

/// Lines that are much longer than the longest.
#[test]
fn much_longer_lines() {
    for len in [2 * MAX_LINE, 10 * MAX_LINE + 3, 1_000_000] {
        for line in long_lines(len) {
            let front = station_1([&line[..], b"\nbegin 00\n"].concat());
            let text = "line 1: not a call\n";
            assert_both(&front, text);
            let last = station_1([b"\nbegin 00\n", &line[..]].concat());
            let text = "begun\nline 3: not a call\n";
            assert_both(&last, text);
        }
    }
}

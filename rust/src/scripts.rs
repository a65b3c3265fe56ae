//! Random lists of calls as texts.
//!
//! The calls follow the run that they are for, so that it goes on, finishes and begins again. The
//! text is written in every way that the format leaves free.

use crate::record::Phase;
use crate::rehearsal::{Answer, Call, LatestRun};
use crate::rng::Rng;
use crate::runs::{self, Caller};
use crate::sizes::{MAX_VALUE, MAX_VARIABLES, UNKNOWN_VALUE};
use crate::unfolding::{Program, Run};

/// A list of so many calls for this program. The last line may lack its line feed.
pub fn script(rng: &mut Rng, program: &Program, calls: usize) -> Vec<u8> {
    let mut latest = LatestRun::new(program);
    let mut caller = Caller::new(rng, program);
    let mut text = Vec::new();
    for _ in 0..calls {
        while rng.one_in(9) {
            push_line(&mut text, passed_over(rng));
        }
        let call = next_call(rng, program, &latest, &caller);
        push_line(&mut text, &written(rng, &call));
        match latest.call(&call) {
            Answer::Begun => caller = Caller::new(rng, program),
            Answer::Offered(offer) => caller.note_goals(&offer.goals),
            _ => {}
        }
    }
    if rng.one_in(3) {
        text.pop();
    }
    text
}

/// A list of calls with one byte changed, inserted or removed. It is not empty.
pub fn damaged(rng: &mut Rng, script: &[u8]) -> Vec<u8> {
    let mut text = script.to_vec();
    let place = rng.below(text.len());
    match rng.below(3) {
        0 => text[place] = damaging_byte(rng),
        1 => text.insert(place, damaging_byte(rng)),
        _ => drop(text.remove(place)),
    }
    text
}

/// Any byte, mostly one that the format gives a meaning or just about one.
fn damaging_byte(rng: &mut Rng) -> u8 {
    let any = rng.byte();
    let special = rng.pick(b"  \n\n#\t\r\0\xFF-+");
    let digit = rng.pick(b"0179aAfFgG/:@`");
    rng.pick(&[any, special, special, digit])
}

fn push_line(text: &mut Vec<u8>, line: &[u8]) {
    text.extend(line);
    text.push(b'\n');
}

/// A line that is no call and does not end the run.
fn passed_over(rng: &mut Rng) -> &'static [u8] {
    let lines: [&[u8]; 10] = [
        b"",
        b"",
        b" ",
        b"        ",
        b"#",
        b"# the lamp is lit",
        b"#settle 01",
        b"   # offer 5",
        b"#\tbegin 00\r",
        b" #\0\xFF",
    ];
    rng.pick(&lines)
}

/// The next call: mostly one that the run is waiting for.
fn next_call(rng: &mut Rng, program: &Program, latest: &LatestRun, caller: &Caller) -> Call {
    let Some(run) = latest.run() else {
        return first_call(rng, program);
    };
    let seldom = match run.phase {
        Phase::Finished => 3,
        Phase::Waiting | Phase::Offered => 80,
    };
    if rng.one_in(seldom) {
        return beginning(rng, program);
    }
    match caller.next_call(rng, run) {
        runs::Call::Offer { time, room } => Call::Offer {
            time,
            length: length(rng, run, room),
        },
        runs::Call::Settle { estimate } => Call::Settle {
            estimate: perhaps_long(rng, estimate),
        },
    }
}

/// A call before a beginning was accepted.
fn first_call(rng: &mut Rng, program: &Program) -> Call {
    match rng.below(6) {
        0 => Call::Offer {
            time: rng.pick(&[0, 1, 1000, u32::MAX]),
            length: rng.pick(&[None, Some(0), Some(MAX_VARIABLES as u32)]),
        },
        1 => Call::Settle {
            estimate: runs::first_estimate(rng, program),
        },
        _ => beginning(rng, program),
    }
}

/// A beginning, accepted or not.
fn beginning(rng: &mut Rng, program: &Program) -> Call {
    let estimate = runs::first_estimate(rng, program);
    let estimate = match rng.one_in(3) {
        true => runs::spoil(rng, estimate),
        false => estimate,
    };
    Call::Begin {
        estimate: perhaps_long(rng, estimate),
    }
}

/// The length of a goal buffer with this much room, which a longer one has too.
fn length(rng: &mut Rng, run: &Run, room: usize) -> Option<u32> {
    let exact = run.program.sizes.variables;
    let room = room as u32;
    let long = rng.pick(&[255, 256, 257, 300, 65_536, u32::MAX]);
    match room as usize {
        short if short < exact => Some(room),
        same if same == exact => rng.pick(&[None, None, None, Some(room)]),
        _ => Some(rng.pick(&[room, room, long])),
    }
}

/// The estimate, or once in a while one that is longer than any program's.
fn perhaps_long(rng: &mut Rng, estimate: Vec<u8>) -> Vec<u8> {
    if !rng.one_in(300) {
        return estimate;
    }
    let len = rng.pick(&[MAX_VARIABLES + 1, 64, 255, 256, 257, 300]);
    let value = rng.between(0, usize::from(MAX_VALUE)) as u8;
    let byte = rng.pick(&[value, UNKNOWN_VALUE]);
    vec![byte; len]
}

/// A call as a line.
fn written(rng: &mut Rng, call: &Call) -> Vec<u8> {
    let mut line = margin(rng);
    match call {
        Call::Begin { estimate } => {
            line += "begin";
            push_pairs(rng, &mut line, estimate);
        }
        Call::Settle { estimate } => {
            line += "settle";
            push_pairs(rng, &mut line, estimate);
        }
        Call::Offer { time, length } => {
            line += "offer";
            push_number(rng, &mut line, *time);
            if let Some(length) = length {
                push_number(rng, &mut line, *length);
            }
        }
    }
    line += &margin(rng);
    line.into_bytes()
}

/// What separates two words.
fn gap(rng: &mut Rng) -> String {
    " ".repeat(rng.pick(&[1, 1, 1, 1, 1, 1, 2, 3, 6]))
}

/// What stands before the first word and after the last one.
fn margin(rng: &mut Rng) -> String {
    " ".repeat(rng.pick(&[0, 0, 0, 0, 0, 0, 1, 2, 9]))
}

/// Appends a word of decimal digits, once in a while with zeros before it.
fn push_number(rng: &mut Rng, line: &mut String, number: u32) {
    let zeros = rng.pick(&[0, 0, 0, 0, 0, 0, 0, 1, 2, 25]);
    *line += &gap(rng);
    *line += &"0".repeat(zeros);
    *line += &number.to_string();
}

/// Appends bytes as pairs, each a word of its own, all in one word, or some this way and some that.
fn push_pairs(rng: &mut Rng, line: &mut String, bytes: &[u8]) {
    let joined = rng.pick(&[0, 0, 1, 2]);
    let capital = rng.pick(&[0, 0, 1, 2]);
    for (place, byte) in bytes.iter().enumerate() {
        if place == 0 || rng.below(2) >= joined {
            *line += &gap(rng);
        }
        for digit in format!("{byte:02x}").chars() {
            line.push(match rng.below(2) < capital {
                true => digit.to_ascii_uppercase(),
                false => digit,
            });
        }
    }
}

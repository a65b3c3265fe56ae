//! Lines of every form, one by one, with the texts that they give.

use gurvoke::record::{OFFERED, WAITING};
use gurvoke::refusals::{BUFFER_TOO_SHORT, ESTIMATE_NOT_ALLOWED, WRONG_PHASE};
use gurvoke::rehearsal::Rehearsal;
use gurvoke::stations::STATION_1;

use crate::harness::{assert_model, assert_program};

/// What a line comes to.
#[derive(Clone, Copy)]
enum Outcome {
    PassedOver,
    NoCall,
    Refused(u32),
    /// A beginning with this estimate.
    Begun(&'static str),
    /// An offer at this time.
    Offered(u32),
}
use Outcome::{Begun, NoCall, Offered, PassedOver, Refused};

/// Lines that follow the beginning of station 1 with 00.
const AFTER_BEGIN: &[(&[u8], Outcome)] = &[
    // No word, or a comment.
    (b"", PassedOver),
    (b" ", PassedOver),
    (b"                    ", PassedOver),
    (b"#", PassedOver),
    (b"##", PassedOver),
    (b"# offer 7", PassedOver),
    (b"#offer 7", PassedOver),
    (b"   # offer 7", PassedOver),
    (b"# caf\xC3\xA9", PassedOver),
    (b"#\t", PassedOver),
    (b"# offer 7\r", PassedOver),
    (b" #\0\x01\x0B\x7F\x80\xFF", PassedOver),
    // Only spaces separate.
    (b"\t", NoCall),
    (b"\r", NoCall),
    (b"\x0B", NoCall),
    (b"\x0C", NoCall),
    (b"\xC2\xA0", NoCall),
    (b"offer 7\r", NoCall),
    (b"offer 7 \r", NoCall),
    (b"offer\t7", NoCall),
    (b"offer 7\t", NoCall),
    (b"offer 7\t1", NoCall),
    (b"\toffer 7", NoCall),
    (b"\t# offer 7", NoCall),
    (b"begin 00\r", NoCall),
    (b"begin\t00", NoCall),
    (b"begin 00\t", NoCall),
    (b"settle 00\r", NoCall),
    (b"settle\x0B00", NoCall),
    (b"\0", NoCall),
    (b"offer 7\0", NoCall),
    (b"offer 7 \0", NoCall),
    (b"offer\x007", NoCall),
    (b"begin 00\0", NoCall),
    (b"begin \x000", NoCall),
    (b"\xFF", NoCall),
    (b"offer \xFF", NoCall),
    (b"offer 7 \xFF", NoCall),
    (b"\xFFoffer 7", NoCall),
    (b"begin \xFF\xFF", NoCall),
    (b"settle 00 \xFF\xFF", NoCall),
    (b"\xEF\xBB\xBFoffer 7", NoCall),
    // The words that name a call.
    (b"OFFER 7", NoCall),
    (b"Offer 7", NoCall),
    (b"offeR 7", NoCall),
    (b"BEGIN 00", NoCall),
    (b"Settle 00", NoCall),
    (b"offe 7", NoCall),
    (b"offers 7", NoCall),
    (b"offer7", NoCall),
    (b"begin00", NoCall),
    (b"begi 00", NoCall),
    (b"begins 00", NoCall),
    (b"settle00", NoCall),
    (b"settl 00", NoCall),
    (b"settled 00", NoCall),
    (b"o", NoCall),
    (b"b", NoCall),
    (b"s", NoCall),
    (b"end", NoCall),
    (b"parts", NoCall),
    (b"7", NoCall),
    (b"00", NoCall),
    (b"7 offer", NoCall),
    (b"; offer 7", NoCall),
    (b"offer 7; settle 00", NoCall),
    (b"offer 7 # a comment", NoCall),
    (b"offer 7 #", NoCall),
    (b"offer # 7", NoCall),
    (b"begin 00 #", NoCall),
    (b"begin #", NoCall),
    // Offers.
    (b"offer", NoCall),
    (b" offer ", NoCall),
    (b"offer -1", NoCall),
    (b"offer -0", NoCall),
    (b"offer +7", NoCall),
    (b"offer 7.0", NoCall),
    (b"offer 7,1", NoCall),
    (b"offer 0x7", NoCall),
    (b"offer 7s", NoCall),
    (b"offer A", NoCall),
    (b"offer a 1", NoCall),
    (b"offer /", NoCall),
    (b"offer :", NoCall),
    (b"offer 7 /", NoCall),
    (b"offer 7 :", NoCall),
    (b"offer 7 -1", NoCall),
    (b"offer 7 1 1", NoCall),
    (b"offer 1 2 3", NoCall),
    (b"offer 7 1 x", NoCall),
    (b"offer 4294967296", NoCall),
    (b"offer 4294967297", NoCall),
    (b"offer 4294967300", NoCall),
    (b"offer 5000000000", NoCall),
    (b"offer 10000000000", NoCall),
    (b"offer 18446744073709551615", NoCall),
    (b"offer 18446744073709551616", NoCall),
    (b"offer 18446744073709551623", NoCall),
    (b"offer 340282366920938463463374607431768211463", NoCall),
    (b"offer 7 4294967296", NoCall),
    (b"offer 7 18446744073709551617", NoCall),
    (b"offer 4294967296 1", NoCall),
    (b"offer 0", Offered(0)),
    (b"offer 7", Offered(7)),
    (b"offer 7 1", Offered(7)),
    (b"offer 7 01", Offered(7)),
    (b"offer 7 255", Offered(7)),
    (b"offer 7 256", Offered(7)),
    (b"offer 7 257", Offered(7)),
    (b"offer 7 65536", Offered(7)),
    (b"offer 7 4294967295", Offered(7)),
    (b"offer 7 0", Refused(BUFFER_TOO_SHORT)),
    (b"offer 7 0000000000000000000000", Refused(BUFFER_TOO_SHORT)),
    (b" offer 7", Offered(7)),
    (b"   offer     7     1   ", Offered(7)),
    (b"offer 00000000000000000007", Offered(7)),
    (
        b"offer 00000000000000000000000000000000000000000000007",
        Offered(7),
    ),
    (b"offer 000", Offered(0)),
    (b"offer 9 1", Offered(9)),
    (b"offer 1234567890", Offered(1_234_567_890)),
    (b"offer 4294967294", Offered(4_294_967_294)),
    (b"offer 4294967295", Offered(4_294_967_295)),
    (
        b"offer 0000004294967295 0000004294967295",
        Offered(4_294_967_295),
    ),
    // Beginnings.
    (b"begin", Refused(ESTIMATE_NOT_ALLOWED)),
    (b"begin   ", Refused(ESTIMATE_NOT_ALLOWED)),
    (b"begin 0", NoCall),
    (b"begin 0 1", NoCall),
    (b"begin 0 0 0 1", NoCall),
    (b"begin 000", NoCall),
    (b"begin 00 0", NoCall),
    (b"begin 0 00", NoCall),
    (b"begin 000 0", NoCall),
    (b"begin 0g", NoCall),
    (b"begin g0", NoCall),
    (b"begin 0G", NoCall),
    (b"begin G0", NoCall),
    (b"begin /0", NoCall),
    (b"begin 0/", NoCall),
    (b"begin :0", NoCall),
    (b"begin 0:", NoCall),
    (b"begin @0", NoCall),
    (b"begin 0@", NoCall),
    (b"begin `0", NoCall),
    (b"begin 0`", NoCall),
    (b"begin -1", NoCall),
    (b"begin 0x00", NoCall),
    (b"begin 00,00", NoCall),
    (b"begin 00h", NoCall),
    (b"begin 00 zz", NoCall),
    (b"begin 00", Begun("00")),
    (b"begin 09", Begun("09")),
    (b"begin 0a", Begun("0A")),
    (b"begin 0F", Begun("0F")),
    (b"begin 90", Begun("90")),
    (b"begin a0", Begun("A0")),
    (b"begin Af", Begun("AF")),
    (b"begin fA", Begun("FA")),
    (b"begin FA", Begun("FA")),
    (b"   begin    fa    ", Begun("FA")),
    (b"begin ff", Begun("FF")),
    (b"begin FF", Begun("FF")),
    (b"begin fF", Begun("FF")),
    (b"begin Ff", Begun("FF")),
    (b"  begin   FF  ", Begun("FF")),
    (b"begin f", NoCall),
    (b"begin f f", NoCall),
    (b"begin fff", NoCall),
    (b"begin fb", Refused(ESTIMATE_NOT_ALLOWED)),
    (b"begin FC", Refused(ESTIMATE_NOT_ALLOWED)),
    (b"begin fD", Refused(ESTIMATE_NOT_ALLOWED)),
    (b"begin Fe", Refused(ESTIMATE_NOT_ALLOWED)),
    (b"begin 00 00", Refused(ESTIMATE_NOT_ALLOWED)),
    (b"begin 0000", Refused(ESTIMATE_NOT_ALLOWED)),
    (b"begin FF FF", Refused(ESTIMATE_NOT_ALLOWED)),
    (b"begin ffff", Refused(ESTIMATE_NOT_ALLOWED)),
    (b"begin 00 0102 03", Refused(ESTIMATE_NOT_ALLOWED)),
    // A settling has not its turn, whatever its estimate, if it is a call at all.
    (b"settle", Refused(WRONG_PHASE)),
    (b"settle 00", Refused(WRONG_PHASE)),
    (b"settle FF", Refused(WRONG_PHASE)),
    (b"settle 00 00", Refused(WRONG_PHASE)),
    (b"  settle  0000  ", Refused(WRONG_PHASE)),
    (b"settle 0", NoCall),
    (b"settle 0 0", NoCall),
    (b"settle 00 0", NoCall),
    (b"settle 0G", NoCall),
    (b"settle -1", NoCall),
    (b"settle 00 settle 00", NoCall),
];

/// What the rehearsal gives after `begun`.
fn text_of(outcome: Outcome) -> String {
    match outcome {
        NoCall => "line 2: not a call\n".to_string(),
        PassedOver => summary(WAITING, 0, "00"),
        Refused(number) => format!("refused {number}\n") + &summary(WAITING, 0, "00"),
        Begun(estimate) => "begun\n".to_string() + &summary(WAITING, 0, estimate),
        Offered(time) => "goals 01 named none\n".to_string() + &summary(OFFERED, time, "00"),
    }
}

fn summary(phase: u8, time: u32, estimate: &str) -> String {
    format!("phase {phase}\nlast time {time}\nestimate {estimate}\nclock 0 -\nfinishing cycle -\n")
}

fn rehearsal(calls: &[u8]) -> Rehearsal {
    Rehearsal {
        file: STATION_1.to_vec(),
        calls: calls.to_vec(),
        with_parts: false,
    }
}

/// Whole lists, and what they give.
const LISTS: &[(&[u8], &str)] = &[
    (b"", FRESH),
    (b"\n", FRESH),
    (b"\n\n\n", FRESH),
    (b"   ", FRESH),
    (b"# no calls", FRESH),
    (b"x", "line 1: not a call\n"),
    (b"x\n", "line 1: not a call\n"),
    (b"\n\nx", "line 3: not a call\n"),
    (b"# a comment\n  \n\nx\noffer 7\n", "line 4: not a call\n"),
    (b"begin 00\r\noffer 7\r\n", "line 1: not a call\n"),
    (b"offer 7\nsettle 01\n", BEFORE_A_BEGINNING),
    (b"\n# six lines\noffer 7 0\n\n\nsettle", BEFORE_A_BEGINNING),
    (b"begin FB\nx", "refused 13\nline 2: not a call\n"),
    (
        b"begin 00\noffer 7\nsettle\nsettle 00 00\nsettle FB\nsettle 01",
        SETTLED,
    ),
    (
        b"begin 00\noffer 7\nsettle 0100\nsettle fb01\nsettle fE\nsettle 01\n\n",
        SETTLED,
    ),
    (
        b"begin FF\noffer 7\nsettle ff\noffer 8\nsettle fF\noffer 9\nsettle Ff",
        UNKNOWN,
    ),
    (
        b"begin 00\noffer 7\nsettle FB\nsettle fc\nsettle fD\nsettle Fe\nsettle ff ff\nsettle FF",
        NO_VALUES,
    ),
    (
        b"begin ff\noffer 7\nsettle fb\nsettle FC\nsettle Fd\nsettle fE\nsettle FFfb\nsettle ff\n",
        NO_VALUES,
    ),
];

/// Nothing has begun.
const FRESH: &str = include_str!("../data/rehearsals/fresh.out");

/// Two calls before a beginning.
const BEFORE_A_BEGINNING: &str = include_str!("../data/rehearsals/before_a_beginning.out");

/// Three estimates that are not allowed, then one that finishes the run.
const SETTLED: &str = include_str!("../data/rehearsals/settled.out");

/// Nothing but estimates in which the variable is unknown.
const UNKNOWN: &str = include_str!("../data/rehearsals/unknown.out");

/// Four estimates of a byte that is no value, one of two bytes, and one of an unknown variable.
const NO_VALUES: &str = include_str!("../data/rehearsals/no_values.out");

/// Every line after a beginning, with a line feed and without one, and every list.
fn with_texts() -> Vec<(Rehearsal, String)> {
    let mut rehearsals = Vec::new();
    for (line, outcome) in AFTER_BEGIN {
        let text = "begun\n".to_string() + &text_of(*outcome);
        for end in ["", "\n"] {
            let calls = [b"begin 00\n", *line, end.as_bytes()].concat();
            rehearsals.push((rehearsal(&calls), text.clone()));
        }
    }
    for (calls, text) in LISTS {
        rehearsals.push((rehearsal(calls), text.to_string()));
    }
    rehearsals
}

#[test]
fn model_of_the_lines() {
    for (rehearsal, text) in with_texts() {
        assert_model(&rehearsal, &text);
    }
}

#[test]
fn lines() {
    for (rehearsal, text) in with_texts() {
        assert_program(&rehearsal, &text);
    }
}

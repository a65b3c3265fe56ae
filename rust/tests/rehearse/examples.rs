//! The rehearsals of `examples/` against the logs that stand beside them, which were written by hand
//! from the papers.

mod dipping;
mod silence;

use gurvoke::rehearsal::Rehearsal;

use crate::harness::assert_both;

/// The program file, the calls and the log of the example of this name.
macro_rules! example {
    ($name:literal) => {
        (
            include_bytes!(concat!("../../../examples/", $name, ".program")).to_vec(),
            include_str!(concat!("../../../examples/", $name, ".calls")),
            include_str!(concat!("../../../examples/", $name, ".out")),
        )
    };
}

#[test]
fn rehearsed_examples() {
    for (file, calls, log) in [example!("coring"), example!("dipping"), example!("silence")] {
        let calls = calls.as_bytes().to_vec();
        let rehearsal = Rehearsal {
            file,
            calls,
            with_parts: true,
        };
        assert_both(&rehearsal, log);
    }
}

#[test]
fn program_of_the_dipping_station() {
    let (file, _, _) = example!("dipping");
    assert_eq!(file, dipping::program());
}

#[test]
fn program_with_silent_sensors() {
    let (file, _, _) = example!("silence");
    assert_eq!(file, silence::program());
}

//! The coring station with sensors that fall silent, as its calls tell it.

use gurvoke::builder::{at_least, choice, differs, equals, file, goal, maintain, seq, start, wait};

// The variables, and where they stand or what they say.
const CORER: u8 = 0;
const FRAME: u8 = 1;
const TUBE: u8 = 2;
const RELEASE: u8 = 3;
const UP: u16 = 0;
const DOWN: u16 = 1;
const WITH_CORE: u16 = 2;
const LEVEL: u16 = 0;
const TILTED: u16 = 1;
const SHUT: u16 = 1;
const RELEASED: u16 = 1;
const VARIABLES: usize = 4;

// The clock, and how long the corer stands.
const STAND: u8 = 0;
const STANDING: u16 = 20;
const CLOCKS: usize = 1;

/// The program file. The WAIT on the frame and the CHOICE ask whether a variable differs: over an
/// unknown one that is not satisfied either.
pub fn program() -> Vec<u8> {
    let coring = seq(vec![
        goal(CORER, DOWN),
        start(STAND),
        wait(at_least(STAND, STANDING)),
        goal(CORER, WITH_CORE),
    ]);
    let root = seq(vec![
        wait(differs(FRAME, TILTED)),
        maintain(equals(FRAME, LEVEL), coring),
        choice(differs(CORER, WITH_CORE), goal(CORER, UP), goal(TUBE, SHUT)),
        goal(RELEASE, RELEASED),
    ]);
    file(VARIABLES, CLOCKS, &root)
}

//! The dipping station, as its calls tell it.

use gurvoke::builder::{at_least, equals, file, goal, maintain, par, repeat, seq, start, wait};

// The variables, and where they stand or what they say.
const WINCH: u8 = 0;
const BOTTLE: u8 = 1;
const BATTERY: u8 = 2;
const RELEASE: u8 = 3;
const UP: u16 = 0;
const DOWN: u16 = 1;
const OPEN: u16 = 0;
const SHUT: u16 = 1;
const GOOD: u16 = 0;
const RELEASED: u16 = 1;
const VARIABLES: usize = 4;

// The clock, and how long the bottle rinses.
const DIP: u8 = 0;
const RINSING: u16 = 30;
const CLOCKS: usize = 1;

/// The program file.
pub fn program() -> Vec<u8> {
    let dip = seq(vec![
        par(vec![goal(WINCH, DOWN), goal(BOTTLE, OPEN)]),
        start(DIP),
        wait(at_least(DIP, RINSING)),
        goal(BOTTLE, SHUT),
        goal(WINCH, UP),
    ]);
    let root = seq(vec![
        maintain(equals(BATTERY, GOOD), repeat(dip)),
        goal(WINCH, UP),
        goal(RELEASE, RELEASED),
    ]);
    file(VARIABLES, CLOCKS, &root)
}

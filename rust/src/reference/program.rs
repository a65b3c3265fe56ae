//! The rules for a program that stands in a file or in a table: which operands a kind allows, how
//! many children a part has, and what follows it.

use crate::parts::{
    AT_LEAST, BELOW, CHOICE, DIFFERS, EQUALS, GOAL, MAINTAIN, PAR, REPEAT, SEQ, START, WAIT,
};
use crate::sizes::{Sizes, MAX_VALUE, NO_PART, OPERAND_LEN};

/// The bytes of an operand.
pub type Operand = [u8; OPERAND_LEN];

pub fn kind_known(kind: u8) -> bool {
    (GOAL..=REPEAT).contains(&kind)
}

pub fn operand_allowed(kind: u8, operand: Operand, sizes: &Sizes) -> bool {
    let [b0, b1, b2, b3] = operand;
    let value = u16::from_le_bytes([b2, b3]);
    let is_variable = usize::from(b1) < sizes.variables;
    let is_clock = usize::from(b1) < sizes.clocks;
    match kind {
        GOAL => b0 == 0 && is_variable && value <= MAX_VALUE,
        START => b0 == 0 && is_clock && value == 0,
        WAIT | MAINTAIN | CHOICE => match b0 {
            EQUALS | DIFFERS => is_variable && value <= MAX_VALUE,
            AT_LEAST | BELOW => is_clock,
            _ => false,
        },
        SEQ | PAR => b0 > 0 && b1 == 0 && value == 0,
        REPEAT => b0 == 0 && b1 == 0 && value == 0,
        _ => false,
    }
}

/// How many children a part has, by its kind and operand.
pub fn child_count(kind: u8, operand: Operand) -> usize {
    match kind {
        SEQ | PAR => usize::from(operand[0]),
        MAINTAIN | REPEAT => 1,
        CHOICE => 2,
        _ => 0,
    }
}

/// The next of a child with this end, by its parent's kind.
pub fn next_of(child: usize, end: usize, parent_kind: u8, is_last: bool) -> usize {
    match parent_kind {
        SEQ if !is_last => end,
        REPEAT => child,
        _ => NO_PART,
    }
}

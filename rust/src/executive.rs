//! The executives that the tests run: the library, and two plain ones beside it.

use crate::{board, reference};

/// The five operations, with the answers of the C interface.
pub struct Executive {
    pub name: &'static str,
    /// File, table: the refusal, or nothing.
    pub compile: fn(&[u8], &mut [u8]) -> Result<(), u32>,
    /// Table, file: the refusal, or nothing.
    pub decompile: fn(&[u8], &mut [u8]) -> Result<(), u32>,
    /// Table, first estimate, record: `DONE`, or the refusal.
    pub begin: fn(&[u8], &[u8], &mut [u8]) -> u32,
    /// Table, record, time, goals: the refusal, or `ANSWERED` and the lowest contested variable.
    pub offer: fn(&[u8], &mut [u8], u32, &mut [u8]) -> u32,
    /// Table, record, estimate: the refusal, or whether the run goes on (`RUNNING`, `FINISHED`).
    pub settle: fn(&[u8], &mut [u8], &[u8]) -> u32,
}

/// The library.
pub static LIBRARY: Executive = Executive {
    name: "library",
    compile: crate::compile,
    decompile: crate::decompile,
    begin: crate::begin,
    offer: crate::offer,
    settle: crate::settle,
};

/// The plain executive in Rust.
pub static REFERENCE: Executive = Executive {
    name: "plain Rust",
    compile: reference::compile,
    decompile: reference::decompile,
    begin: reference::begin,
    offer: reference::offer,
    settle: reference::settle,
};

/// The plain executive in C.
pub static BOARD: Executive = Executive {
    name: "plain C",
    compile: board::compile,
    decompile: board::decompile,
    begin: board::begin,
    offer: board::offer,
    settle: board::settle,
};

/// All executives, the one that matters most first.
pub static ALL: &[&Executive] = &[&LIBRARY, &REFERENCE, &BOARD];

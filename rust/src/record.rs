//! Where the fields of a run record stand, and what its phase means.

use crate::sizes::{MAX_CLOCKS, MAX_PARTS, MAX_VARIABLES, TIME_LEN};

/// The phase.
pub const PHASE: usize = 0;
/// The last time.
pub const TIME: usize = PHASE + 1;
/// The estimate, one byte for each variable that a program can have.
pub const ESTIMATE: usize = TIME + TIME_LEN;
/// Which clocks are started, one byte for each clock that a program can have.
pub const STARTED: usize = ESTIMATE + MAX_VARIABLES;
/// The times at which the clocks were last started.
pub const STARTS: usize = STARTED + MAX_CLOCKS;
/// The marks, one byte for each part that a program can have.
pub const MARKS: usize = STARTS + TIME_LEN * MAX_CLOCKS;
/// Bytes of a record.
pub const RECORD_LEN: usize = MARKS + MAX_PARTS;

/// Where the start time of a clock stands.
pub fn start_place(clock: usize) -> usize {
    STARTS + TIME_LEN * clock
}

/// Where a run stands within a cycle.
#[derive(Clone, Copy, Debug, PartialEq, Eq)]
pub enum Phase {
    /// The run waits for an offer.
    Waiting = 0,
    /// The goals are offered, and the run waits for a settling.
    Offered = 1,
    /// The run is finished.
    Finished = 2,
}

/// The bytes of the phases.
pub const WAITING: u8 = Phase::Waiting as u8;
pub const OFFERED: u8 = Phase::Offered as u8;
pub const FINISHED: u8 = Phase::Finished as u8;

impl Phase {
    /// The phase with this byte, if there is one.
    pub fn from_byte(byte: u8) -> Option<Phase> {
        [Phase::Waiting, Phase::Offered, Phase::Finished]
            .into_iter()
            .find(|&phase| phase as u8 == byte)
    }
}

/// The time that stands at this place.
pub fn time_at(record: &[u8], place: usize) -> u32 {
    let bytes = &record[place..place + TIME_LEN];
    let number = |time, &byte: &u8| 256 * time + u32::from(byte);
    bytes.iter().rev().fold(0, number)
}

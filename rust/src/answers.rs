//! What the numbers and bytes mean that a call answers when it is not refused.

/// A reading, a giving back or a beginning is done.
pub const DONE: u32 = 0;

/// Answers from here on are no refusals. An accepted offer answers with this and the lowest
/// contested variable, which it names.
pub const ANSWERED: u32 = 256;
/// An offer names this where no variable is contested.
pub const NO_VARIABLE: u8 = 255;

/// A settling answers that the run goes on.
pub const RUNNING: u32 = ANSWERED;
/// A settling answers that the run has just finished.
pub const FINISHED: u32 = ANSWERED + 1;

/// Goal byte: no goal for this variable.
pub const NO_GOAL: u8 = 255;
/// Goal byte: goals for this variable differ.
pub const CONTESTED: u8 = 254;

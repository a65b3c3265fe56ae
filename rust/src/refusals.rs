//! The refusals of documents 01 and 02, under the names that the proved code and the C header have for
//! them.

/// Declares each refusal, and the list of all.
macro_rules! refusals {
    ($($(#[$comment:meta])* $name:ident = $number:literal;)*) => {
        $($(#[$comment])* pub const $name: u32 = $number;)*

        /// The name and the number of every refusal.
        pub const ALL: &[(&str, u32)] = &[$((stringify!($name), $name)),*];
    };
}

refusals! {
    /// The file is too short to hold the sizes.
    FILE_TOO_SHORT = 1;
    /// A size is outside its range.
    SIZE_OUT_OF_RANGE = 2;
    /// The file's length does not fit its number of parts.
    WRONG_LENGTH = 3;
    /// A kind that no part has.
    UNKNOWN_KIND = 4;
    /// An operand that its kind does not allow.
    OPERAND_NOT_ALLOWED = 5;
    /// The parts do not form exactly one tree.
    NOT_ONE_TREE = 6;
    /// A part is too deep.
    TOO_DEEP = 7;
    /// The output buffer is too short.
    BUFFER_TOO_SHORT = 8;
    /// The bytes are not the table of any file.
    NOT_A_TABLE = 9;
    /// The record is not allowed, or too short.
    RECORD_NOT_ALLOWED = 10;
    /// A settling before any offer, or a second offer before the settling.
    WRONG_PHASE = 11;
    /// The time is before the last time.
    TIME_BEFORE_LAST = 12;
    /// The estimate has not a byte for each variable, or one above the largest value.
    ESTIMATE_NOT_ALLOWED = 13;
    /// The run is finished.
    RUN_FINISHED = 14;
    /// After the settling the root has not ended, yet no leaf or deciding CHOICE is marked.
    NOTHING_AT_WORK = 15;
    /// The text is outside the grammar, or too long.
    NOT_A_TEXT = 16;
}

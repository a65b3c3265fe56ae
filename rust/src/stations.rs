//! The programs of document 01's ten stations, with the bytes and the text that it gives.

use crate::parts::{GOAL, REPEAT};
use crate::sizes::{Sizes, OPERAND_LEN};

// The files of stations 1 to 8: one variable and one clock each.
pub const STATION_1: [u8; 8] = [0x01, 0x01, 0x01, 0x01, 0x00, 0x00, 0x01, 0x00];
pub const STATION_2: [u8; 13] = [
    0x02, 0x01, 0x01, 0x06, 0x01, 0x02, 0x00, 0x02, 0x00, 0x00, 0x00, 0x01, 0x00,
];
pub const STATION_3: [u8; 13] = [
    0x02, 0x01, 0x01, 0x06, 0x01, 0x04, 0x00, 0x05, 0x00, 0x00, 0x00, 0x01, 0x00,
];
pub const STATION_4: [u8; 18] = [
    0x03, 0x01, 0x01, 0x07, 0x01, 0x01, 0x03, 0x00, 0x00, 0x00, 0x00, 0x00, 0x01, 0x00, 0x00, 0x00,
    0x02, 0x00,
];
pub const STATION_5: [u8; 18] = [
    0x03, 0x01, 0x01, 0x05, 0x01, 0x01, 0x02, 0x00, 0x00, 0x00, 0x00, 0x00, 0x01, 0x00, 0x00, 0x00,
    0x02, 0x00,
];
pub const STATION_6: [u8; 13] = [
    0x02, 0x01, 0x01, 0x08, 0x01, 0x00, 0x00, 0x00, 0x00, 0x00, 0x00, 0x01, 0x00,
];
pub const STATION_7: [u8; 18] = [
    0x03, 0x01, 0x01, 0x04, 0x02, 0x02, 0x02, 0x00, 0x00, 0x00, 0x00, 0x00, 0x00, 0x00, 0x00, 0x00,
    0x00, 0x00,
];
/// Station 8 is the program whose file station 10 gives.
pub const STATION_8: [u8; 18] = STATION_10;

/// The file of station 10.
pub const STATION_10: [u8; 18] = [
    0x03, 0x01, 0x01, 0x04, 0x02, 0x03, 0x02, 0x00, 0x00, 0x00, 0x00, 0x00, 0x00, 0x00, 0x03, 0x00,
    0x0A, 0x00,
];

/// The listing of station 10, whole.
pub const STATION_10_LISTING: &str = include_str!("../tests/data/listings/station_10.out");

/// So many REPEATs above a GOAL, of one variable and no clock.
pub fn repeats_above_goal(repeats: usize) -> Vec<u8> {
    let sizes = Sizes {
        parts: repeats + 1,
        variables: 1,
        clocks: 0,
    };
    let mut file = sizes.bytes();
    file.extend(vec![REPEAT; repeats]);
    file.push(GOAL);
    file.extend(vec![0; OPERAND_LEN * sizes.parts]);
    file
}

/// The rows of so many REPEATs above a GOAL, behind their sizes: the file's table, if they are not
/// too many.
pub fn rows_of_repeats_above_goal(repeats: u8) -> Vec<u8> {
    let end = repeats + 1;
    let mut table = vec![end, 1, 0];
    table.extend([REPEAT, end, 255, 255, 0, 0, 0, 0]);
    for part in 1..repeats {
        table.extend([REPEAT, end, part - 1, part, 0, 0, 0, 0]);
    }
    table.extend([GOAL, end, repeats - 1, repeats, 0, 0, 0, 0]);
    table
}

#[cfg(test)]
mod tests {
    use super::*;
    use crate::builder::{
        at_least, below, choice, differs, file, goal, maintain, par, repeat, seq, start, wait,
    };

    /// The bytes above are the programs that the paper names.
    #[test]
    fn files_of_the_stations() {
        let named = [
            (&STATION_1[..], goal(0, 1)),
            (&STATION_2, maintain(differs(0, 2), goal(0, 1))),
            (&STATION_3, maintain(below(0, 5), goal(0, 1))),
            (&STATION_4, choice(at_least(0, 0), goal(0, 1), goal(0, 2))),
            (&STATION_5, par(vec![goal(0, 1), goal(0, 2)])),
            (&STATION_6, repeat(goal(0, 1))),
            (&STATION_7, seq(vec![start(0), start(0)])),
            (&STATION_8, seq(vec![start(0), wait(at_least(0, 10))])),
        ];
        for (bytes, root) in named {
            assert_eq!(file(1, 1, &root), bytes);
        }
    }
}

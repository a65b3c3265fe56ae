//! The limits of document 01, the widths of what files and tables hold, and the lengths and places
//! that follow from both.

/// Fewest parts of a program.
pub const MIN_PARTS: usize = 1;
/// Most parts of a program.
pub const MAX_PARTS: usize = 200;
/// Fewest variables of a program.
pub const MIN_VARIABLES: usize = 1;
/// Most variables of a program.
pub const MAX_VARIABLES: usize = 32;
/// Most clocks of a program.
pub const MAX_CLOCKS: usize = 16;
/// Depth of the deepest part allowed; the root has depth 1.
pub const MAX_DEPTH: usize = 16;
/// Largest value of a variable.
pub const MAX_VALUE: u16 = 250;
/// Stands in an estimate for the value of a variable that is unknown.
pub const UNKNOWN_VALUE: u8 = 255;
/// Stands in a table for no parent or no next.
pub const NO_PART: usize = 255;

/// Bytes of a part's number, and of the number of parts.
pub const NUMBER_LEN: usize = 1;
/// Bytes of the child count at the front of the operand of SEQ and PAR.
pub const COUNT_LEN: usize = 1;
/// Bytes of a kind.
pub const KIND_LEN: usize = 1;
/// Bytes of an operand.
pub const OPERAND_LEN: usize = 4;
/// Where the number of variables stands in the sizes.
pub const VARIABLES: usize = NUMBER_LEN;
/// Where the number of clocks stands in the sizes.
pub const CLOCKS: usize = VARIABLES + 1;
/// Bytes of the sizes that begin every file and every table.
pub const SIZES_LEN: usize = CLOCKS + 1;
/// Bytes of one part in a file: its kind and its operand.
pub const PART_LEN: usize = KIND_LEN + OPERAND_LEN;
/// Bytes of one row of a table: kind, end, parent, next and operand.
pub const ROW_LEN: usize = KIND_LEN + 3 * NUMBER_LEN + OPERAND_LEN;
/// Bytes of a time.
pub const TIME_LEN: usize = 4;

/// Bytes of the longest file.
pub const MAX_FILE_LEN: usize = file_len(MAX_PARTS);
/// Bytes of the longest table.
pub const MAX_TABLE_LEN: usize = table_len(MAX_PARTS);

/// Where the fields of a row stand.
pub mod row {
    use super::{KIND_LEN, NUMBER_LEN};

    pub const KIND: usize = 0;
    pub const END: usize = KIND + KIND_LEN;
    pub const PARENT: usize = END + NUMBER_LEN;
    pub const NEXT: usize = PARENT + NUMBER_LEN;
    pub const OPERAND: usize = NEXT + NUMBER_LEN;
}

/// The length of the file of so many parts.
pub const fn file_len(parts: usize) -> usize {
    SIZES_LEN + PART_LEN * parts
}

/// The length of the table of so many parts.
pub const fn table_len(parts: usize) -> usize {
    SIZES_LEN + ROW_LEN * parts
}

/// The numbers of parts, variables and clocks of a program.
#[derive(Clone, Copy, Debug, PartialEq, Eq)]
pub struct Sizes {
    pub parts: usize,
    pub variables: usize,
    pub clocks: usize,
}

impl Sizes {
    /// The sizes at the front of a file or table, if there are enough bytes for them.
    pub fn read(bytes: &[u8]) -> Option<Sizes> {
        let sizes = bytes.get(..SIZES_LEN)?;
        Some(Sizes {
            parts: number_of(&sizes[..NUMBER_LEN]),
            variables: usize::from(sizes[VARIABLES]),
            clocks: usize::from(sizes[CLOCKS]),
        })
    }

    /// Whether each size is in its range.
    pub fn allowed(&self) -> bool {
        (MIN_PARTS..=MAX_PARTS).contains(&self.parts)
            && (MIN_VARIABLES..=MAX_VARIABLES).contains(&self.variables)
            && self.clocks <= MAX_CLOCKS
    }

    /// The length of a file with these sizes.
    pub fn file_len(&self) -> usize {
        file_len(self.parts)
    }

    /// The length of a table with these sizes.
    pub fn table_len(&self) -> usize {
        table_len(self.parts)
    }

    /// The bytes that begin a file or table with these sizes.
    pub fn bytes(&self) -> Vec<u8> {
        let mut bytes = number_bytes(self.parts);
        bytes.push(self.variables as u8);
        bytes.push(self.clocks as u8);
        bytes
    }
}

/// A number of several bytes, low byte first.
pub fn number_of(bytes: &[u8]) -> usize {
    bytes
        .iter()
        .rev()
        .fold(0, |number, &byte| 256 * number + usize::from(byte))
}

/// The bytes of a part's number, low byte first.
pub fn number_bytes(number: usize) -> Vec<u8> {
    number.to_le_bytes()[..NUMBER_LEN].to_vec()
}

#[cfg(test)]
mod tests {
    use super::*;
    use crate::record;

    /// The lengths that document 01 gives as numbers: 3 + 5 × N, at most 1003; 3 + 8 × N; 317.
    #[test]
    fn lengths_of_the_paper() {
        assert_eq!([SIZES_LEN, PART_LEN, ROW_LEN], [3, 5, 8]);
        assert_eq!([MAX_FILE_LEN, MAX_TABLE_LEN], [1003, 1603]);
        assert_eq!(record::RECORD_LEN, 317);
    }

    /// "Estimate byte 255 now means that the variable is unknown"; values end at 250.
    #[test]
    fn bytes_of_an_estimate() {
        assert_eq!([MAX_VALUE, UNKNOWN_VALUE.into()], [250, 255]);
    }

    /// A row has kind, end, parent, next and operand, one after the other.
    #[test]
    fn fields_of_a_row() {
        let places = [row::KIND, row::END, row::PARENT, row::NEXT, row::OPERAND];
        assert_eq!(places, [0, 1, 2, 3, 4]);
        assert_eq!(row::OPERAND + OPERAND_LEN, ROW_LEN);
    }
}

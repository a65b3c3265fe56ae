//! Location tables: read from a file, given back, and checked.

use super::program::{child_count, kind_known, next_of, operand_allowed, Operand};
use crate::refusals::{
    BUFFER_TOO_SHORT, FILE_TOO_SHORT, NOT_A_TABLE, NOT_ONE_TREE, OPERAND_NOT_ALLOWED,
    SIZE_OUT_OF_RANGE, TOO_DEEP, UNKNOWN_KIND, WRONG_LENGTH,
};
use crate::sizes::row::{END, KIND, NEXT, OPERAND, PARENT};
use crate::sizes::{Sizes, MAX_DEPTH, MAX_PARTS, NO_PART, NUMBER_LEN, ROW_LEN, SIZES_LEN};

/// The bytes of a part in a table.
type Row = [u8; ROW_LEN];

/// Reads a program file and writes its location table to the front of `table`.
pub fn compile(file: &[u8], table: &mut [u8]) -> Result<(), u32> {
    let file = File::read(file)?;
    let mut extents = [Extent::default(); MAX_PARTS];
    let extents = &mut extents[..file.sizes.parts];
    if !file.find_extents(extents) {
        return Err(NOT_ONE_TREE);
    }
    if usize::from(extents[0].levels) > MAX_DEPTH {
        return Err(TOO_DEEP);
    }
    let table = table.get_mut(..file.sizes.table_len());
    file.write_table(extents, table.ok_or(BUFFER_TOO_SHORT)?);
    Ok(())
}

/// Writes the program file that gives `table` to the front of `file`.
pub fn decompile(table: &[u8], file: &mut [u8]) -> Result<(), u32> {
    let table = Table::read(table).ok_or(NOT_A_TABLE)?;
    let len = table.sizes.file_len();
    let file = file.get_mut(..len).ok_or(BUFFER_TOO_SHORT)?;
    table.write_file(file);
    Ok(())
}

/// How far a part reaches: to the first number after it and what is inside it, and down over so many
/// levels, itself the first.
#[derive(Clone, Copy, Default)]
struct Extent {
    end: u16,
    levels: u16,
}

/// A program file whose kinds and operands have been checked.
struct File<'a> {
    sizes: Sizes,
    header: &'a [u8],
    kinds: &'a [u8],
    operands: &'a [Operand],
}

impl<'a> File<'a> {
    /// The bytes as a file, or the first of the refusals 1 to 5.
    fn read(bytes: &'a [u8]) -> Result<File<'a>, u32> {
        let sizes = Sizes::read(bytes).ok_or(FILE_TOO_SHORT)?;
        if !sizes.allowed() {
            return Err(SIZE_OUT_OF_RANGE);
        }
        if bytes.len() != sizes.file_len() {
            return Err(WRONG_LENGTH);
        }
        let (header, arrays) = bytes.split_at(SIZES_LEN);
        let (kinds, operands) = arrays.split_at(sizes.parts);
        if !kinds.iter().all(|&kind| kind_known(kind)) {
            return Err(UNKNOWN_KIND);
        }
        let (operands, _) = operands.as_chunks();
        let file = File {
            sizes,
            header,
            kinds,
            operands,
        };
        let allowed = |(kind, operand)| operand_allowed(kind, operand, &sizes);
        if !file.entries().all(allowed) {
            return Err(OPERAND_NOT_ALLOWED);
        }
        Ok(file)
    }

    /// Kind and operand of each part.
    fn entries(&self) -> impl DoubleEndedIterator<Item = (u8, Operand)> + ExactSizeIterator + '_ {
        let kinds = self.kinds.iter().copied();
        kinds.zip(self.operands.iter().copied())
    }

    /// Finds how far each part reaches, if the parts form exactly one tree. A part ends where its
    /// last child does; from the last part to the first, the children are known.
    fn find_extents(&self, extents: &mut [Extent]) -> bool {
        for (part, (kind, operand)) in self.entries().enumerate().rev() {
            let mut end = part + 1;
            let mut levels = 1;
            for _ in 0..child_count(kind, operand) {
                let Some(child) = extents.get(end) else {
                    return false;
                };
                levels = levels.max(1 + child.levels);
                end = usize::from(child.end);
            }
            extents[part] = Extent {
                end: end as u16,
                levels,
            };
        }
        usize::from(extents[0].end) == self.sizes.parts
    }

    /// Fills a table with the sizes and the rows.
    fn write_table(&self, extents: &[Extent], table: &mut [u8]) {
        let (header, rows) = table.split_at_mut(SIZES_LEN);
        let (rows, _) = rows.as_chunks_mut();
        header.copy_from_slice(self.header);
        put_number(&mut rows[0], PARENT, NO_PART);
        put_number(&mut rows[0], NEXT, NO_PART);
        for (part, (kind, operand)) in self.entries().enumerate() {
            let end = usize::from(extents[part].end);
            rows[part][KIND] = kind;
            put_number(&mut rows[part], END, end);
            rows[part][OPERAND..].copy_from_slice(&operand);
            let mut child = part + 1;
            while child < end {
                let child_end = usize::from(extents[child].end);
                let next = next_of(child, child_end, kind, child_end == end);
                put_number(&mut rows[child], PARENT, part);
                put_number(&mut rows[child], NEXT, next);
                child = child_end;
            }
        }
    }
}

/// A location table that has been checked.
pub struct Table<'a> {
    pub sizes: Sizes,
    header: &'a [u8],
    rows: &'a [Row],
}

impl<'a> Table<'a> {
    /// The bytes as a table, if they are the table of some file.
    pub fn read(bytes: &'a [u8]) -> Option<Table<'a>> {
        let sizes = Sizes::read(bytes)?;
        if !sizes.allowed() || bytes.len() != sizes.table_len() {
            return None;
        }
        let (header, rows) = bytes.split_at(SIZES_LEN);
        let (rows, _) = rows.as_chunks();
        let table = Table {
            sizes,
            header,
            rows,
        };
        table.rows_allowed().then_some(table)
    }

    pub fn kind(&self, part: usize) -> u8 {
        self.rows[part][KIND]
    }

    pub fn end(&self, part: usize) -> usize {
        number_at(&self.rows[part], END)
    }

    pub fn parent(&self, part: usize) -> usize {
        number_at(&self.rows[part], PARENT)
    }

    pub fn next(&self, part: usize) -> usize {
        number_at(&self.rows[part], NEXT)
    }

    pub fn operand(&self, part: usize) -> Operand {
        operand_in(&self.rows[part])
    }

    /// Whether kinds and operands are those of a file, and the rest is what they imply.
    fn rows_allowed(&self) -> bool {
        let parts = self.sizes.parts;
        let root_allowed = (self.end(0), self.parent(0), self.next(0)) == (parts, NO_PART, NO_PART);
        let mut depths = [1; MAX_PARTS];
        root_allowed
            && (0..parts).all(|part| {
                operand_allowed(self.kind(part), self.operand(part), &self.sizes)
                    && depths[part] <= MAX_DEPTH as u8
                    && self.children_allowed(part, &mut depths)
            })
    }

    /// Whether a part has as many children as it should, one after the other up to its end, and
    /// their rows say so. A child whose own end is wrong is found when its children are looked at.
    fn children_allowed(&self, part: usize, depths: &mut [u8; MAX_PARTS]) -> bool {
        let kind = self.kind(part);
        let end = self.end(part);
        let mut child = part + 1;
        for left in (0..child_count(kind, self.operand(part))).rev() {
            if child >= end {
                return false;
            }
            let child_end = self.end(child);
            let next = next_of(child, child_end, kind, left == 0);
            if self.parent(child) != part || self.next(child) != next {
                return false;
            }
            depths[child] = depths[part] + 1;
            child = child_end;
        }
        child == end
    }

    /// Fills a file with the sizes, the kinds and the operands.
    fn write_file(&self, file: &mut [u8]) {
        let (header, arrays) = file.split_at_mut(SIZES_LEN);
        header.copy_from_slice(self.header);
        let (kinds, operands) = arrays.split_at_mut(self.sizes.parts);
        let (operands, _) = operands.as_chunks_mut();
        for ((row, kind), operand) in self.rows.iter().zip(kinds).zip(operands) {
            *kind = row[KIND];
            *operand = operand_in(row);
        }
    }
}

fn operand_in(row: &Row) -> Operand {
    *row.last_chunk().expect("a row ends with the operand")
}

/// The number that stands at a place in a row.
fn number_at(row: &Row, place: usize) -> usize {
    let bytes = &row[place..place + NUMBER_LEN];
    let number = |high, &low: &u8| 256 * high + usize::from(low);
    bytes.iter().rev().fold(0, number)
}

fn put_number(row: &mut Row, place: usize, number: usize) {
    row[place..place + NUMBER_LEN].copy_from_slice(&number.to_le_bytes()[..NUMBER_LEN]);
}

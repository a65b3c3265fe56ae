//! A plain model of reading a program file and of giving it back from its location table.
//!
//! It is written from document 01 alone and shares nothing with the library.

use crate::parts::{Condition, Kind, Label, Part, Test};
use crate::refusals::{
    BUFFER_TOO_SHORT, FILE_TOO_SHORT, NOT_A_TABLE, NOT_ONE_TREE, OPERAND_NOT_ALLOWED,
    SIZE_OUT_OF_RANGE, TOO_DEEP, UNKNOWN_KIND, WRONG_LENGTH,
};
use crate::sizes::{
    number_bytes, number_of, row, Sizes, COUNT_LEN, MAX_DEPTH, MAX_VALUE, NO_PART, OPERAND_LEN,
    ROW_LEN, SIZES_LEN,
};

/// A program whose file is allowed.
#[derive(Clone, Debug, PartialEq, Eq)]
pub struct Program {
    pub sizes: Sizes,
    pub root: Part,
}

/// One row of a location table.
#[derive(Clone, Copy, Debug, PartialEq, Eq)]
pub struct Row {
    pub kind: u8,
    /// One past the number of the part's last descendant.
    pub end: usize,
    pub parent: usize,
    pub next: usize,
    pub operand: [u8; OPERAND_LEN],
}

impl Row {
    /// The row's bytes in a table.
    fn bytes(&self) -> Vec<u8> {
        let mut bytes = vec![self.kind];
        bytes.extend(number_bytes(self.end));
        bytes.extend(number_bytes(self.parent));
        bytes.extend(number_bytes(self.next));
        bytes.extend(self.operand);
        bytes
    }
}

impl Program {
    /// The rows of the program's location table.
    pub fn rows(&self) -> Vec<Row> {
        let mut rows = Vec::with_capacity(self.sizes.parts);
        push_rows(&self.root, NO_PART, &mut rows);
        rows
    }

    /// The program's location table.
    pub fn table(&self) -> Vec<u8> {
        table_bytes(&self.sizes, &self.rows())
    }
}

/// Reads a program file, or gives the number of the first refusal that applies.
pub fn read(file: &[u8]) -> Result<Program, u32> {
    let sizes = Sizes::read(file).ok_or(FILE_TOO_SHORT)?;
    if !sizes.allowed() {
        return Err(SIZE_OUT_OF_RANGE);
    }
    if file.len() != sizes.file_len() {
        return Err(WRONG_LENGTH);
    }
    let (kinds, operands) = file[SIZES_LEN..].split_at(sizes.parts);
    let kinds = read_kinds(kinds).ok_or(UNKNOWN_KIND)?;
    let labels = read_labels(&kinds, operands, &sizes).ok_or(OPERAND_NOT_ALLOWED)?;
    let root = read_tree(&labels).ok_or(NOT_ONE_TREE)?;
    if root.depth() > MAX_DEPTH {
        return Err(TOO_DEEP);
    }
    Ok(Program { sizes, root })
}

/// Reads a program file and writes its location table to the front of `table`.
pub fn compile(file: &[u8], table: &mut [u8]) -> Result<(), u32> {
    let program = read(file)?;
    write_front(&program.table(), table)
}

/// Writes the program file that gives `table` to the front of `file`.
pub fn decompile(table: &[u8], file: &mut [u8]) -> Result<(), u32> {
    let source = source_of(table).ok_or(NOT_A_TABLE)?;
    write_front(&source, file)
}

/// What the listing program writes for this input.
pub fn listing(file: &[u8]) -> String {
    match read(file) {
        Ok(program) => program_listing(&program),
        Err(refusal) => format!("{refusal}\n"),
    }
}

/// A table of these sizes and rows, whether or not they fit each other.
pub fn table_bytes(sizes: &Sizes, rows: &[Row]) -> Vec<u8> {
    let mut table = sizes.bytes();
    table.extend(rows.iter().flat_map(Row::bytes));
    table
}

/// The kinds with these numbers, if all are known.
fn read_kinds(kinds: &[u8]) -> Option<Vec<Kind>> {
    kinds.iter().map(|&byte| Kind::from_byte(byte)).collect()
}

/// What each part says by itself, if all operands are allowed.
fn read_labels(kinds: &[Kind], operands: &[u8], sizes: &Sizes) -> Option<Vec<Label>> {
    kinds
        .iter()
        .zip(operands.chunks_exact(OPERAND_LEN))
        .map(|(&kind, operand)| read_label(kind, operand, sizes))
        .collect()
}

/// What a part says by itself, if its operand is allowed.
fn read_label(kind: Kind, operand: &[u8], sizes: &Sizes) -> Option<Label> {
    match kind {
        Kind::Goal => read_goal(operand, sizes),
        Kind::Start => read_start(operand, sizes),
        Kind::Wait => read_condition(operand, sizes).map(Label::Wait),
        Kind::Seq => read_count(operand).map(|count| Label::Seq { count }),
        Kind::Par => read_count(operand).map(|count| Label::Par { count }),
        Kind::Maintain => read_condition(operand, sizes).map(Label::Maintain),
        Kind::Choice => read_condition(operand, sizes).map(Label::Choice),
        Kind::Repeat => all_zero(operand).then_some(Label::Repeat),
    }
}

/// The operand of GOAL: a variable and its value.
fn read_goal(operand: &[u8], sizes: &Sizes) -> Option<Label> {
    let (b0, variable, value) = operand_fields(operand);
    let allowed = b0 == 0 && usize::from(variable) < sizes.variables && value <= MAX_VALUE;
    allowed.then_some(Label::Goal { variable, value })
}

/// The operand of START: a clock.
fn read_start(operand: &[u8], sizes: &Sizes) -> Option<Label> {
    let (b0, clock, value) = operand_fields(operand);
    let allowed = b0 == 0 && usize::from(clock) < sizes.clocks && value == 0;
    allowed.then_some(Label::Start { clock })
}

/// The operand of WAIT, MAINTAIN and CHOICE: a condition.
fn read_condition(operand: &[u8], sizes: &Sizes) -> Option<Condition> {
    let (b0, subject, value) = operand_fields(operand);
    let test = Test::from_byte(b0)?;
    let allowed = match test {
        Test::Equals | Test::Differs => {
            usize::from(subject) < sizes.variables && value <= MAX_VALUE
        }
        Test::AtLeast | Test::Below => usize::from(subject) < sizes.clocks,
    };
    allowed.then_some(Condition {
        test,
        subject,
        value,
    })
}

/// The operand of SEQ and PAR: how many children there are.
fn read_count(operand: &[u8]) -> Option<usize> {
    let (count, others) = operand.split_at(COUNT_LEN);
    let count = number_of(count);
    (count > 0 && all_zero(others)).then_some(count)
}

/// The tree that the parts form in preorder, if they form exactly one.
fn read_tree(labels: &[Label]) -> Option<Part> {
    let mut rest = labels.iter();
    let root = read_part(&mut rest)?;
    rest.next().is_none().then_some(root)
}

/// Takes one part with all its descendants. The calls nest no deeper than there are parts, and a
/// file with more than the most allowed has been refused before.
fn read_part(rest: &mut std::slice::Iter<Label>) -> Option<Part> {
    let label = *rest.next()?;
    let children = (0..label.child_count())
        .map(|_| read_part(rest))
        .collect::<Option<Vec<Part>>>()?;
    Some(Part { label, children })
}

/// Appends the rows of a part and of its descendants. The part's own next is left open, because
/// it follows from what the part stands in.
fn push_rows(part: &Part, parent: usize, rows: &mut Vec<Row>) {
    let number = rows.len();
    rows.push(Row {
        kind: part.label.kind() as u8,
        end: number,
        parent,
        next: NO_PART,
        operand: part.label.operand(),
    });
    for (place, child) in part.children.iter().enumerate() {
        let first = rows.len();
        push_rows(child, number, rows);
        let is_last = place + 1 == part.children.len();
        rows[first].next = match part.label {
            Label::Seq { .. } if !is_last => rows.len(),
            Label::Repeat => first,
            _ => NO_PART,
        };
    }
    rows[number].end = rows.len();
}

/// The file that gives this table, if there is one. It can only be the one with the table's own
/// sizes, kinds and operands, because a table holds those of its file.
fn source_of(table: &[u8]) -> Option<Vec<u8>> {
    let sizes = Sizes::read(table)?;
    if table.len() != sizes.table_len() {
        return None;
    }
    let rows = table[SIZES_LEN..].chunks_exact(ROW_LEN);
    let mut file = table[..SIZES_LEN].to_vec();
    file.extend(rows.clone().map(|row| row[row::KIND]));
    file.extend(rows.flat_map(|row| &row[row::OPERAND..]));
    let program = read(&file).ok()?;
    (program.table() == table).then_some(file)
}

/// The listing of a program that is allowed.
fn program_listing(program: &Program) -> String {
    let sizes = &program.sizes;
    let mut text = format!("{} {} {}\n", sizes.parts, sizes.variables, sizes.clocks);
    for (number, row) in program.rows().iter().enumerate() {
        let [b0, b1, b2, b3] = row.operand;
        text += &format!(
            "{number} {} {} {} {} {b0} {b1} {b2} {b3}\n",
            row.kind, row.end, row.parent, row.next
        );
    }
    text
}

/// Writes to the front of an output buffer, which must have room for all the bytes.
pub(crate) fn write_front(bytes: &[u8], output: &mut [u8]) -> Result<(), u32> {
    let front = output.get_mut(..bytes.len()).ok_or(BUFFER_TOO_SHORT)?;
    front.copy_from_slice(bytes);
    Ok(())
}

/// The operand's b0, b1 and 16-bit value.
fn operand_fields(operand: &[u8]) -> (u8, u8, u16) {
    let value = u16::from_le_bytes([operand[2], operand[3]]);
    (operand[0], operand[1], value)
}

fn all_zero(bytes: &[u8]) -> bool {
    bytes.iter().all(|&byte| byte == 0)
}

#[cfg(test)]
mod tests {
    use super::*;
    use crate::examples::{self, Example};
    use crate::sizes::{MAX_FILE_LEN, MAX_TABLE_LEN};
    use crate::stations::{repeats_above_goal, STATION_10, STATION_10_LISTING};

    #[test]
    fn refuses_the_examples() {
        let mut ample = [0; MAX_TABLE_LEN];
        for (refusal, example) in examples::all() {
            let answer = match &example {
                Example::File(file) => compile(file, &mut ample),
                Example::Buffer { file, table_len } => compile(file, &mut ample[..*table_len]),
                Example::Table(table) => decompile(table, &mut ample[..MAX_FILE_LEN]),
                Example::Phase(_) | Example::Calls(_) => continue,
            };
            assert_eq!(answer, Err(refusal), "{example:?}");
        }
    }

    #[test]
    fn accepts_depth_16() {
        let program = read(&repeats_above_goal(15)).expect("15 REPEATs above a GOAL");
        assert_eq!(program.root.depth(), MAX_DEPTH);
    }

    #[test]
    fn lists_station_10() {
        assert_eq!(listing(&STATION_10), STATION_10_LISTING);
        assert_eq!(listing(&[]), format!("{FILE_TOO_SHORT}\n"));
    }

    #[test]
    fn gives_station_10_back() {
        let sizes = Sizes::read(&STATION_10).expect("a file has its sizes");
        let mut table = vec![0; sizes.table_len()];
        let mut file = vec![0; sizes.file_len()];
        assert_eq!(compile(&STATION_10, &mut table), Ok(()));
        assert_eq!(decompile(&table, &mut file), Ok(()));
        assert_eq!(file, STATION_10);
    }
}

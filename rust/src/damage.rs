//! Random files and tables, most of them with faults.

use crate::cases::{operand, random_clocks, random_variables, Draft, DraftPart};
use crate::model::{table_bytes, Program, Row};
use crate::parts::{Kind, PAR, REPEAT, SEQ};
use crate::rng::Rng;
use crate::sizes::{Sizes, MAX_DEPTH, NO_PART, OPERAND_LEN, SIZES_LEN};

/// A file with up to three faults, of which some may make no difference.
pub fn damaged_file(rng: &mut Rng, draft: &Draft) -> Vec<u8> {
    let mut draft = draft.clone();
    for _ in 0..rng.below(3) {
        damage_draft(rng, &mut draft);
    }
    let mut file = draft.file();
    if rng.one_in(2) {
        damage_bytes(rng, &mut file);
    }
    file
}

/// Puts a fault into the draft of a program.
fn damage_draft(rng: &mut Rng, draft: &mut Draft) {
    let count = draft.parts.len();
    let place = rng.below(count);
    match rng.below(9) {
        0 => draft.parts[place].kind = unknown_kind(rng),
        1 => draft.parts[place].kind = rng.pick(&Kind::ALL) as u8,
        2 => damage_byte(rng, &mut draft.parts[place].operand),
        3 => damage_child_count(rng, draft),
        4 => {
            let part = draft.parts[place];
            draft.parts.push(part);
        }
        5 if count > 1 => drop(draft.parts.remove(place)),
        6 => draft.parts.swap(place, count - 1),
        7 => damage_size(rng, draft),
        _ => wrap_in_repeats(rng, draft),
    }
}

/// A number that no kind has.
fn unknown_kind(rng: &mut Rng) -> u8 {
    let last = Kind::ALL.len() as u8;
    rng.pick(&[0, last + 1, last + 2, 128 + last, 255])
}

/// Makes the child count of some SEQ or PAR one more or one less.
fn damage_child_count(rng: &mut Rng, draft: &mut Draft) {
    let counted = [SEQ, PAR];
    let places: Vec<usize> = (0..draft.parts.len())
        .filter(|&place| counted.contains(&draft.parts[place].kind))
        .collect();
    if let Some(last) = places.len().checked_sub(1) {
        let place = places[rng.between(0, last)];
        step(rng, &mut draft.parts[place].operand[0]);
    }
}

/// Makes the number of variables or clocks one more or one less.
fn damage_size(rng: &mut Rng, draft: &mut Draft) {
    if rng.one_in(2) {
        step(rng, &mut draft.variables);
    } else {
        step(rng, &mut draft.clocks);
    }
}

/// Puts some REPEATs above the program.
fn wrap_in_repeats(rng: &mut Rng, draft: &mut Draft) {
    let repeat = DraftPart {
        kind: REPEAT,
        operand: [0; OPERAND_LEN],
    };
    for _ in 0..rng.pick(&[1, 2, 3, MAX_DEPTH - 1, MAX_DEPTH]) {
        draft.parts.insert(0, repeat);
    }
}

/// Puts a fault into the bytes of a file or table: one byte changed, a size off by one, a piece
/// cut off or added.
fn damage_bytes(rng: &mut Rng, bytes: &mut Vec<u8>) {
    let len = bytes.len();
    match rng.below(7) {
        0 | 1 => damage_byte(rng, bytes),
        2 => {
            let size = rng.below(SIZES_LEN);
            step(rng, &mut bytes[size]);
        }
        3 => bytes.truncate(len - rng.between(1, 8)),
        4 => bytes.truncate(rng.below(len)),
        5 => bytes.truncate(rng.below(SIZES_LEN + 1)),
        _ => {
            let more = rng.between(1, 9);
            bytes.extend(rng.bytes(more));
        }
    }
}

/// Changes one byte.
fn damage_byte(rng: &mut Rng, bytes: &mut [u8]) {
    let place = rng.below(bytes.len());
    match rng.below(3) {
        0 => bytes[place] ^= 1 << rng.below(8),
        1 => bytes[place] = bytes[place].wrapping_add(rng.between(1, 255) as u8),
        _ => step(rng, &mut bytes[place]),
    }
}

/// Makes a byte one more or one less.
fn step(rng: &mut Rng, byte: &mut u8) {
    *byte = byte.wrapping_add(rng.pick(&[1, 255]));
}

/// A file whose sizes fit its length and whose operands mostly fit their kinds, but whose parts
/// stand in any order; sometimes no more than random bytes.
pub fn random_file(rng: &mut Rng) -> Vec<u8> {
    if rng.one_in(8) {
        return random_bytes(rng);
    }
    let mut draft = Draft {
        variables: random_variables(rng),
        clocks: random_clocks(rng),
        parts: Vec::new(),
    };
    for _ in 0..rng.between(1, 6) {
        let kind = rng.pick(&Kind::ALL);
        let children = rng.between(1, 3);
        let operand = operand(rng, &draft, kind, children);
        draft.push(kind, operand);
    }
    if rng.one_in(10) {
        damage_draft(rng, &mut draft);
    }
    draft.file()
}

/// A table with up to three faults, of which some may make no difference.
pub fn damaged_table(rng: &mut Rng, program: &Program) -> Vec<u8> {
    let mut rows = program.rows();
    for _ in 0..rng.below(3) {
        damage_rows(rng, &mut rows);
    }
    let sizes = Sizes {
        parts: rows.len(),
        ..program.sizes
    };
    let mut table = table_bytes(&sizes, &rows);
    if rng.one_in(2) {
        damage_bytes(rng, &mut table);
    }
    table
}

/// Puts a fault into the rows of a table.
fn damage_rows(rng: &mut Rng, rows: &mut Vec<Row>) {
    let count = rows.len();
    let place = rng.below(count);
    let other = rng.below(count);
    match rng.below(10) {
        0 => rows[place].end = one_off(rng, rows[place].end),
        1 => rows[place].parent = one_off(rng, rows[place].parent),
        2 => rows[place].next = one_off(rng, rows[place].next),
        3 => rows[place].next = rng.pick(&[NO_PART, place, rows[place].end, other]),
        4 => rows[place].parent = rng.pick(&[NO_PART, 0, other]),
        5 => damage_byte(rng, &mut rows[place].operand),
        6 => rows[place].kind = rng.pick(&Kind::ALL) as u8,
        7 => rows.swap(place, other),
        8 if count > 1 => drop(rows.remove(place)),
        _ => wrap_rows(rows),
    }
}

fn one_off(rng: &mut Rng, number: usize) -> usize {
    match rng.one_in(2) {
        true => number.saturating_sub(1),
        false => number + 1,
    }
}

/// Puts a REPEAT above the rows of a program: they become those of the program one level deeper,
/// which may be too deep or have too many parts.
pub fn wrap_rows(rows: &mut Vec<Row>) {
    for row in rows.iter_mut() {
        row.end += 1;
        row.parent = if row.parent == NO_PART {
            0
        } else {
            row.parent + 1
        };
        row.next = if row.next == NO_PART {
            NO_PART
        } else {
            row.next + 1
        };
    }
    rows[0].next = 1;
    let repeat = Row {
        kind: REPEAT,
        end: rows.len() + 1,
        parent: NO_PART,
        next: NO_PART,
        operand: [0; OPERAND_LEN],
    };
    rows.insert(0, repeat);
}

/// A table whose sizes fit its length and whose rows are random; sometimes no more than random
/// bytes.
pub fn random_table(rng: &mut Rng) -> Vec<u8> {
    if rng.one_in(8) {
        return random_bytes(rng);
    }
    let sizes = Sizes {
        parts: rng.between(1, 3),
        variables: 1,
        clocks: 1,
    };
    let rows: Vec<Row> = (0..sizes.parts)
        .map(|_| random_row(rng, sizes.parts))
        .collect();
    table_bytes(&sizes, &rows)
}

/// A row with plausible numbers for a table of `parts` parts.
fn random_row(rng: &mut Rng, parts: usize) -> Row {
    let kind = rng.pick(&Kind::ALL);
    let b0 = rng.between(0, 2) as u8;
    Row {
        kind: kind as u8,
        end: rng.between(1, parts),
        parent: rng.pick(&[NO_PART, 0, 1]),
        next: rng.pick(&[NO_PART, NO_PART, 1, 2]),
        operand: [b0, 0, 0, 0],
    }
}

/// Up to 40 random bytes, the sizes small ones.
fn random_bytes(rng: &mut Rng) -> Vec<u8> {
    let len = rng.below(41);
    let mut bytes = rng.bytes(len);
    for size in bytes.iter_mut().take(SIZES_LEN) {
        *size %= 8;
    }
    bytes
}

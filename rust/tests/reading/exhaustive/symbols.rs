//! Parts to make small files and tables of, for one variable and one clock.

use gurvoke::parts::{
    AT_LEAST, BELOW, CHOICE, DIFFERS, EQUALS, GOAL, MAINTAIN, PAR, REPEAT, SEQ, START, WAIT,
};

/// A kind with its operand.
pub type Symbol = (u8, [u8; 4]);

/// Kinds with allowed and forbidden operands, for one variable and one clock.
pub const SYMBOLS: [Symbol; 58] = [
    // unknown kinds
    (0, [0, 0, 0, 0]),
    (9, [0, 0, 0, 0]),
    (255, [1, 0, 0, 0]),
    // GOAL
    (GOAL, [0, 0, 0, 0]),
    (GOAL, [0, 0, 250, 0]),
    (GOAL, [1, 0, 0, 0]),
    (GOAL, [0, 1, 0, 0]),
    (GOAL, [0, 0, 251, 0]),
    (GOAL, [0, 0, 0, 1]),
    // START
    (START, [0, 0, 0, 0]),
    (START, [1, 0, 0, 0]),
    (START, [0, 1, 0, 0]),
    (START, [0, 0, 1, 0]),
    (START, [0, 0, 0, 1]),
    // WAIT
    (WAIT, [EQUALS, 0, 1, 0]),
    (WAIT, [DIFFERS, 0, 250, 0]),
    (WAIT, [AT_LEAST, 0, 255, 255]),
    (WAIT, [BELOW, 0, 251, 0]),
    (WAIT, [0, 0, 0, 0]),
    (WAIT, [5, 0, 0, 0]),
    (WAIT, [EQUALS, 1, 0, 0]),
    (WAIT, [AT_LEAST, 1, 0, 0]),
    (WAIT, [EQUALS, 0, 251, 0]),
    (WAIT, [DIFFERS, 0, 0, 1]),
    // SEQ
    (SEQ, [0, 0, 0, 0]),
    (SEQ, [1, 0, 0, 0]),
    (SEQ, [2, 0, 0, 0]),
    (SEQ, [3, 0, 0, 0]),
    (SEQ, [255, 0, 0, 0]),
    (SEQ, [1, 1, 0, 0]),
    (SEQ, [1, 0, 1, 0]),
    (SEQ, [1, 0, 0, 1]),
    // PAR
    (PAR, [0, 0, 0, 0]),
    (PAR, [1, 0, 0, 0]),
    (PAR, [2, 0, 0, 0]),
    (PAR, [3, 0, 0, 0]),
    (PAR, [2, 1, 0, 0]),
    (PAR, [2, 0, 1, 0]),
    (PAR, [2, 0, 0, 1]),
    // MAINTAIN
    (MAINTAIN, [EQUALS, 0, 0, 0]),
    (MAINTAIN, [BELOW, 0, 0, 1]),
    (MAINTAIN, [0, 0, 0, 0]),
    (MAINTAIN, [5, 0, 0, 0]),
    (MAINTAIN, [DIFFERS, 1, 0, 0]),
    (MAINTAIN, [BELOW, 1, 0, 0]),
    (MAINTAIN, [DIFFERS, 0, 251, 0]),
    // CHOICE
    (CHOICE, [DIFFERS, 0, 250, 0]),
    (CHOICE, [AT_LEAST, 0, 251, 0]),
    (CHOICE, [0, 0, 0, 0]),
    (CHOICE, [6, 0, 0, 0]),
    (CHOICE, [EQUALS, 1, 0, 0]),
    (CHOICE, [BELOW, 1, 0, 0]),
    (CHOICE, [EQUALS, 0, 251, 0]),
    // REPEAT
    (REPEAT, [0, 0, 0, 0]),
    (REPEAT, [1, 0, 0, 0]),
    (REPEAT, [0, 1, 0, 0]),
    (REPEAT, [0, 0, 1, 0]),
    (REPEAT, [0, 0, 0, 1]),
];

/// Symbols whose operands are allowed, by the number of children.
pub const BY_CHILDREN: [&[Symbol]; 4] = [
    &[
        (GOAL, [0, 0, 250, 0]),
        (START, [0, 0, 0, 0]),
        (WAIT, [AT_LEAST, 0, 0, 1]),
    ],
    &[
        (SEQ, [1, 0, 0, 0]),
        (MAINTAIN, [EQUALS, 0, 0, 0]),
        (REPEAT, [0, 0, 0, 0]),
    ],
    &[
        (SEQ, [2, 0, 0, 0]),
        (PAR, [2, 0, 0, 0]),
        (CHOICE, [DIFFERS, 0, 0, 0]),
    ],
    &[(SEQ, [3, 0, 0, 0])],
];

/// A file of one variable, one clock and these parts.
pub fn file_of(parts: &[Symbol]) -> Vec<u8> {
    let mut file = vec![parts.len() as u8, 1, 1];
    file.extend(parts.iter().map(|(kind, _)| kind));
    file.extend(parts.iter().flat_map(|(_, operand)| operand));
    file
}

/// All lists of `len` symbols.
pub fn lists(symbols: &[Symbol], len: usize) -> Vec<Vec<Symbol>> {
    let mut lists = vec![Vec::new()];
    for _ in 0..len {
        lists = lists
            .iter()
            .flat_map(|list| {
                symbols
                    .iter()
                    .map(|&symbol| [&list[..], &[symbol]].concat())
            })
            .collect();
    }
    lists
}

/// How many trees of `parts` parts there are over the symbols.
pub fn tree_count(parts: usize) -> usize {
    (0..BY_CHILDREN.len())
        .map(|children| BY_CHILDREN[children].len() * forest_count(children, parts - 1))
        .sum()
}

/// How many lists of `trees` trees with `parts` parts in all there are over the symbols.
fn forest_count(trees: usize, parts: usize) -> usize {
    match trees {
        0 => usize::from(parts == 0),
        _ => (1..=parts)
            .map(|first| tree_count(first) * forest_count(trees - 1, parts - first))
            .sum(),
    }
}

/// A table of one variable, one clock and these rows.
pub fn table_of(rows: &[(Symbol, [u8; 3])]) -> Vec<u8> {
    let mut table = vec![rows.len() as u8, 1, 1];
    for ((kind, operand), place) in rows {
        table.push(*kind);
        table.extend(place);
        table.extend(operand);
    }
    table
}

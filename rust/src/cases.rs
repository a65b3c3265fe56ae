//! Random programs, valid by the way they are made.

use crate::parts::{count_bytes, operand_bytes, Kind, Test};
use crate::rng::Rng;
use crate::sizes::{
    Sizes, MAX_CLOCKS, MAX_DEPTH, MAX_PARTS, MAX_VALUE, MAX_VARIABLES, OPERAND_LEN,
};

/// A part of a draft: kind and operand, allowed or not.
#[derive(Clone, Copy)]
pub struct DraftPart {
    pub kind: u8,
    pub operand: [u8; OPERAND_LEN],
}

/// What a program file says, allowed or not. The number of parts is that of the list.
#[derive(Clone)]
pub struct Draft {
    pub variables: u8,
    pub clocks: u8,
    pub parts: Vec<DraftPart>,
}

impl Draft {
    /// The program file.
    pub fn file(&self) -> Vec<u8> {
        let sizes = Sizes {
            parts: self.parts.len(),
            variables: usize::from(self.variables),
            clocks: usize::from(self.clocks),
        };
        let mut file = sizes.bytes();
        file.extend(self.parts.iter().map(|part| part.kind));
        file.extend(self.parts.iter().flat_map(|part| part.operand));
        file
    }

    pub(crate) fn push(&mut self, kind: Kind, operand: [u8; OPERAND_LEN]) {
        let kind = kind as u8;
        self.parts.push(DraftPart { kind, operand });
    }
}

/// How the parts of a random program are spread.
#[derive(Clone, Copy, PartialEq)]
pub enum Shape {
    /// As deep as allowed.
    Deep,
    /// With long lists of children.
    Wide,
    Mixed,
}

/// A valid program, unless `parts` or `depth` is above the limits. It has exactly `parts` parts,
/// and no more than `depth` levels; a deep one with at least twice as many parts as levels has
/// exactly `depth`. A program of one level has one part.
pub fn program(rng: &mut Rng, parts: usize, depth: usize, shape: Shape) -> Draft {
    let mut draft = Draft {
        variables: random_variables(rng),
        clocks: random_clocks(rng),
        parts: Vec::new(),
    };
    push_part(rng, &mut draft, parts, depth, shape);
    draft
}

/// A valid program of any size, depth and shape.
pub fn any_program(rng: &mut Rng) -> Draft {
    let parts = match rng.below(20) {
        0 => 1,
        1 => rng.between(MAX_PARTS - 1, MAX_PARTS),
        2..=13 => rng.between(1, 12),
        _ => rng.between(1, MAX_PARTS),
    };
    let depth = match rng.below(2) {
        0 => MAX_DEPTH,
        _ => rng.between(2, MAX_DEPTH),
    };
    let shape = rng.pick(&[Shape::Deep, Shape::Wide, Shape::Mixed]);
    program(rng, parts, depth, shape)
}

pub(crate) fn random_variables(rng: &mut Rng) -> u8 {
    let most = MAX_VARIABLES;
    let any = rng.between(1, most);
    rng.pick(&[1, 2, most - 1, most, any]) as u8
}

pub(crate) fn random_clocks(rng: &mut Rng) -> u8 {
    let most = MAX_CLOCKS;
    let any = rng.between(0, most);
    rng.pick(&[0, 1, 2, most - 1, most, any]) as u8
}

/// Appends a part with `size` parts in all, itself included, on at most `levels` levels.
fn push_part(rng: &mut Rng, draft: &mut Draft, size: usize, levels: usize, shape: Shape) {
    if size == 1 {
        return push_leaf(rng, draft);
    }
    let child_sizes = split(rng, size - 1, levels - 1, shape);
    push_composite(rng, draft, child_sizes.len());
    for child_size in child_sizes {
        push_part(rng, draft, child_size, levels - 1, shape);
    }
}

/// Divides `total` parts among children that have at most `levels` levels each.
fn split(rng: &mut Rng, total: usize, levels: usize, shape: Shape) -> Vec<usize> {
    if levels == 1 {
        return vec![1; total];
    }
    let most_children = match shape {
        Shape::Deep => 2,
        Shape::Mixed => 5,
        Shape::Wide => total,
    };
    let count = rng.between(1, most_children.min(total));
    let favourite = rng.below(count);
    let mut sizes = vec![1; count];
    for _ in count..total {
        let place = match shape {
            Shape::Deep => favourite,
            Shape::Wide | Shape::Mixed => rng.below(count),
        };
        sizes[place] += 1;
    }
    sizes
}

fn push_leaf(rng: &mut Rng, draft: &mut Draft) {
    let kind = match draft.clocks {
        0 => rng.pick(&[Kind::Goal, Kind::Wait]),
        _ => rng.pick(&[Kind::Goal, Kind::Start, Kind::Wait]),
    };
    let operand = operand(rng, draft, kind, 0);
    draft.push(kind, operand);
}

fn push_composite(rng: &mut Rng, draft: &mut Draft, children: usize) {
    let kind = match children {
        1 => rng.pick(&[Kind::Seq, Kind::Par, Kind::Maintain, Kind::Repeat]),
        2 => rng.pick(&[Kind::Seq, Kind::Par, Kind::Choice]),
        _ => rng.pick(&[Kind::Seq, Kind::Par]),
    };
    let operand = operand(rng, draft, kind, children);
    draft.push(kind, operand);
}

/// An operand that the kind allows (START only where there is a clock).
pub(crate) fn operand(
    rng: &mut Rng,
    draft: &Draft,
    kind: Kind,
    children: usize,
) -> [u8; OPERAND_LEN] {
    match kind {
        Kind::Goal => operand_bytes(0, random_index(rng, draft.variables), random_value(rng)),
        Kind::Start => operand_bytes(0, random_index(rng, draft.clocks), 0),
        Kind::Wait | Kind::Maintain | Kind::Choice => random_condition(rng, draft),
        Kind::Seq | Kind::Par => count_bytes(children),
        Kind::Repeat => [0; OPERAND_LEN],
    }
}

fn random_condition(rng: &mut Rng, draft: &Draft) -> [u8; OPERAND_LEN] {
    if draft.clocks == 0 || rng.one_in(2) {
        let test = rng.pick(&[Test::Equals, Test::Differs]);
        let variable = random_index(rng, draft.variables);
        operand_bytes(test as u8, variable, random_value(rng))
    } else {
        let test = rng.pick(&[Test::AtLeast, Test::Below]);
        let clock = random_index(rng, draft.clocks);
        operand_bytes(test as u8, clock, random_reading(rng))
    }
}

/// A variable or clock below `count`, often the last one; 0 where there is none.
fn random_index(rng: &mut Rng, count: u8) -> u8 {
    let last = count.saturating_sub(1);
    let any = rng.below(usize::from(last) + 1) as u8;
    rng.pick(&[0, last, any])
}

/// A variable's value, often near an end of its range.
fn random_value(rng: &mut Rng) -> u16 {
    let any = rng.between(0, usize::from(MAX_VALUE)) as u16;
    rng.pick(&[0, 1, MAX_VALUE - 1, MAX_VALUE, any, any])
}

/// A clock's reading, often near a place where a careless comparison goes wrong.
fn random_reading(rng: &mut Rng) -> u16 {
    let any = rng.number() as u16;
    rng.pick(&[0, MAX_VALUE, MAX_VALUE + 1, 255, 256, u16::MAX, any, any])
}

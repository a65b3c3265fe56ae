//! Parts of a program: their kinds, conditions and operands, as document 01's table of kinds has them.

use crate::sizes::{COUNT_LEN, OPERAND_LEN};

/// The kind of a part.
#[derive(Clone, Copy, Debug, PartialEq, Eq)]
pub enum Kind {
    Goal = 1,
    Start = 2,
    Wait = 3,
    Seq = 4,
    Par = 5,
    Maintain = 6,
    Choice = 7,
    Repeat = 8,
}

impl Kind {
    /// All kinds, the leaves first.
    pub const ALL: [Kind; 8] = [
        Kind::Goal,
        Kind::Start,
        Kind::Wait,
        Kind::Seq,
        Kind::Par,
        Kind::Maintain,
        Kind::Choice,
        Kind::Repeat,
    ];

    /// The kind with this number, if there is one.
    pub fn from_byte(byte: u8) -> Option<Kind> {
        Kind::ALL.into_iter().find(|&kind| kind as u8 == byte)
    }
}

/// The bytes of the kinds.
pub const GOAL: u8 = Kind::Goal as u8;
pub const START: u8 = Kind::Start as u8;
pub const WAIT: u8 = Kind::Wait as u8;
pub const SEQ: u8 = Kind::Seq as u8;
pub const PAR: u8 = Kind::Par as u8;
pub const MAINTAIN: u8 = Kind::Maintain as u8;
pub const CHOICE: u8 = Kind::Choice as u8;
pub const REPEAT: u8 = Kind::Repeat as u8;

/// How a condition compares its variable or clock with its value.
#[derive(Clone, Copy, Debug, PartialEq, Eq)]
pub enum Test {
    /// The variable equals the value.
    Equals = 1,
    /// The variable differs from the value.
    Differs = 2,
    /// The clock reads at least the value.
    AtLeast = 3,
    /// The clock reads below the value.
    Below = 4,
}

impl Test {
    /// All tests, those of variables first.
    pub const ALL: [Test; 4] = [Test::Equals, Test::Differs, Test::AtLeast, Test::Below];

    /// The test with this number, if there is one.
    pub fn from_byte(byte: u8) -> Option<Test> {
        Test::ALL.into_iter().find(|&test| test as u8 == byte)
    }
}

/// The bytes of the tests.
pub const EQUALS: u8 = Test::Equals as u8;
pub const DIFFERS: u8 = Test::Differs as u8;
pub const AT_LEAST: u8 = Test::AtLeast as u8;
pub const BELOW: u8 = Test::Below as u8;

/// A condition over a variable or a clock.
#[derive(Clone, Copy, Debug, PartialEq, Eq)]
pub struct Condition {
    pub test: Test,
    /// The number of the variable or clock.
    pub subject: u8,
    pub value: u16,
}

/// What a part says by itself, without its children.
#[derive(Clone, Copy, Debug, PartialEq, Eq)]
pub enum Label {
    Goal { variable: u8, value: u16 },
    Start { clock: u8 },
    Wait(Condition),
    Seq { count: usize },
    Par { count: usize },
    Maintain(Condition),
    Choice(Condition),
    Repeat,
}

impl Label {
    /// The part's kind.
    pub fn kind(&self) -> Kind {
        match self {
            Label::Goal { .. } => Kind::Goal,
            Label::Start { .. } => Kind::Start,
            Label::Wait(_) => Kind::Wait,
            Label::Seq { .. } => Kind::Seq,
            Label::Par { .. } => Kind::Par,
            Label::Maintain(_) => Kind::Maintain,
            Label::Choice(_) => Kind::Choice,
            Label::Repeat => Kind::Repeat,
        }
    }

    /// How many children the part has.
    pub fn child_count(&self) -> usize {
        match *self {
            Label::Goal { .. } | Label::Start { .. } | Label::Wait(_) => 0,
            Label::Seq { count } | Label::Par { count } => count,
            Label::Maintain(_) | Label::Repeat => 1,
            Label::Choice(_) => 2,
        }
    }

    /// The operand that says this.
    pub fn operand(&self) -> [u8; OPERAND_LEN] {
        match *self {
            Label::Goal { variable, value } => operand_bytes(0, variable, value),
            Label::Start { clock } => operand_bytes(0, clock, 0),
            Label::Wait(condition) | Label::Maintain(condition) | Label::Choice(condition) => {
                operand_bytes(condition.test as u8, condition.subject, condition.value)
            }
            Label::Seq { count } | Label::Par { count } => count_bytes(count),
            Label::Repeat => [0; OPERAND_LEN],
        }
    }
}

/// A part with everything inside it.
#[derive(Clone, Debug, PartialEq, Eq)]
pub struct Part {
    pub label: Label,
    pub children: Vec<Part>,
}

impl Part {
    /// How many parts there are, this one included.
    pub fn size(&self) -> usize {
        1 + self.children.iter().map(Part::size).sum::<usize>()
    }

    /// How many parts stand one inside the other at the deepest place, this part included.
    pub fn depth(&self) -> usize {
        1 + self.children.iter().map(Part::depth).max().unwrap_or(0)
    }
}

/// The operand with this b0, b1 and 16-bit value.
pub fn operand_bytes(b0: u8, b1: u8, value: u16) -> [u8; OPERAND_LEN] {
    let [b2, b3] = value.to_le_bytes();
    [b0, b1, b2, b3]
}

/// The operand with this child count.
pub fn count_bytes(count: usize) -> [u8; OPERAND_LEN] {
    let mut operand = [0; OPERAND_LEN];
    operand[..COUNT_LEN].copy_from_slice(&count.to_le_bytes()[..COUNT_LEN]);
    operand
}

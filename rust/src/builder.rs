//! Programs written part by part, for tests that name each part.

use crate::parts::{Condition, Label, Part, Test};
use crate::sizes::Sizes;

pub fn goal(variable: u8, value: u16) -> Part {
    leaf(Label::Goal { variable, value })
}

pub fn start(clock: u8) -> Part {
    leaf(Label::Start { clock })
}

pub fn wait(condition: Condition) -> Part {
    leaf(Label::Wait(condition))
}

pub fn seq(children: Vec<Part>) -> Part {
    let count = children.len();
    let label = Label::Seq { count };
    Part { label, children }
}

pub fn par(children: Vec<Part>) -> Part {
    let count = children.len();
    let label = Label::Par { count };
    Part { label, children }
}

pub fn maintain(condition: Condition, child: Part) -> Part {
    let label = Label::Maintain(condition);
    let children = vec![child];
    Part { label, children }
}

pub fn choice(condition: Condition, first: Part, second: Part) -> Part {
    let label = Label::Choice(condition);
    let children = vec![first, second];
    Part { label, children }
}

pub fn repeat(child: Part) -> Part {
    let label = Label::Repeat;
    let children = vec![child];
    Part { label, children }
}

/// The variable equals the value.
pub fn equals(variable: u8, value: u16) -> Condition {
    condition(Test::Equals, variable, value)
}

/// The variable differs from the value.
pub fn differs(variable: u8, value: u16) -> Condition {
    condition(Test::Differs, variable, value)
}

/// The clock reads at least the value.
pub fn at_least(clock: u8, value: u16) -> Condition {
    condition(Test::AtLeast, clock, value)
}

/// The clock reads below the value.
pub fn below(clock: u8, value: u16) -> Condition {
    condition(Test::Below, clock, value)
}

/// The program file of these sizes with this root.
pub fn file(variables: usize, clocks: usize, root: &Part) -> Vec<u8> {
    let mut labels = Vec::new();
    push_labels(root, &mut labels);
    let sizes = Sizes {
        parts: labels.len(),
        variables,
        clocks,
    };
    let mut file = sizes.bytes();
    file.extend(labels.iter().map(|label| label.kind() as u8));
    file.extend(labels.iter().flat_map(Label::operand));
    file
}

fn leaf(label: Label) -> Part {
    let children = Vec::new();
    Part { label, children }
}

fn condition(test: Test, subject: u8, value: u16) -> Condition {
    Condition {
        test,
        subject,
        value,
    }
}

/// Appends the parts in preorder.
fn push_labels(part: &Part, labels: &mut Vec<Label>) {
    labels.push(part.label);
    for child in &part.children {
        push_labels(child, labels);
    }
}

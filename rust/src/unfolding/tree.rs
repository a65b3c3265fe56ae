//! What a part means, made of what its children mean: document 01's "Unfolding the tree", with the
//! three answers of a condition that document 02's R-4 names.

use super::known;
use crate::parts::{Condition, Label, Part, Test};

/// A part with everything inside it.
#[derive(Clone, Debug, PartialEq, Eq)]
pub enum Tree {
    Goal { variable: usize, value: u8 },
    Start { clock: usize },
    Wait(Condition),
    Seq(Vec<Tree>),
    Par(Vec<Tree>),
    Maintain(Condition, Box<Tree>),
    Choice(Condition, Box<[Tree; 2]>),
    Repeat(Box<Tree>),
}

/// The tree of a part as it is read.
pub(super) fn tree_of(part: Part) -> Tree {
    let mut children = part.children.into_iter().map(tree_of);
    match part.label {
        Label::Goal { variable, value } => Tree::Goal {
            variable: usize::from(variable),
            value: u8::try_from(value).expect("a goal's value is at most 250"),
        },
        Label::Start { clock } => Tree::Start {
            clock: usize::from(clock),
        },
        Label::Wait(condition) => Tree::Wait(condition),
        Label::Seq { .. } => Tree::Seq(children.collect()),
        Label::Par { .. } => Tree::Par(children.collect()),
        Label::Maintain(condition) => Tree::Maintain(condition, Box::new(child(&mut children))),
        Label::Choice(condition) => {
            let branches = [child(&mut children), child(&mut children)];
            Tree::Choice(condition, Box::new(branches))
        }
        Label::Repeat => Tree::Repeat(Box::new(child(&mut children))),
    }
}

/// The next of the children that the part's kind promises.
fn child(children: &mut impl Iterator<Item = Tree>) -> Tree {
    children.next().expect("as many children as the kind has")
}

/// What remains of a part that has begun and not ended.
#[derive(Clone, Debug, PartialEq, Eq)]
pub enum Rest {
    /// Of a GOAL, START or WAIT.
    Leaf,
    /// Of a SEQ: its current child, and what remains of it.
    Seq { current: usize, child: Box<Rest> },
    /// Of a PAR: each child that has not ended, in its place.
    Par(Vec<Option<Rest>>),
    /// Of a MAINTAIN: whether this cycle's offer found it violated.
    Maintain { violated: bool, child: Box<Rest> },
    /// Of a CHOICE in its first cycle.
    Undecided,
    /// Of a CHOICE after that: the chosen child.
    Decided { branch: usize, child: Box<Rest> },
    /// Of a REPEAT.
    Repeat(Box<Rest>),
}

/// What conditions are judged by.
pub(super) struct View<'a> {
    pub estimate: &'a [u8],
    pub time: u32,
    pub clocks: &'a [Option<u32>],
}

/// What testing a condition answers.
#[derive(Clone, Copy, Debug, PartialEq, Eq)]
enum Outcome {
    Satisfied,
    Violated,
    Open,
}

impl View<'_> {
    /// A condition is violated when its opposite is satisfied. Over an unknown variable and over an
    /// unstarted clock it is neither, so it is open.
    fn outcome(&self, condition: &Condition) -> Outcome {
        let opposite = Condition {
            test: opposite(condition.test),
            ..*condition
        };
        if self.satisfied(condition) {
            Outcome::Satisfied
        } else if self.satisfied(&opposite) {
            Outcome::Violated
        } else {
            Outcome::Open
        }
    }

    fn satisfied(&self, condition: &Condition) -> bool {
        let subject = usize::from(condition.subject);
        let equals = |value: u8| u16::from(value) == condition.value;
        let at_least = |reading: u32| reading >= u32::from(condition.value);
        match condition.test {
            Test::Equals => self.value(subject).is_some_and(equals),
            Test::Differs => self.value(subject).is_some_and(|value| !equals(value)),
            Test::AtLeast => self.reading(subject).is_some_and(at_least),
            Test::Below => self
                .reading(subject)
                .is_some_and(|reading| !at_least(reading)),
        }
    }

    /// A variable's value, if it is known.
    pub fn value(&self, variable: usize) -> Option<u8> {
        known(self.estimate[variable])
    }

    /// What a clock reads, if it is started.
    pub fn reading(&self, clock: usize) -> Option<u32> {
        self.clocks[clock].map(|start| self.time - start)
    }
}

fn opposite(test: Test) -> Test {
    match test {
        Test::Equals => Test::Differs,
        Test::Differs => Test::Equals,
        Test::AtLeast => Test::Below,
        Test::Below => Test::AtLeast,
    }
}

impl Tree {
    /// What remains of the part when it has just begun.
    pub fn afresh(&self) -> Rest {
        match self {
            Tree::Goal { .. } | Tree::Start { .. } | Tree::Wait(_) => Rest::Leaf,
            Tree::Seq(children) => at_child(children, 0),
            Tree::Par(children) => {
                Rest::Par(children.iter().map(|child| Some(child.afresh())).collect())
            }
            Tree::Maintain(_, child) => Rest::Maintain {
                violated: false,
                child: Box::new(child.afresh()),
            },
            Tree::Choice(..) => Rest::Undecided,
            Tree::Repeat(child) => Rest::Repeat(Box::new(child.afresh())),
        }
    }

    /// Calls `visit` with each child that is going on. Of a violated MAINTAIN there is none: it
    /// offers nothing, starts nothing, and is about to end.
    fn going_on<'a>(&'a self, rest: &'a Rest, mut visit: impl FnMut(&'a Tree, &'a Rest)) {
        match (self, rest) {
            (Tree::Seq(children), Rest::Seq { current, child }) => {
                visit(&children[*current], child)
            }
            (Tree::Par(children), Rest::Par(rests)) => {
                for (child, rest) in children.iter().zip(rests) {
                    if let Some(rest) = rest {
                        visit(child, rest);
                    }
                }
            }
            (Tree::Maintain(_, inner), Rest::Maintain { violated, child }) if !violated => {
                visit(inner, child)
            }
            (Tree::Choice(_, branches), Rest::Decided { branch, child }) => {
                visit(&branches[*branch], child)
            }
            (Tree::Repeat(inner), Rest::Repeat(child)) => visit(inner, child),
            _ => {}
        }
    }

    /// Finds out, at an offer, which MAINTAINs are violated. What is inside a violated one is not
    /// looked at, since it ends with it.
    pub(super) fn check(&self, rest: &mut Rest, view: &View) {
        match (self, rest) {
            (Tree::Seq(children), Rest::Seq { current, child }) => {
                children[*current].check(child, view)
            }
            (Tree::Par(children), Rest::Par(rests)) => {
                for (child, rest) in children.iter().zip(rests) {
                    if let Some(rest) = rest {
                        child.check(rest, view);
                    }
                }
            }
            (Tree::Maintain(condition, inner), Rest::Maintain { violated, child }) => {
                *violated = view.outcome(condition) == Outcome::Violated;
                if !*violated {
                    inner.check(child, view);
                }
            }
            (Tree::Choice(_, branches), Rest::Decided { branch, child }) => {
                branches[*branch].check(child, view)
            }
            (Tree::Repeat(inner), Rest::Repeat(child)) => inner.check(child, view),
            _ => {}
        }
    }

    /// Appends the goals that what remains offers.
    pub(super) fn goals(&self, rest: &Rest, goals: &mut Vec<(usize, u8)>) {
        if let Tree::Goal { variable, value } = *self {
            goals.push((variable, value));
        }
        self.going_on(rest, |child, rest| child.goals(rest, goals));
    }

    /// Appends the clocks that what remains starts.
    pub(super) fn starts(&self, rest: &Rest, clocks: &mut Vec<usize>) {
        if let Tree::Start { clock } = *self {
            clocks.push(clock);
        }
        self.going_on(rest, |child, rest| child.starts(rest, clocks));
    }

    /// What remains after a settling; nothing where the part ends.
    pub(super) fn settle(&self, rest: &Rest, view: &View) -> Option<Rest> {
        match (self, rest) {
            (Tree::Goal { variable, value }, Rest::Leaf) => {
                leaf_unless(view.value(*variable) == Some(*value))
            }
            (Tree::Start { .. }, Rest::Leaf) => None,
            (Tree::Wait(condition), Rest::Leaf) => {
                leaf_unless(view.outcome(condition) == Outcome::Satisfied)
            }
            (Tree::Seq(children), Rest::Seq { current, child }) => {
                settle_seq(children, *current, child, view)
            }
            (Tree::Par(children), Rest::Par(rests)) => settle_par(children, rests, view),
            (Tree::Maintain(..), Rest::Maintain { violated: true, .. }) => None,
            (Tree::Maintain(_, inner), Rest::Maintain { child, .. }) => {
                let child = Box::new(inner.settle(child, view)?);
                Some(Rest::Maintain {
                    violated: false,
                    child,
                })
            }
            (Tree::Choice(condition, branches), Rest::Undecided) => {
                let branch = match view.outcome(condition) {
                    Outcome::Satisfied => 0,
                    Outcome::Violated | Outcome::Open => 1,
                };
                let child = Box::new(branches[branch].afresh());
                Some(Rest::Decided { branch, child })
            }
            (Tree::Choice(_, branches), Rest::Decided { branch, child }) => {
                let branch = *branch;
                let child = Box::new(branches[branch].settle(child, view)?);
                Some(Rest::Decided { branch, child })
            }
            (Tree::Repeat(inner), Rest::Repeat(child)) => {
                let child = inner.settle(child, view);
                Some(Rest::Repeat(Box::new(
                    child.unwrap_or_else(|| inner.afresh()),
                )))
            }
            (tree, rest) => unreachable!("{rest:?} does not remain of {tree:?}"),
        }
    }

    /// Appends the marks of the part and of all inside it, in preorder: a part is marked where it
    /// is going on.
    ///
    /// That is the paper's rule for marks. To initialise marks exactly what a part has going on
    /// when it begins afresh; a part that ends loses its mark, and its next is initialised, which
    /// is the child that begins afresh; a violated MAINTAIN keeps its own mark up to the settling
    /// that ends it, and has none inside.
    pub(super) fn marks(&self, rest: Option<&Rest>, marks: &mut Vec<u8>) {
        marks.push(u8::from(rest.is_some()));
        for (place, child) in self.children().iter().enumerate() {
            child.marks(rest.and_then(|rest| rest.of_child(place)), marks);
        }
    }

    /// The part's children.
    pub fn children(&self) -> &[Tree] {
        match self {
            Tree::Goal { .. } | Tree::Start { .. } | Tree::Wait(_) => &[],
            Tree::Seq(children) | Tree::Par(children) => children,
            Tree::Maintain(_, child) | Tree::Repeat(child) => std::slice::from_ref(child),
            Tree::Choice(_, branches) => &branches[..],
        }
    }
}

impl Rest {
    /// What remains of the child in this place, if it is going on.
    pub fn of_child(&self, place: usize) -> Option<&Rest> {
        match self {
            Rest::Leaf | Rest::Undecided | Rest::Maintain { violated: true, .. } => None,
            Rest::Seq { current, child } => (place == *current).then_some(child),
            Rest::Par(rests) => rests[place].as_ref(),
            Rest::Maintain { child, .. } | Rest::Repeat(child) => Some(child),
            Rest::Decided { branch, child } => (place == *branch).then_some(child),
        }
    }
}

/// A SEQ that has come to this child, which begins afresh.
fn at_child(children: &[Tree], current: usize) -> Rest {
    Rest::Seq {
        current,
        child: Box::new(children[current].afresh()),
    }
}

fn leaf_unless(ends: bool) -> Option<Rest> {
    (!ends).then_some(Rest::Leaf)
}

/// When the current child ends, the following one begins afresh; with the last one the SEQ ends.
fn settle_seq(children: &[Tree], current: usize, child: &Rest, view: &View) -> Option<Rest> {
    if let Some(child) = children[current].settle(child, view) {
        let child = Box::new(child);
        return Some(Rest::Seq { current, child });
    }
    let following = current + 1;
    (following < children.len()).then(|| at_child(children, following))
}

/// PAR ends in the settling after which no child is left running.
fn settle_par(children: &[Tree], rests: &[Option<Rest>], view: &View) -> Option<Rest> {
    let rests: Vec<Option<Rest>> = children
        .iter()
        .zip(rests)
        .map(|(child, rest)| child.settle(rest.as_ref()?, view))
        .collect();
    rests
        .iter()
        .any(Option::is_some)
        .then_some(Rest::Par(rests))
}

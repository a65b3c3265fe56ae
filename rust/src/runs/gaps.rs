//! What calls come upon where a variable is unknown: conditions that are open over it, and GOALs that
//! are not reached.

use super::visit_going_on;
use crate::counts::{self, Counts};
use crate::parts::{Condition, Test};
use crate::sizes::UNKNOWN_VALUE;
use crate::unfolding::{Rest, Run, Tree};

/// What a call comes upon.
#[derive(Clone, Copy, Debug, Default, PartialEq, Eq)]
pub struct Gaps {
    /// An offer judges a MAINTAIN over an unknown variable.
    maintain: bool,
    /// A settling's estimate has an unknown variable.
    estimate: bool,
    /// A settling judges a WAIT over an unknown variable.
    wait: bool,
    /// A settling decides a CHOICE over an unknown variable.
    choice: bool,
    /// A settling judges a GOAL whose variable is unknown.
    goal: bool,
}

/// How the list of counts names the fields of `Gaps`, in their order.
const NAMES: [&str; 5] = [
    "offers that find a MAINTAIN open over an unknown variable",
    "settlings with an unknown variable",
    "settlings that find a WAIT open over an unknown variable",
    "settlings that find a CHOICE open over an unknown variable",
    "settlings that find the variable of a GOAL unknown",
];

impl Gaps {
    /// What the offer that has just been made has come upon.
    pub fn of_offer(run: &Run) -> Gaps {
        let mut gaps = Gaps::default();
        visit_going_on(run, |_, tree, _| {
            if let Tree::Maintain(condition, _) = tree {
                gaps.maintain |= is_over_unknown(condition, &run.estimate);
            }
        });
        gaps
    }

    /// What a settling with this estimate that is accepted comes upon in this state, which an offer
    /// has left.
    pub fn of_settling(run: &Run, estimate: &[u8]) -> Gaps {
        let mut gaps = Gaps {
            estimate: estimate.contains(&UNKNOWN_VALUE),
            ..Gaps::default()
        };
        visit_going_on(run, |_, tree, rest| match (tree, rest) {
            (Tree::Wait(condition), _) => gaps.wait |= is_over_unknown(condition, estimate),
            (Tree::Choice(condition, _), Rest::Undecided) => {
                gaps.choice |= is_over_unknown(condition, estimate)
            }
            (Tree::Goal { variable, .. }, _) => gaps.goal |= is_unknown(*variable, estimate),
            _ => {}
        });
        gaps
    }

    /// The fields, in the order of `NAMES`.
    fn fields(&self) -> [bool; NAMES.len()] {
        [
            self.maintain,
            self.estimate,
            self.wait,
            self.choice,
            self.goal,
        ]
    }
}

fn is_over_unknown(condition: &Condition, estimate: &[u8]) -> bool {
    variable_of(condition).is_some_and(|variable| is_unknown(variable, estimate))
}

/// The variable that a condition is over, if it is over one.
pub(super) fn variable_of(condition: &Condition) -> Option<usize> {
    let over_variable = matches!(condition.test, Test::Equals | Test::Differs);
    over_variable.then_some(usize::from(condition.subject))
}

/// Whether the estimate says nothing of the variable. One that is too short is refused.
fn is_unknown(variable: usize, estimate: &[u8]) -> bool {
    estimate.get(variable) == Some(&UNKNOWN_VALUE)
}

/// How many calls came upon what, in the order of `NAMES`.
#[derive(Clone, Debug, Default)]
pub struct GapCounts([u64; NAMES.len()]);

impl GapCounts {
    /// Counts a call that was accepted.
    pub fn note(&mut self, gaps: &Gaps) {
        counts::note(&mut self.0, gaps.fields());
    }

    /// What was counted, as the list of counts names it.
    pub fn counts(&self) -> Counts {
        counts::by_name(NAMES, self.0)
    }
}

#[cfg(test)]
mod tests {
    use super::*;
    use crate::builder::{
        at_least, choice, differs, equals, file, goal, maintain, par, seq, start, wait,
    };
    use crate::parts::Part;
    use crate::unfolding::Program;

    /// Variable 0 is unknown, variable 1 has the value 0.
    const ESTIMATE: [u8; 2] = [UNKNOWN_VALUE, 0];

    const NONE: Gaps = Gaps {
        maintain: false,
        estimate: false,
        wait: false,
        choice: false,
        goal: false,
    };
    /// A settling that judges nothing by what is unknown.
    const UNSEEN: Gaps = Gaps {
        estimate: true,
        ..NONE
    };

    /// What an offer comes upon, and a settling with the same estimate after it.
    fn of_first_cycle(root: &Part) -> (Gaps, Gaps) {
        let program = Program::read(&file(2, 1, root)).expect("a valid program");
        let mut run = Run::begin(&program, &ESTIMATE).expect("an allowed estimate");
        run.offer(0, 2).expect("an offer");
        (Gaps::of_offer(&run), Gaps::of_settling(&run, &ESTIMATE))
    }

    #[test]
    fn parts_over_an_unknown_variable() {
        let open = Gaps {
            maintain: true,
            ..NONE
        };
        let held = maintain(equals(0, 1), start(0));
        assert_eq!(of_first_cycle(&held), (open, UNSEEN));
        let unreached = Gaps {
            goal: true,
            ..UNSEEN
        };
        assert_eq!(of_first_cycle(&goal(0, 1)), (NONE, unreached));
        for condition in [equals(0, 1), differs(0, 1)] {
            let waits = Gaps {
                wait: true,
                ..UNSEEN
            };
            assert_eq!(of_first_cycle(&wait(condition)), (NONE, waits));
            let undecided = choice(condition, start(0), start(0));
            let decides = Gaps {
                choice: true,
                ..UNSEEN
            };
            assert_eq!(of_first_cycle(&undecided), (NONE, decides));
        }
    }

    /// Known variables, clocks, parts that have not begun, and parts inside a violated MAINTAIN.
    #[test]
    fn parts_that_are_not_judged_so() {
        let known = par(vec![goal(1, 1), wait(equals(1, 1)), wait(at_least(0, 0))]);
        assert_eq!(of_first_cycle(&known), (NONE, UNSEEN));
        let later = seq(vec![start(0), maintain(equals(0, 1), goal(0, 1))]);
        assert_eq!(of_first_cycle(&later), (NONE, UNSEEN));
        let inner = par(vec![goal(0, 1), maintain(equals(0, 1), start(0))]);
        let violated = maintain(differs(1, 0), inner);
        assert_eq!(of_first_cycle(&violated), (NONE, UNSEEN));
    }

    #[test]
    fn settlings_without_a_gap() {
        let program = Program::read(&file(2, 0, &goal(0, 1))).expect("a valid program");
        let run = Run::begin(&program, &ESTIMATE).expect("an allowed estimate");
        assert_eq!(Gaps::of_settling(&run, &[0, 0]), NONE);
        assert_eq!(Gaps::of_settling(&run, &[]), NONE);
    }
}

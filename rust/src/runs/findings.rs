//! What an offer found: how often a run comes to the cycles that are in doubt.

use super::{clock_limit, visit_going_on, visit_inside};
use crate::parts::Test;
use crate::unfolding::{Rest, Run, Tree};

/// From this depth on a MAINTAIN is deep, as in the buyer's doubtful cycles; the root has depth 1.
pub const DEEP: usize = 3;

/// What an offer found, each as the depth of the deepest MAINTAIN of which it is so, or 0.
#[derive(Clone, Copy, Debug, Default)]
pub struct Findings {
    /// It is violated.
    pub violated: usize,
    /// It is violated just as a clock comes due: a WAIT that is going on inside it waits for the
    /// very reading of this cycle.
    pub doubtful: usize,
}

/// What the offer that has just been made found.
pub fn findings(run: &Run) -> Findings {
    let mut findings = Findings::default();
    visit_going_on(run, |depth, tree, rest| {
        if let (Tree::Maintain(_, inner), Rest::Maintain { violated, child }) = (tree, rest) {
            if *violated {
                findings.violated = findings.violated.max(depth);
                if comes_due(inner, child, run) {
                    findings.doubtful = findings.doubtful.max(depth);
                }
            }
        }
    });
    findings
}

/// Whether a WAIT that is going on waits for just what its clock reads.
pub(super) fn comes_due(tree: &Tree, rest: &Rest, run: &Run) -> bool {
    let mut is_due = false;
    visit_inside(1, tree, rest, &mut |_, part, _| {
        is_due |= awaited(part).is_some_and(|(clock, limit)| run.reading(clock) == Some(limit));
    });
    is_due
}

/// The clock and the reading that a part waits for, if it is a WAIT for a reading.
pub(super) fn awaited(tree: &Tree) -> Option<(usize, u32)> {
    match tree {
        Tree::Wait(condition) if condition.test == Test::AtLeast => clock_limit(condition),
        _ => None,
    }
}

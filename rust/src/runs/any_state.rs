//! Random states of a run.

use super::first_estimate;
use crate::record::Phase;
use crate::rng::Rng;
use crate::unfolding::{Program, Rest, Run, Tree};

/// Any state that the paper allows a record to hold, whether or not a run comes to it.
pub fn any_state<'a>(rng: &mut Rng, program: &'a Program) -> Run<'a> {
    let phase = match rng.below(12) {
        0 => Phase::Finished,
        1..=5 => Phase::Waiting,
        _ => Phase::Offered,
    };
    let estimate = first_estimate(rng, program);
    let mut run = Run::begin(program, &estimate).expect("the estimate is allowed");
    let far = rng.between(0, u32::MAX as usize) as u32;
    run.phase = phase;
    run.time = rng.pick(&[0, 1, 5, 300, far, u32::MAX]);
    for clock in &mut run.clocks {
        let back = rng.pick(&[0, 1, 2, 3, 5, 10, 256, far]);
        let started = rng.one_in(2);
        *clock = started.then_some(run.time.saturating_sub(back));
    }
    let offered = phase == Phase::Offered;
    run.rest = (phase != Phase::Finished).then(|| any_rest(rng, &program.root, offered));
    run
}

/// Anything that can remain of a part. Only an offer finds a MAINTAIN violated.
fn any_rest(rng: &mut Rng, tree: &Tree, offered: bool) -> Rest {
    match tree {
        Tree::Goal { .. } | Tree::Start { .. } | Tree::Wait(_) => Rest::Leaf,
        Tree::Seq(children) => {
            let current = rng.below(children.len());
            let child = Box::new(any_rest(rng, &children[current], offered));
            Rest::Seq { current, child }
        }
        Tree::Par(children) => {
            let one = rng.below(children.len());
            let rest = |(place, child): (usize, &Tree)| {
                let left = place == one || rng.one_in(2);
                left.then(|| any_rest(rng, child, offered))
            };
            Rest::Par(children.iter().enumerate().map(rest).collect())
        }
        Tree::Maintain(_, child) => Rest::Maintain {
            violated: offered && rng.one_in(4),
            child: Box::new(any_rest(rng, child, offered)),
        },
        Tree::Choice(..) if rng.one_in(3) => Rest::Undecided,
        Tree::Choice(_, branches) => {
            let branch = rng.below(2);
            let child = Box::new(any_rest(rng, &branches[branch], offered));
            Rest::Decided { branch, child }
        }
        Tree::Repeat(child) => Rest::Repeat(Box::new(any_rest(rng, child, offered))),
    }
}

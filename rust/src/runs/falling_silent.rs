//! Sensors that fall silent just as a condition would break and as a clock comes due, and come back:
//! random programs that are made for it, and what such sensors say.

use super::findings::awaited;
use super::gaps::variable_of;
use super::{visit_going_on, visit_inside};
use crate::builder::{
    at_least, below, choice, differs, equals, file, goal, maintain, par, repeat, seq, start, wait,
};
use crate::parts::{Condition, Part, Test};
use crate::rng::Rng;
use crate::sizes::UNKNOWN_VALUE;
use crate::unfolding::{Rest, Run, Tree};

/// The file of a random program of two variables that starts two clocks. Then, three parts deep or
/// more, a MAINTAIN over a variable holds while a WAIT inside it waits for a clock.
pub fn silent_program(rng: &mut Rng) -> Vec<u8> {
    let mut part = awaiting(rng);
    for _ in 0..rng.below(3) {
        part = around(rng, part);
    }
    part = maintain(over_variable(rng), part);
    for _ in 0..rng.between(1, 3) {
        part = around(rng, part);
    }
    let root = seq(vec![start(0), start(1), part]);
    file(2, 2, &root)
}

/// A WAIT for a clock, and what goes on beside or after it.
fn awaiting(rng: &mut Rng) -> Part {
    let due = wait(at_least(either(rng), limit(rng)));
    let more = leaf(rng);
    match rng.below(4) {
        0 => par(vec![due, more]),
        1 => seq(vec![due, more, leaf(rng)]),
        _ => seq(vec![due, more]),
    }
}

/// Another part around this one.
fn around(rng: &mut Rng, part: Part) -> Part {
    match rng.below(7) {
        0 | 1 => maintain(over_variable(rng), part),
        2 => maintain(below(either(rng), limit(rng)), part),
        3 => seq(vec![part, leaf(rng)]),
        4 => par(vec![leaf(rng), part]),
        5 => repeat(part),
        _ => choice(over_variable(rng), part, leaf(rng)),
    }
}

fn leaf(rng: &mut Rng) -> Part {
    match rng.below(5) {
        0 => start(either(rng)),
        1 => wait(over_variable(rng)),
        2 => wait(at_least(either(rng), limit(rng))),
        _ => goal(either(rng), rng.pick(&[0, 1, 2])),
    }
}

/// A condition that small values often satisfy.
fn over_variable(rng: &mut Rng) -> Condition {
    let variable = either(rng);
    let unbroken = differs(variable, 2);
    rng.pick(&[unbroken, unbroken, equals(variable, 0)])
}

/// One of the two variables, or of the two clocks.
fn either(rng: &mut Rng) -> u8 {
    rng.below(2) as u8
}

fn limit(rng: &mut Rng) -> u16 {
    rng.pick(&[2, 3, 4, 6])
}

/// A MAINTAIN over a variable that is going on.
struct Watch {
    variable: usize,
    /// A value that satisfies its condition, and one that violates it.
    good: u8,
    bad: u8,
    /// When the WAITs that are going on inside it come due.
    due: Vec<u32>,
}

fn watches(run: &Run) -> Vec<Watch> {
    let mut watches = Vec::new();
    visit_going_on(run, |_, tree, rest| {
        if let (Tree::Maintain(condition, inner), Rest::Maintain { child, .. }) = (tree, rest) {
            let due = times_due(run, inner, child);
            watches.extend(watch(condition, due));
        }
    });
    watches
}

fn watch(condition: &Condition, due: Vec<u32>) -> Option<Watch> {
    let variable = variable_of(condition)?;
    let value = u8::try_from(condition.value).expect("a variable's value is at most 250");
    let other = if value == 0 { 1 } else { value - 1 };
    let (good, bad) = match condition.test {
        Test::Equals => (value, other),
        _ => (other, value),
    };
    Some(Watch {
        variable,
        good,
        bad,
        due,
    })
}

/// When the WAITs that are going on in a part come due, from the last time on.
fn times_due(run: &Run, tree: &Tree, rest: &Rest) -> Vec<u32> {
    let mut times = Vec::new();
    visit_inside(1, tree, rest, &mut |_, part, _| {
        let due = awaited(part).and_then(|(clock, limit)| run.clocks[clock]?.checked_add(limit));
        times.extend(due.filter(|&due| due >= run.time));
    });
    times
}

/// Lets the sensors of MAINTAINs mostly say what they said before, then nothing, and then a good or a
/// bad value.
pub(super) fn let_fall_silent(rng: &mut Rng, run: &Run, estimate: &mut [u8]) {
    for watch in watches(run) {
        let byte = &mut estimate[watch.variable];
        *byte = match (run.value(watch.variable), rng.below(6)) {
            (_, 0) => *byte,
            (_, 1 | 2) => UNKNOWN_VALUE,
            (Some(value), _) => value,
            (None, 3) => watch.good,
            (None, _) => watch.bad,
        };
    }
}

/// A time at which a clock comes due inside a MAINTAIN whose sensor is silent, if there is one.
pub(super) fn due_in_silence(rng: &mut Rng, run: &Run) -> Option<u32> {
    let mut times = Vec::new();
    for watch in watches(run) {
        if run.value(watch.variable).is_none() {
            times.extend(watch.due);
        }
    }
    (!times.is_empty()).then(|| rng.pick(&times))
}

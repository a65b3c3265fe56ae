//! Random programs to run, random lists of calls, and random states of a run.
//!
//! The calls follow the run that they are for, so that most of them are accepted.

mod any_state;
mod falling_silent;
mod findings;
mod gaps;
mod programs;
mod silences;
mod starts;

use crate::answers::NO_GOAL;
use crate::parts::{Condition, Test};
use crate::record::Phase;
use crate::rng::Rng;
use crate::sizes::{MAX_VALUE, UNKNOWN_VALUE};
use crate::unfolding::{Program, Rest, Run, Tree};
use falling_silent::{due_in_silence, let_fall_silent};

pub use any_state::any_state;
pub use falling_silent::silent_program;
pub use findings::{findings, Findings, DEEP};
pub use gaps::{GapCounts, Gaps};
pub use programs::{contending_program, doubtful_program, program, program_of, restarting_program};
pub use silences::{SilenceCounts, Silences};
pub use starts::{StartCounts, Starts};

/// A call of a run.
#[derive(Clone, Debug, PartialEq, Eq)]
pub enum Call {
    Offer { time: u32, room: usize },
    Settle { estimate: Vec<u8> },
}

/// Makes up the calls of one run, one after the other.
pub struct Caller {
    /// The clocks and readings that the program's conditions compare.
    limits: Vec<(usize, u32)>,
    /// How many times in ten a goal that was offered is reached, of a variable that is known.
    zeal: usize,
    /// Of one variable in so many an estimate says nothing.
    silence: usize,
    /// Whether sensors mostly fall silent just as a clock comes due.
    falls_silent: bool,
    /// One call in so many is made to be refused.
    care: usize,
    /// The goals that were offered last.
    goals: Vec<u8>,
}

impl Caller {
    pub fn new(rng: &mut Rng, program: &Program) -> Caller {
        let mut limits = Vec::new();
        push_limits(&program.root, &mut limits);
        Caller {
            limits,
            zeal: rng.between(1, 9),
            silence: rng.pick(&[2, 5, 20]),
            falls_silent: false,
            care: rng.pick(&[3, 8, 30]),
            goals: vec![NO_GOAL; program.sizes.variables],
        }
    }

    /// A caller whose sensors mostly fall silent just as a clock comes due, and come back.
    pub fn falling_silent(rng: &mut Rng, program: &Program) -> Caller {
        Caller {
            falls_silent: true,
            ..Caller::new(rng, program)
        }
    }

    /// Tells the caller what was offered.
    pub fn note_goals(&mut self, goals: &[u8]) {
        self.goals.copy_from_slice(goals);
    }

    /// The next call: mostly the one whose turn it is.
    pub fn next_call(&self, rng: &mut Rng, run: &Run) -> Call {
        let astray = rng.one_in(self.care);
        let offer = match run.phase {
            Phase::Waiting => !(astray && rng.one_in(2)),
            Phase::Offered => astray && rng.one_in(2),
            Phase::Finished => rng.one_in(2),
        };
        match (offer, astray) {
            (true, false) => Call::Offer {
                time: self.time(rng, run),
                room: enough_room(rng, run),
            },
            (true, true) => Call::Offer {
                time: self.any_time(rng, run),
                room: rng.below(run.program.sizes.variables + 1),
            },
            (false, false) => Call::Settle {
                estimate: self.estimate(rng, run),
            },
            (false, true) => {
                let estimate = self.estimate(rng, run);
                let estimate = spoil(rng, estimate);
                Call::Settle { estimate }
            }
        }
    }

    /// A time that is not before the last one: standing still, a step or two on, about a clock's
    /// limit, or far on.
    fn time(&self, rng: &mut Rng, run: &Run) -> u32 {
        let last = run.time;
        if self.falls_silent && !rng.one_in(4) {
            if let Some(due) = due_in_silence(rng, run) {
                return due;
            }
        }
        match rng.below(32) {
            0..=5 => last,
            6..=13 => last.saturating_add(1),
            14..=17 => last.saturating_add(2),
            18..=28 => self.about_a_limit(rng, run),
            29 => last.saturating_add(rng.between(0, 70_000) as u32),
            30 => last.max(u32::MAX - rng.between(0, 12) as u32),
            _ => last.saturating_add(rng.between(3, 12) as u32),
        }
    }

    /// A time at which a started clock reads just what a condition compares it with, or one more or
    /// less.
    fn about_a_limit(&self, rng: &mut Rng, run: &Run) -> u32 {
        let step = rng.between(0, 1) as u32;
        if self.limits.is_empty() {
            return run.time.saturating_add(step);
        }
        let (clock, limit) = rng.pick(&self.limits);
        match run.clocks[clock] {
            Some(start) => {
                let about = start.saturating_add(limit);
                let near = [
                    about.saturating_sub(1),
                    about,
                    about,
                    about.saturating_add(1),
                ];
                run.time.max(rng.pick(&near))
            }
            None => run.time.saturating_add(step),
        }
    }

    /// A time that may be before the last one, by little or by much.
    fn any_time(&self, rng: &mut Rng, run: &Run) -> u32 {
        let earlier = rng.below(run.time as usize + 1) as u32;
        let right = self.time(rng, run);
        rng.pick(&[0, run.time.saturating_sub(1), earlier, right])
    }

    /// An estimate that is allowed: unknown variables, goals reached, things as they were, small
    /// values, any values.
    fn estimate(&self, rng: &mut Rng, run: &Run) -> Vec<u8> {
        let old = run.estimate.iter();
        let mut estimate: Vec<u8> = old
            .zip(&self.goals)
            .map(|(&old, &goal)| {
                let small = rng.between(0, 2) as u8;
                let any = rng.between(0, usize::from(MAX_VALUE)) as u8;
                match rng.below(10) {
                    _ if rng.one_in(self.silence) => UNKNOWN_VALUE,
                    lot if lot < self.zeal => reached(goal, small),
                    _ => rng.pick(&[old, old, small, small, MAX_VALUE as u8, any]),
                }
            })
            .collect();
        if self.falls_silent {
            let_fall_silent(rng, run, &mut estimate);
        }
        estimate
    }
}

/// A variable's value after its goal was offered, if there was a goal to reach.
fn reached(goal: u8, otherwise: u8) -> u8 {
    if u16::from(goal) <= MAX_VALUE {
        goal
    } else {
        otherwise
    }
}

fn push_limits(tree: &Tree, limits: &mut Vec<(usize, u32)>) {
    match tree {
        Tree::Wait(condition) | Tree::Maintain(condition, _) | Tree::Choice(condition, _) => {
            if let Some(limit) = clock_limit(condition) {
                limits.push(limit);
            }
        }
        _ => {}
    }
    for child in tree.children() {
        push_limits(child, limits);
    }
}

fn clock_limit(condition: &Condition) -> Option<(usize, u32)> {
    let over_clock = matches!(condition.test, Test::AtLeast | Test::Below);
    let subject = usize::from(condition.subject);
    over_clock.then_some((subject, u32::from(condition.value)))
}

/// Calls `visit` with each part that is going on: its depth, the part, and what remains of it.
fn visit_going_on<'a>(run: &Run<'a>, mut visit: impl FnMut(usize, &'a Tree, &Rest)) {
    if let Some(rest) = &run.rest {
        visit_inside(1, &run.program.root, rest, &mut visit);
    }
}

fn visit_inside<'a>(
    depth: usize,
    tree: &'a Tree,
    rest: &Rest,
    visit: &mut impl FnMut(usize, &'a Tree, &Rest),
) {
    visit(depth, tree, rest);
    for (place, child) in tree.children().iter().enumerate() {
        if let Some(rest) = rest.of_child(place) {
            visit_inside(depth + 1, child, rest, visit);
        }
    }
}

/// Room for the goals: just enough, or more.
fn enough_room(rng: &mut Rng, run: &Run) -> usize {
    let exact = run.program.sizes.variables;
    let longer = exact + rng.between(1, 40);
    rng.pick(&[exact, exact, longer])
}

/// An estimate that is not allowed, too long, too short or with a value too high, or one that is.
pub fn spoil(rng: &mut Rng, mut estimate: Vec<u8>) -> Vec<u8> {
    let len = estimate.len();
    let place = rng.below(len);
    match rng.below(6) {
        0 => estimate.extend(vec![0; rng.between(1, 3)]),
        1 => estimate.truncate(len - 1),
        2 => estimate.truncate(place),
        3 => estimate[place] = MAX_VALUE as u8 + 1,
        4 => estimate[place] = no_value(rng),
        _ => {}
    }
    estimate
}

/// A byte that is no value, and does not say that the variable is unknown.
fn no_value(rng: &mut Rng) -> u8 {
    let least = usize::from(MAX_VALUE) + 1;
    let most = usize::from(UNKNOWN_VALUE) - 1;
    rng.between(least, most) as u8
}

/// A first estimate that is allowed.
pub fn first_estimate(rng: &mut Rng, program: &Program) -> Vec<u8> {
    (0..program.sizes.variables)
        .map(|_| rng.pick(&[0, 0, 1, 2, MAX_VALUE as u8, UNKNOWN_VALUE]))
        .collect()
}

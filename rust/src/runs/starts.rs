//! What settlings do to clocks: how often a run starts them, starts them again, and judges a
//! condition over a clock that it starts in the same cycle.

use super::clock_limit;
use crate::counts::{self, Counts};
use crate::parts::{Condition, Test};
use crate::unfolding::{Rest, Run, Tree};

/// What a settling does to clocks.
#[derive(Clone, Copy, Debug, Default, PartialEq, Eq)]
pub struct Starts {
    /// It starts a clock.
    any: bool,
    /// It starts a clock that is started.
    again: bool,
    /// It starts a clock that is started, and at another time than that.
    later: bool,
    /// Two STARTs start the same clock.
    twice: bool,
    /// A START stands inside a MAINTAIN that is violated, and starts nothing.
    dropped: bool,
    /// It judges a WAIT or a CHOICE over a clock that it starts.
    judged: bool,
    /// The clock as it is then would judge such a condition otherwise.
    told_apart: bool,
}

/// How the list of counts names the fields of `Starts`, in their order.
const NAMES: [&str; 7] = [
    "settlings that start a clock",
    "settlings that start a started clock",
    "settlings that start a started clock later",
    "settlings in which two STARTs start one clock",
    "settlings in which a START stands inside a violated MAINTAIN",
    "settlings that judge a WAIT or CHOICE beside a START of its clock",
    "settlings that the new start would judge otherwise",
];

/// What is at work in what remains of a program.
#[derive(Default)]
struct AtWork<'a> {
    /// The clocks of the STARTs.
    clocks: Vec<usize>,
    /// The conditions of the WAITs and of the CHOICEs that are not decided.
    conditions: Vec<&'a Condition>,
    /// A START would be at work, were not a MAINTAIN around it violated.
    dropped: bool,
}

impl Starts {
    /// What a settling that is accepted does in this state, which an offer has left.
    pub fn of_settling(run: &Run) -> Starts {
        let mut at_work = AtWork::default();
        if let Some(rest) = &run.rest {
            at_work.collect(&run.program.root, rest);
        }
        let mut starts = Starts {
            dropped: at_work.dropped,
            ..Starts::default()
        };
        for (place, clock) in at_work.clocks.iter().enumerate() {
            let start = run.clocks[*clock];
            starts.any = true;
            starts.again |= start.is_some();
            starts.later |= start.is_some_and(|start| start != run.time);
            starts.twice |= at_work.clocks[..place].contains(clock);
        }
        for condition in at_work.conditions {
            let limit = clock_limit(condition);
            if let Some((clock, _)) = limit.filter(|(clock, _)| at_work.clocks.contains(clock)) {
                let by_old = satisfied(condition, run.reading(clock));
                let by_new = satisfied(condition, Some(0));
                starts.judged = true;
                starts.told_apart |= by_old != by_new;
            }
        }
        starts
    }

    /// The fields, in the order of `NAMES`.
    fn fields(&self) -> [bool; NAMES.len()] {
        [
            self.any,
            self.again,
            self.later,
            self.twice,
            self.dropped,
            self.judged,
            self.told_apart,
        ]
    }
}

impl<'a> AtWork<'a> {
    fn collect(&mut self, tree: &'a Tree, rest: &Rest) {
        match (tree, rest) {
            (Tree::Start { clock }, _) => self.clocks.push(*clock),
            (Tree::Wait(condition), _) => self.conditions.push(condition),
            (Tree::Choice(condition, _), Rest::Undecided) => self.conditions.push(condition),
            (
                Tree::Maintain(_, inner),
                Rest::Maintain {
                    violated: true,
                    child,
                },
            ) => {
                let mut inside = AtWork::default();
                inside.collect(inner, child);
                self.dropped |= inside.dropped || !inside.clocks.is_empty();
            }
            _ => {}
        }
        for (place, child) in tree.children().iter().enumerate() {
            if let Some(rest) = rest.of_child(place) {
                self.collect(child, rest);
            }
        }
    }
}

/// Whether a condition over a clock holds by this reading, if the clock is started.
fn satisfied(condition: &Condition, reading: Option<u32>) -> bool {
    let value = u32::from(condition.value);
    reading.is_some_and(|reading| match condition.test {
        Test::AtLeast => reading >= value,
        _ => reading < value,
    })
}

/// How many settlings did what to clocks, in the order of `NAMES`.
#[derive(Clone, Debug, Default)]
pub struct StartCounts([u64; NAMES.len()]);

impl StartCounts {
    /// Counts a settling that was accepted.
    pub fn note(&mut self, starts: &Starts) {
        counts::note(&mut self.0, starts.fields());
    }

    /// What was counted, as the list of counts names it.
    pub fn counts(&self) -> Counts {
        counts::by_name(NAMES, self.0)
    }
}

#[cfg(test)]
mod tests {
    use super::*;
    use crate::builder::{
        at_least, choice, differs, equals, file, goal, maintain, par, repeat, seq, start, wait,
    };
    use crate::parts::Part;
    use crate::unfolding::Program;

    /// A settling that does nothing to clocks, and one that starts a clock again, at a later time.
    const NONE: Starts = Starts {
        any: false,
        again: false,
        later: false,
        twice: false,
        dropped: false,
        judged: false,
        told_apart: false,
    };
    const RESTART: Starts = Starts {
        any: true,
        again: true,
        later: true,
        ..NONE
    };

    /// What the settling of the last of these cycles does.
    fn of_last_cycle(root: &Part, times: &[u32]) -> Starts {
        let program = Program::read(&file(1, 1, root)).expect("a valid program");
        let mut run = Run::begin(&program, &[0]).expect("an allowed estimate");
        let mut starts = Starts::default();
        for &time in times {
            run.offer(time, 1).expect("an offer");
            starts = Starts::of_settling(&run);
            run.settle(&[0]).expect("a settling");
        }
        starts
    }

    #[test]
    fn starts_of_settlings() {
        let rounds = repeat(start(0));
        assert_eq!(of_last_cycle(&goal(0, 1), &[5]), NONE);
        let first = Starts { any: true, ..NONE };
        assert_eq!(of_last_cycle(&rounds, &[5]), first);
        let at_one_time = Starts {
            later: false,
            ..RESTART
        };
        assert_eq!(of_last_cycle(&rounds, &[5, 5]), at_one_time);
        assert_eq!(of_last_cycle(&rounds, &[5, 6]), RESTART);
        let together = par(vec![start(0), start(0)]);
        let twice = Starts {
            twice: true,
            ..first
        };
        assert_eq!(of_last_cycle(&together, &[5]), twice);
    }

    /// The variable has the value 0, so that "differs from 0" is violated. Nothing is dropped where no
    /// START is marked inside.
    #[test]
    fn starts_inside_maintains() {
        let dropped = Starts {
            dropped: true,
            ..NONE
        };
        let deep = maintain(equals(0, 0), maintain(differs(0, 0), repeat(start(0))));
        assert_eq!(of_last_cycle(&deep, &[5]), dropped);
        let nested = maintain(differs(0, 0), maintain(differs(0, 0), start(0)));
        assert_eq!(of_last_cycle(&nested, &[5]), dropped);
        let unmarked = maintain(differs(0, 0), seq(vec![goal(0, 1), start(0)]));
        assert_eq!(of_last_cycle(&unmarked, &[5]), NONE);
    }

    #[test]
    fn conditions_beside_starts() {
        let beside = par(vec![repeat(start(0)), wait(at_least(0, 5))]);
        let judged = Starts {
            judged: true,
            ..RESTART
        };
        assert_eq!(of_last_cycle(&beside, &[5, 9]), judged);
        let due = Starts {
            told_apart: true,
            ..judged
        };
        assert_eq!(of_last_cycle(&beside, &[5, 10]), due);
        // By no start "at least 0" is not satisfied, and by the new one it is.
        let undecided = choice(at_least(0, 0), goal(0, 1), goal(0, 1));
        let decided = par(vec![repeat(start(0)), undecided]);
        let first = Starts {
            any: true,
            judged: true,
            told_apart: true,
            ..NONE
        };
        assert_eq!(of_last_cycle(&decided, &[5]), first);
        assert_eq!(of_last_cycle(&decided, &[5, 6]), RESTART);
        let apart = seq(vec![start(0), wait(at_least(0, 5))]);
        assert_eq!(of_last_cycle(&apart, &[5, 10]), NONE);
    }
}

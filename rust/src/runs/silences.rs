//! Sensors that fall silent just as a clock comes due, and come back.

use super::findings::{comes_due, DEEP};
use super::gaps::variable_of;
use super::visit_going_on;
use crate::counts::{named, Counts};
use crate::unfolding::{Rest, Run, Tree};

/// How many MAINTAINs came to what.
#[derive(Clone, Debug, Default, PartialEq, Eq)]
pub struct SilenceCounts {
    /// The variable became unknown with an offer at which a clock came due inside.
    silent: u64,
    /// Those of them that are deep.
    deep: u64,
    /// The deep ones that were still going on when the variable was known again: violated then, and
    /// satisfied.
    violated: u64,
    satisfied: u64,
}

impl SilenceCounts {
    /// What was counted, as the list of counts names it.
    pub fn counts(&self) -> Counts {
        named([
            (
                "MAINTAINs whose variable becomes unknown just as a clock comes due",
                self.silent,
            ),
            ("such MAINTAINs three parts deep or more", self.deep),
            (
                "such MAINTAINs so deep that are violated when it is known again",
                self.violated,
            ),
            (
                "such MAINTAINs so deep that are satisfied when it is known again",
                self.satisfied,
            ),
        ])
    }
}

/// The sensors of one run, from offer to offer.
#[derive(Default)]
pub struct Silences<'a> {
    /// Which variables were known at the offer before.
    known: Vec<bool>,
    /// The deep MAINTAINs that are going on, whose variable became unknown as a clock came due inside
    /// them, and still is.
    silent: Vec<&'a Tree>,
}

impl<'a> Silences<'a> {
    /// Counts what the offer that has just been made found.
    pub fn note_offer(&mut self, run: &Run<'a>, counts: &mut SilenceCounts) {
        let mut silent = Vec::new();
        visit_going_on(run, |depth, tree, rest| {
            let (Tree::Maintain(condition, inner), Rest::Maintain { violated, child }) =
                (tree, rest)
            else {
                return;
            };
            let Some(variable) = variable_of(condition) else {
                return;
            };
            let was_silent = self.silent.iter().any(|&one| std::ptr::eq(one, tree));
            if run.value(variable).is_some() {
                counts.violated += u64::from(was_silent && *violated);
                counts.satisfied += u64::from(was_silent && !*violated);
                return;
            }
            let was_known = self.known.get(variable) == Some(&true);
            let now_silent = was_known && comes_due(inner, child, run);
            let now_silent_deep = now_silent && depth >= DEEP;
            counts.silent += u64::from(now_silent);
            counts.deep += u64::from(now_silent_deep);
            if was_silent || now_silent_deep {
                silent.push(tree);
            }
        });
        self.silent = silent;
        let variables = 0..run.program.sizes.variables;
        self.known = variables.map(|one| run.value(one).is_some()).collect();
    }
}

#[cfg(test)]
mod tests {
    use super::*;
    use crate::builder::{at_least, differs, file, goal, maintain, seq, start, wait};
    use crate::parts::Part;
    use crate::sizes::UNKNOWN_VALUE;
    use crate::unfolding::Program;

    const UN: u8 = UNKNOWN_VALUE;

    const NONE: SilenceCounts = SilenceCounts {
        silent: 0,
        deep: 0,
        violated: 0,
        satisfied: 0,
    };
    const SILENT: SilenceCounts = SilenceCounts {
        silent: 1,
        deep: 1,
        ..NONE
    };

    /// START 0, and then, three parts deep, a MAINTAIN over variable 0 around a WAIT until clock 0
    /// reads 5 and a GOAL of variable 1.
    fn deep() -> Part {
        seq(vec![start(0), seq(vec![held()])])
    }

    fn held() -> Part {
        let inner = seq(vec![wait(at_least(0, 5)), goal(1, 1)]);
        maintain(differs(0, 2), inner)
    }

    /// What the offers of these cycles come to: their times, and the values of variable 0 with which
    /// they are settled. It begins with 0.
    fn counted(root: &Part, cycles: &[(u32, u8)]) -> SilenceCounts {
        let program = Program::read(&file(2, 1, root)).expect("a valid program");
        let mut run = Run::begin(&program, &[0, 0]).expect("an allowed estimate");
        let mut silences = Silences::default();
        let mut counts = SilenceCounts::default();
        for &(time, value) in cycles {
            run.offer(time, 2).expect("an offer");
            silences.note_offer(&run, &mut counts);
            run.settle(&[value, 0]).expect("a settling");
        }
        counts
    }

    #[test]
    fn silent_as_the_clock_comes_due() {
        let cycles = [(0, 0), (4, UN), (5, UN), (6, UN)];
        assert_eq!(counted(&deep(), &cycles), SILENT);
        let at_depth_2 = seq(vec![start(0), held()]);
        let silent = SilenceCounts { silent: 1, ..NONE };
        assert_eq!(counted(&at_depth_2, &cycles), silent);
    }

    #[test]
    fn the_variable_is_known_again() {
        let violated = SilenceCounts {
            violated: 1,
            ..SILENT
        };
        let satisfied = SilenceCounts {
            satisfied: 1,
            ..SILENT
        };
        for (value, back) in [(2, violated), (0, satisfied.clone())] {
            let at_once = [(0, 0), (4, UN), (5, value), (6, 0)];
            assert_eq!(counted(&deep(), &at_once), back);
            let later = [(0, 0), (4, UN), (5, UN), (6, value), (6, 0)];
            assert_eq!(counted(&deep(), &later), back);
        }
        // It is counted once.
        let after = [(0, 0), (4, UN), (5, 0), (6, 0), (6, 2), (6, 0)];
        assert_eq!(counted(&deep(), &after), satisfied);
    }

    /// Silent one cycle too early, and one too late.
    #[test]
    fn silent_at_another_time() {
        let early = [(0, 0), (3, UN), (4, UN), (5, 0), (6, 0)];
        assert_eq!(counted(&deep(), &early), NONE);
        let late = [(0, 0), (4, 0), (5, UN), (6, 2), (6, 0)];
        assert_eq!(counted(&deep(), &late), NONE);
    }
}

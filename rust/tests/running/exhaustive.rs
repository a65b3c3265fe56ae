//! All runs of all programs of some small sets.

use gurvoke::builder::{
    at_least, below, choice, differs, equals, file, goal, maintain, par, repeat, seq, start, wait,
};
use gurvoke::counts::assert_counts;
use gurvoke::executive::{Executive, ALL};
use gurvoke::parts::{Condition, Label, Part};
use gurvoke::record::{Phase, RECORD_LEN};
use gurvoke::rng::Rng;
use gurvoke::runs::Call;
use gurvoke::sizes::UNKNOWN_VALUE;
use gurvoke::unfolding::{Program, Run};

use crate::harness::{Board, NO_VALUES};
use crate::tally::{of_all_executives, Tally};

/// The first executive gets every program, each other one in so many. The number has no factor in
/// common with those of leaves, conditions and contenders, so that a share meets all of them.
const SHARE: usize = 11;

/// What programs are made of.
struct Alphabet {
    leaves: Vec<Part>,
    /// Of MAINTAINs and CHOICEs.
    conditions: [Condition; 4],
}

/// Two variables with values 0 and 1, the first of which can be unknown; one clock with the limit 1.
fn alphabet() -> Alphabet {
    let conditions = [equals(0, 1), differs(0, 1), at_least(0, 1), below(0, 1)];
    let mut leaves = vec![goal(0, 0), goal(0, 1), goal(1, 0), goal(1, 1), start(0)];
    leaves.extend(conditions.map(wait));
    Alphabet { leaves, conditions }
}

/// One clock with the limits 1 and 2, and nothing else.
fn alphabet_of_a_clock() -> Alphabet {
    let conditions = [at_least(0, 1), at_least(0, 2), below(0, 1), below(0, 2)];
    let mut leaves = vec![start(0)];
    leaves.extend(conditions.map(wait));
    Alphabet { leaves, conditions }
}

impl Alphabet {
    /// Every part above this one child.
    fn above_one(&self, child: &Part) -> Vec<Part> {
        let child = || child.clone();
        let mut parts = vec![seq(vec![child()]), par(vec![child()]), repeat(child())];
        let of_condition = |condition| maintain(condition, child());
        parts.extend(self.conditions.map(of_condition));
        parts
    }

    /// Every part above these two children.
    fn above_two(&self, first: &Part, second: &Part) -> Vec<Part> {
        let pair = || vec![first.clone(), second.clone()];
        let mut parts = vec![seq(pair()), par(pair())];
        let of_condition = |condition| choice(condition, first.clone(), second.clone());
        parts.extend(self.conditions.map(of_condition));
        parts
    }

    /// Every program of one part, of two, of three and of four.
    fn programs(&self) -> [Vec<Part>; 4] {
        let ones = self.leaves.clone();
        let twos = self.above_each(&ones);
        let mut threes = self.above_each(&twos);
        let mut fours = Vec::new();
        for first in &ones {
            for second in &ones {
                threes.extend(self.above_two(first, second));
                for third in &ones {
                    fours.extend(above_three([first, second, third]));
                }
            }
            for second in &twos {
                fours.extend(self.above_two(first, second));
                fours.extend(self.above_two(second, first));
            }
        }
        fours.extend(self.above_each(&threes));
        [ones, twos, threes, fours]
    }

    /// Every part above one of these.
    fn above_each(&self, children: &[Part]) -> Vec<Part> {
        let above = |child| self.above_one(child);
        children.iter().flat_map(above).collect()
    }
}

/// Every part above these three children.
fn above_three(children: [&Part; 3]) -> Vec<Part> {
    let children: Vec<Part> = children.into_iter().cloned().collect();
    vec![seq(children.clone()), par(children)]
}

fn offer(time: u32) -> Call {
    Call::Offer { time, room: 2 }
}

/// What an estimate of the alphabet says of the first variable.
const FIRST_BYTES: [u8; 3] = [0, 1, UNKNOWN_VALUE];

/// The estimate that says this of the first variable. The second has another value than the first.
fn estimate(first: u8) -> [u8; 2] {
    [first, u8::from(first == 0)]
}

fn settle(estimate: &[u8]) -> Call {
    let estimate = estimate.to_vec();
    Call::Settle { estimate }
}

/// The programs that each executive gets.
fn shares(programs: &[Part]) -> Vec<(&'static Executive, Vec<Part>)> {
    let share = |(place, &executive): (usize, &&'static Executive)| {
        let step = if place == 0 { 1 } else { SHARE };
        (executive, programs.iter().step_by(step).cloned().collect())
    };
    ALL.iter().enumerate().map(share).collect()
}

/// Begins each program, of one clock, with each of these estimates, and hands board and run over.
fn begin_all<const VARIABLES: usize>(
    executive: &'static Executive,
    programs: &[Part],
    firsts: &[[u8; VARIABLES]],
    mut explore: impl FnMut(&mut Rng, Board, Run),
) {
    let mut rng = Rng::new(400);
    for root in programs {
        let file = file(VARIABLES, 1, root);
        let program = Program::read(&file).expect("a valid program");
        for first in firsts {
            let mut board = Board::new(&mut rng, executive, &file, RECORD_LEN);
            let begun = board.begin(&mut rng, &program, first);
            explore(&mut rng, board, begun.expect("an allowed estimate"));
        }
    }
}

/// Makes every list of up to `left` calls. Lists with the same front share its calls.
fn every_list(
    rng: &mut Rng,
    tally: &mut Tally,
    (board, run): (&Board, &Run),
    calls: &[Call],
    left: usize,
) {
    if left == 0 {
        return;
    }
    for call in calls {
        let mut board = board.clone();
        let mut run = run.clone();
        tally.call(rng, (&mut board, &mut run), call);
        every_list(rng, tally, (&board, &run), calls, left - 1);
    }
}

/// Every list of up to four calls, refused ones among them, for every program of up to three parts.
#[test]
fn every_list_of_four_calls() {
    let calls = [
        offer(0),
        offer(1),
        offer(2),
        settle(&estimate(0)),
        settle(&estimate(1)),
        settle(&estimate(UNKNOWN_VALUE)),
        settle(&estimate(NO_VALUES.end - 1)),
    ];
    let [ones, twos, threes, _] = alphabet().programs();
    let programs = [ones, twos, threes].concat();
    assert_eq!(programs.len(), 9 + 7 * 9 + 7 * 7 * 9 + 6 * 9 * 9);
    let mut counts = Vec::new();
    for (executive, programs) in shares(&programs) {
        let mut tally = Tally::default();
        begin_all(
            executive,
            &programs,
            &FIRST_BYTES.map(estimate),
            |rng, board, run| every_list(rng, &mut tally, (&board, &run), &calls, 4),
        );
        // Each list that is not empty ends with a call of its own.
        let lists = 7 + 7 * 7 + 7 * 7 * 7 + 7 * 7 * 7 * 7;
        assert_eq!(tally.calls(), 3 * lists * programs.len() as u64);
        counts.push(tally.counts());
    }
    assert_counts(
        file!(),
        "every_list_of_four_calls",
        &of_all_executives(&counts),
    );
}

/// Makes every list of up to `cycles` cycles with no refused call.
fn every_cycle(rng: &mut Rng, tally: &mut Tally, (board, run): (&Board, &Run), cycles: usize) {
    if cycles == 0 || run.phase == Phase::Finished {
        return;
    }
    for time in run.time..=2 {
        let mut board = board.clone();
        let mut run = run.clone();
        tally.call(rng, (&mut board, &mut run), &offer(time));
        for first in FIRST_BYTES {
            let mut board = board.clone();
            let mut run = run.clone();
            tally.call(rng, (&mut board, &mut run), &settle(&estimate(first)));
            every_cycle(rng, tally, (&board, &run), cycles - 1);
        }
    }
}

/// Every list of up to five cycles for every program of up to three parts.
#[test]
fn every_list_of_five_cycles() {
    let [ones, twos, threes, _] = alphabet().programs();
    check_cycles(
        "every_list_of_five_cycles",
        &[ones, twos, threes].concat(),
        5,
    );
}

/// Every list of up to three cycles for every program of four parts.
#[test]
fn every_list_of_three_cycles() {
    let [_, _, threes, fours] = alphabet().programs();
    let pairs = 9 * 7 * 9;
    assert_eq!(
        fours.len(),
        7 * threes.len() + 6 * 2 * pairs + 2 * 9 * 9 * 9
    );
    check_cycles("every_list_of_three_cycles", &fours, 3);
}

fn check_cycles(test: &str, programs: &[Part], cycles: usize) {
    check_accepted(
        test,
        programs,
        &FIRST_BYTES.map(estimate),
        |rng, tally, (board, run)| every_cycle(rng, tally, (&board, &run), cycles),
    );
}

/// Begins each program and explores its runs by calls of which none is refused.
fn check_accepted<const VARIABLES: usize>(
    test: &str,
    programs: &[Part],
    firsts: &[[u8; VARIABLES]],
    explore: impl Fn(&mut Rng, &mut Tally, (Board, Run)),
) {
    let mut counts = Vec::new();
    for (executive, share) in shares(programs) {
        let mut tally = Tally::default();
        begin_all(executive, &share, firsts, |rng, board, run| {
            explore(rng, &mut tally, (board, run))
        });
        assert_eq!(tally.calls(), tally.offers + tally.running + tally.finished);
        counts.push(tally.counts());
    }
    assert_counts(file!(), test, &of_all_executives(&counts));
}

/// Whether a part is a START or has one inside.
fn has_start(part: &Part) -> bool {
    matches!(part.label, Label::Start { .. }) || part.children.iter().any(has_start)
}

/// Makes every list of up to `cycles` cycles in which the time stands still or goes on by one or two
/// seconds.
fn every_pace(rng: &mut Rng, tally: &mut Tally, (board, run): (&Board, &Run), cycles: usize) {
    if cycles == 0 || run.phase == Phase::Finished {
        return;
    }
    for seconds in 0..=2 {
        let mut board = board.clone();
        let mut run = run.clone();
        let time = run.time + seconds;
        tally.call(rng, (&mut board, &mut run), &offer(time));
        tally.call(rng, (&mut board, &mut run), &settle(&estimate(0)));
        every_pace(rng, tally, (&board, &run), cycles - 1);
    }
}

/// Every program of up to four parts that are STARTs of one clock and conditions over it, and those of
/// four under a REPEAT: a started clock is started again, at the same time and later, and conditions
/// with limits on both sides of what it reads by either start are judged in that cycle and after it.
#[test]
fn every_restart() {
    let [ones, twos, threes, fours] = alphabet_of_a_clock().programs();
    let repeated: Vec<Part> = fours.iter().cloned().map(repeat).collect();
    let mut programs = [ones, twos, threes, fours, repeated].concat();
    programs.retain(has_start);
    assert_eq!(programs.len(), 1 + 7 + 103 + 1599 + 1599);
    check_accepted(
        "every_restart",
        &programs,
        &[estimate(0)],
        |rng, tally, (board, run)| every_pace(rng, tally, (&board, &run), 5),
    );
}

/// What contends in a PAR: GOALs over three variables with values 0 and 1, and those over the first
/// two inside a MAINTAIN that the third breaks.
fn contenders() -> Vec<Part> {
    let goals = |variables: std::ops::Range<u8>| {
        variables.flat_map(|variable| [goal(variable, 0), goal(variable, 1)])
    };
    let held = goals(0..2).map(|goal| maintain(equals(2, 0), goal));
    goals(0..3).chain(held).collect()
}

/// Every PAR of up to so many contenders.
fn contests(most: usize) -> Vec<Part> {
    let mut lists: Vec<Vec<Part>> = vec![Vec::new()];
    let mut parts = Vec::new();
    for _ in 0..most {
        lists = lists
            .iter()
            .flat_map(|list| contenders().into_iter().map(|one| with(list, one)))
            .collect();
        parts.extend(lists.iter().cloned().map(par));
    }
    parts
}

fn with(list: &[Part], one: Part) -> Vec<Part> {
    let mut longer = list.to_vec();
    longer.push(one);
    longer
}

/// Every estimate in which each of three variables has a value that some GOALs want, has one that none
/// wants, or is unknown: so each contest ends or goes on.
fn estimates() -> impl Iterator<Item = [u8; 3]> {
    let lots = |number: usize| [number / 9, number / 3 % 3, number % 3];
    (0..27).map(move |number| lots(number).map(|lot| [0, 2, UNKNOWN_VALUE][lot]))
}

/// An offer, every settling, and the offer after it.
fn settle_contest(rng: &mut Rng, tally: &mut Tally, (mut board, mut run): (Board, Run)) {
    let offer = Call::Offer { time: 0, room: 3 };
    tally.call(rng, (&mut board, &mut run), &offer);
    for estimate in estimates() {
        let mut board = board.clone();
        let mut run = run.clone();
        tally.call(rng, (&mut board, &mut run), &settle(&estimate));
        if run.phase != Phase::Finished {
            tally.call(rng, (&mut board, &mut run), &offer);
        }
    }
}

/// Every PAR of up to four contenders, so that up to two variables are contested, before and after
/// every settling, with the MAINTAINs violated, satisfied and open.
#[test]
fn every_contest() {
    let programs = contests(4);
    assert_eq!(
        programs.len(),
        10 + 10 * 10 + 10 * 10 * 10 + 10_usize.pow(4)
    );
    check_accepted(
        "every_contest",
        &programs,
        &[[0, 0, 0], [0, 0, 1], [0, 0, UNKNOWN_VALUE]],
        settle_contest,
    );
}

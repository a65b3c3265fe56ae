//! Which contested variable an offer names: the lowest-numbered. Every goal byte and every name here
//! is that of the papers' words.

use gurvoke::answers::{ANSWERED, CONTESTED, DONE, NO_GOAL, NO_VARIABLE};
use gurvoke::builder::{choice, differs, equals, file, goal, maintain, par, repeat, seq};
use gurvoke::executive::ALL;
use gurvoke::parts::Part;
use gurvoke::record::RECORD_LEN;
use gurvoke::sizes::MAX_VARIABLES;

use crate::harness::{step_through, table_of, LAST_VARIABLE};

/// No goal, and contested, as goal bytes.
const NO: u8 = NO_GOAL;
const CO: u8 = CONTESTED;

const ALL_ZERO: [u8; MAX_VARIABLES] = [0; MAX_VARIABLES];

/// A PAR of GOALs: variables and values.
fn goals(wanted: &[(u8, u16)]) -> Part {
    let goals = wanted
        .iter()
        .map(|&(variable, value)| goal(variable, value));
    par(goals.collect())
}

/// As many goal bytes or values as variables are allowed: those of the first and of the last, and
/// the same for all between.
fn from_first_to_last(first: u8, between: u8, last: u8) -> [u8; MAX_VARIABLES] {
    let mut bytes = [between; MAX_VARIABLES];
    bytes[0] = first;
    bytes[MAX_VARIABLES - 1] = last;
    bytes
}

/// 1 and 3 are contested: 1 is the lower one, though 3 stands first.
#[test]
fn two_are_contested() {
    let root = goals(&[(3, 1), (3, 2), (1, 1), (1, 2)]);
    step_through(&file(4, 0, &root), &[0; 4], |run| {
        run.offer_naming(1, 0, &[NO, CO, NO, CO]);
    });
}

/// The GOALs of each variable stand apart from each other: 2, 1 and 4 are contested.
#[test]
fn three_are_contested() {
    let root = goals(&[(2, 1), (4, 1), (1, 1), (4, 2), (2, 2), (1, 2)]);
    step_through(&file(5, 0, &root), &[0; 5], |run| {
        run.offer_naming(1, 0, &[NO, CO, CO, NO, CO]);
    });
}

/// 0 has one GOAL, 1 has two that agree, 2 has none, 4 has one: none of these is contested. 3 and 5
/// are.
#[test]
fn contested_among_others() {
    let root = goals(&[
        (5, 1),
        (0, 5),
        (1, 7),
        (3, 1),
        (4, 4),
        (1, 7),
        (5, 2),
        (3, 250),
    ]);
    step_through(&file(6, 0, &root), &[0; 6], |run| {
        run.offer_naming(3, 0, &[5, 7, NO, CO, 4, CO]);
    });
}

/// Where GOALs agree, where they are of different variables, and where the other GOAL of a variable
/// is not at work yet, nothing is contested and no variable is named.
#[test]
fn none_is_contested() {
    let agreed = goals(&[(0, 1), (1, 2), (0, 1)]);
    step_through(&file(2, 0, &agreed), &[0, 0], |run| run.offer(0, &[1, 2]));
    let in_turn = seq(vec![goal(0, 1), goal(0, 2)]);
    step_through(&file(1, 0, &in_turn), &[0], |run| {
        run.offer(0, &[1]);
        run.runs_on(&[1]);
        run.offer(0, &[2]);
    });
    let no_goal = repeat(choice(equals(0, 0), goal(0, 1), goal(0, 2)));
    step_through(&file(1, 0, &no_goal), &[0], |run| run.offer(0, &[NO]));
}

/// The first and the last variable there can be: each alone, and both together.
#[test]
fn first_and_last_variable() {
    let first = [(0, 1), (0, 2)];
    let last = [(LAST_VARIABLE, 1), (LAST_VARIABLE, 2)];
    let of = |wanted: &[(u8, u16)]| file(MAX_VARIABLES, 0, &goals(wanted));
    step_through(&of(&first), &ALL_ZERO, |run| {
        run.offer_naming(0, 0, &from_first_to_last(CO, NO, NO));
    });
    step_through(&of(&last), &ALL_ZERO, |run| {
        run.offer_naming(LAST_VARIABLE, 0, &from_first_to_last(NO, NO, CO));
    });
    step_through(&of(&[last, first].concat()), &ALL_ZERO, |run| {
        run.offer_naming(0, 0, &from_first_to_last(CO, NO, CO));
    });
}

/// Of both, first one contest ends and then the other: 31 is named when 0 is not contested any more,
/// and 0 when 31 is not.
#[test]
fn first_or_last_variable_is_left() {
    let root = goals(&[(LAST_VARIABLE, 1), (LAST_VARIABLE, 2), (0, 1), (0, 2)]);
    let file = file(MAX_VARIABLES, 0, &root);
    step_through(&file, &ALL_ZERO, |run| {
        run.offer_naming(0, 0, &from_first_to_last(CO, NO, CO));
        run.runs_on(&from_first_to_last(1, 0, 0));
        run.offer_naming(LAST_VARIABLE, 0, &from_first_to_last(2, NO, CO));
        run.runs_on(&from_first_to_last(2, 0, 2));
        run.offer(0, &from_first_to_last(NO, NO, 1));
        run.finishes(&from_first_to_last(0, 0, 1));
    });
    step_through(&file, &ALL_ZERO, |run| {
        run.offer_naming(0, 0, &from_first_to_last(CO, NO, CO));
        run.runs_on(&from_first_to_last(0, 0, 1));
        run.offer_naming(0, 0, &from_first_to_last(CO, NO, 2));
    });
}

/// All variables from one on are contested, the highest first: that one is named.
#[test]
fn many_are_contested() {
    for lowest in 0..=LAST_VARIABLE {
        let from_lowest = (lowest..=LAST_VARIABLE).rev();
        let wanted: Vec<(u8, u16)> = from_lowest.flat_map(|one| [(one, 1), (one, 2)]).collect();
        let mut bytes = [NO; MAX_VARIABLES];
        bytes[usize::from(lowest)..].fill(CO);
        step_through(&file(MAX_VARIABLES, 0, &goals(&wanted)), &ALL_ZERO, |run| {
            run.offer_naming(lowest, 0, &bytes);
        });
    }
}

/// 1, 2, 1: two differ, and a third that is like the first does not heal it. Once 2 has ended the
/// others agree; once both 1 have ended, 2 is alone.
#[test]
fn one_two_one() {
    let root = goals(&[(0, 1), (0, 2), (0, 1)]);
    step_through(&file(1, 0, &root), &[0], |run| {
        run.offer_naming(0, 0, &[CO]);
        run.runs_on(&[2]);
        run.offer(0, &[1]);
        run.finishes(&[1]);
    });
    step_through(&file(1, 0, &root), &[0], |run| {
        run.offer_naming(0, 0, &[CO]);
        run.runs_on(&[0]);
        run.offer_naming(0, 0, &[CO]);
        run.runs_on(&[1]);
        run.offer(0, &[2]);
        run.finishes(&[2]);
    });
}

/// The same for 1, below 2, which is contested too, and above 0, whose three GOALs agree.
#[test]
fn one_two_one_among_others() {
    let ones = [(2, 1), (1, 1), (0, 1)];
    let twos = [(2, 2), (1, 2), (0, 1)];
    let root = goals(&[ones, twos, ones].concat());
    step_through(&file(3, 0, &root), &[0; 3], |run| {
        run.offer_naming(1, 0, &[1, CO, CO]);
        run.runs_on(&[0, 2, 0]);
        run.offer_naming(2, 0, &[1, 1, CO]);
        run.runs_on(&[0, 0, 2]);
        run.offer(0, &[1, 1, 1]);
    });
}

/// 0 is contested inside a MAINTAIN, 1 beside it. Once the MAINTAIN is violated it offers nothing:
/// 0 has no goal any more, and the name moves up to 1.
#[test]
fn a_violated_maintain_contests_nothing() {
    let held = maintain(differs(2, 1), goals(&[(0, 1), (0, 2)]));
    let root = par(vec![held, goals(&[(1, 1), (1, 2)])]);
    step_through(&file(3, 0, &root), &[0; 3], |run| {
        run.offer_naming(0, 0, &[CO, CO, NO]);
        // This settling breaks the condition, and the next offer finds it.
        run.runs_on(&[0, 0, 1]);
        run.offer_naming(1, 0, &[NO, CO, NO]);
        // It has ended, and does not come back when its condition would hold again.
        run.runs_on(&[0, 0, 0]);
        run.offer_naming(1, 0, &[NO, CO, NO]);
    });
    // Broken from the beginning on.
    step_through(&file(3, 0, &root), &[0, 0, 1], |run| {
        run.offer_naming(1, 0, &[NO, CO, NO]);
    });
}

/// One of the two GOALs that contend for 0 is inside the MAINTAIN, the other beside it: once it is
/// violated the other is alone.
#[test]
fn a_violated_maintain_contends_no_more() {
    let held = maintain(differs(2, 1), goal(0, 1));
    let root = par(vec![held, goal(0, 2), goal(1, 1), goal(1, 2)]);
    step_through(&file(3, 0, &root), &[0; 3], |run| {
        run.offer_naming(0, 0, &[CO, CO, NO]);
        run.runs_on(&[0, 0, 1]);
        run.offer_naming(1, 0, &[2, CO, NO]);
        run.runs_on(&[0, 1, 1]);
        run.offer(0, &[2, 2, NO]);
    });
}

/// Three contests end one after the other, and the name goes with the lowest that is left; a contest
/// below it that ends only later keeps it.
#[test]
fn part_of_the_contest_has_ended() {
    let root = goals(&[(0, 1), (0, 2), (1, 1), (1, 2), (2, 1), (2, 2)]);
    let file = file(3, 0, &root);
    step_through(&file, &[0; 3], |run| {
        run.offer_naming(0, 0, &[CO, CO, CO]);
        run.runs_on(&[1, 0, 0]);
        run.offer_naming(1, 0, &[2, CO, CO]);
        run.runs_on(&[0, 2, 0]);
        run.offer_naming(2, 0, &[2, 1, CO]);
        run.runs_on(&[0, 0, 1]);
        run.offer(0, &[2, 1, 2]);
        run.finishes(&[2, 1, 2]);
    });
    step_through(&file, &[0; 3], |run| {
        run.offer_naming(0, 0, &[CO, CO, CO]);
        run.runs_on(&[0, 1, 0]);
        run.offer_naming(0, 0, &[CO, 2, CO]);
        run.runs_on(&[0, 2, 2]);
        run.offer_naming(0, 0, &[CO, NO, 1]);
    });
}

/// A SEQ goes on to a GOAL that contends for a lower variable, and a CHOICE is decided for one that
/// contends for a lower one still: the name moves down each time.
#[test]
fn a_lower_contest_begins() {
    let in_turn = seq(vec![goal(3, 1), goal(2, 1)]);
    let chosen = seq(vec![
        goal(3, 1),
        choice(equals(0, 1), goal(0, 1), goal(1, 1)),
    ]);
    let contended = goals(&[(4, 1), (4, 2), (2, 2), (1, 2)]);
    let root = par(vec![contended, in_turn, chosen]);
    step_through(&file(5, 0, &root), &[0; 5], |run| {
        run.offer_naming(4, 0, &[NO, 2, 2, 1, CO]);
        run.runs_on(&[0, 0, 0, 1, 0]);
        // The CHOICE offers nothing in its first cycle.
        run.offer_naming(2, 0, &[NO, 2, CO, NO, CO]);
        run.runs_on(&[0, 0, 0, 0, 0]);
        run.offer_naming(1, 0, &[NO, CO, CO, NO, CO]);
    });
}

/// A REPEAT begins its GOAL anew, so that its variable is contested again in each round.
#[test]
fn a_contest_comes_back() {
    let rounds = repeat(seq(vec![goal(0, 1), goal(1, 1)]));
    let root = par(vec![rounds, goal(0, 2), goal(2, 1), goal(2, 2)]);
    step_through(&file(3, 0, &root), &[0; 3], |run| {
        for _ in 0..3 {
            run.offer_naming(0, 0, &[CO, NO, CO]);
            run.runs_on(&[1, 0, 0]);
            run.offer_naming(2, 0, &[2, 1, CO]);
            run.runs_on(&[0, 1, 0]);
        }
    });
}

/// What the goal buffer held before, and holds behind the goals, names no variable.
#[test]
fn other_bytes_name_nothing() {
    let agreed = goals(&[(0, 1), (1, 2)]);
    let table = table_of(&file(3, 0, &agreed));
    for executive in ALL {
        let mut record = [0; RECORD_LEN];
        let mut bytes = [CO; 40];
        let begun = (executive.begin)(&table, &[0; 3], &mut record);
        assert_eq!(begun, DONE, "{}", executive.name);
        let answer = (executive.offer)(&table, &mut record, 0, &mut bytes);
        let none = ANSWERED + u32::from(NO_VARIABLE);
        assert_eq!(answer, none, "{}", executive.name);
        assert_eq!(bytes[..3], [1, 2, NO], "{}", executive.name);
        assert_eq!(bytes[3..], [CO; 37], "{}", executive.name);
    }
}

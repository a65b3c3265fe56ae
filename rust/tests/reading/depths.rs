//! Trees down to the greatest depth and just below it, for a walk that keeps its depth on the way
//! down and up: into a child of each kind, out of many parts at once, and on to what comes after.
//! How deep a tree is follows from how the test builds it, and from that follows the answer.

mod faults;
mod leaves;

use gurvoke::builder::{choice, equals, file, goal, maintain, par, repeat, seq, start, wait};
use gurvoke::counts::{assert_counts, named, Counts};
use gurvoke::hex::hex;
use gurvoke::model::Program;
use gurvoke::parts::{Label, Part};
use gurvoke::refusals::{NOT_A_TABLE, TOO_DEEP};
use gurvoke::rng::Rng;
use gurvoke::sizes::{Sizes, MAX_DEPTH, MAX_PARTS};

use crate::harness::{check_file, check_table, Answer, Tally};

/// The root's depth.
const ROOT_DEPTH: usize = 1;

/// The first depth that is not allowed.
const BEYOND: usize = MAX_DEPTH + 1;

/// All trees here have one variable and one clock.
const VARIABLES: usize = 1;
const CLOCKS: usize = 1;

/// Puts a part above another, which becomes a child of it.
type WayDown = fn(Part) -> Part;

/// To the only child, to each of two, and to the middle one of three.
const WAYS_DOWN: [WayDown; 8] = [
    |child| seq(vec![child]),
    |child| par(vec![child]),
    |child| maintain(equals(0, 0), child),
    repeat,
    |child| choice(equals(0, 0), child, leaf()),
    |child| choice(equals(0, 0), leaf(), child),
    |child| seq(vec![leaf(), child, leaf()]),
    |child| par(vec![leaf(), child, leaf()]),
];

/// Puts a part above several, which become its children.
type Join = fn(Vec<Part>) -> Part;

/// The kinds that can have any number of children, and those that can have two.
const JOINS: [Join; 2] = [seq, par];
const JOINS_OF_TWO: [Join; 3] = [seq, par, choice_of];

fn choice_of(children: Vec<Part>) -> Part {
    let label = Label::Choice(equals(0, 0));
    Part { label, children }
}

fn leaf() -> Part {
    goal(0, 0)
}

/// A part with so many levels put above it.
fn beneath(way: impl Fn(Part) -> Part, levels: usize, part: Part) -> Part {
    (0..levels).fold(part, |part, _| way(part))
}

/// A part for depth `from`, with parts inside it down to depth `to`: a leaf if that is no deeper.
fn reaching(way: WayDown, from: usize, to: usize) -> Part {
    beneath(way, to.saturating_sub(from), leaf())
}

/// What a test tries, and how it is answered.
struct Trial {
    rng: Rng,
    tally: Tally,
    accepted: u64,
    refused: u64,
}

impl Trial {
    fn new(seed: u64) -> Trial {
        Trial {
            rng: Rng::new(seed),
            tally: Tally::default(),
            accepted: 0,
            refused: 0,
        }
    }

    /// Tries a tree whose deepest part has this depth.
    fn check(&mut self, root: &Part, deepest: usize) {
        let file = file(VARIABLES, CLOCKS, root);
        if deepest <= MAX_DEPTH {
            self.expect(&file, Ok(()));
        } else {
            self.expect(&file, Err(TOO_DEEP));
            self.check_rows(&file, root);
        }
    }

    /// Expects this answer to a file, whatever room there is for a table.
    fn expect(&mut self, file: &[u8], expected: Answer) {
        let answer = check_file(&mut self.rng, &mut self.tally, file);
        assert_eq!(answer, expected, "{}", hex(file));
        match answer {
            Ok(()) => self.accepted += 1,
            Err(_) => self.refused += 1,
        }
    }

    /// Expects that the rows of a tree that is too deep are no table, though they fit each other.
    fn check_rows(&mut self, file: &[u8], root: &Part) {
        let sizes = Sizes::read(file).expect("a file has its sizes");
        let root = root.clone();
        let table = Program { sizes, root }.table();
        let answer = check_table(&mut self.rng, &mut self.tally, &table);
        assert_eq!(answer, Err(NOT_A_TABLE), "{}", hex(&table));
    }

    fn counts(&self) -> Counts {
        let files = named([
            ("files accepted", self.accepted),
            ("files refused", self.refused),
        ]);
        [self.tally.counts(), files].concat()
    }
}

/// A leaf of each kind below levels of one way down, up to as many as a file can hold.
#[test]
fn chains_of_each_length() {
    let mut trial = Trial::new(200);
    for way in WAYS_DOWN {
        for bottom in [goal(0, 0), start(0), wait(equals(0, 0))] {
            let mut root = bottom;
            let mut depth = ROOT_DEPTH;
            while root.size() <= MAX_PARTS {
                trial.check(&root, depth);
                root = way(root);
                depth += 1;
            }
        }
    }
    assert_counts(file!(), "chains_of_each_length", &trial.counts());
}

/// One way down at each level in turn, among levels of each other way.
#[test]
fn one_way_down_among_others() {
    let mut trial = Trial::new(201);
    for (place, &way) in WAYS_DOWN.iter().enumerate() {
        for (other_place, &other) in WAYS_DOWN.iter().enumerate() {
            if place != other_place {
                check_among(&mut trial, way, other);
            }
        }
    }
    assert_counts(file!(), "one_way_down_among_others", &trial.counts());
}

fn check_among(trial: &mut Trial, way: WayDown, other: WayDown) {
    for deepest in [MAX_DEPTH, BEYOND] {
        for level in ROOT_DEPTH..deepest {
            let below = reaching(other, level + 1, deepest);
            let root = beneath(other, level - ROOT_DEPTH, way(below));
            trial.check(&root, deepest);
        }
    }
}

/// When the second comes, all levels inside the first have been left.
#[test]
fn two_siblings() {
    let mut trial = Trial::new(202);
    for join in JOINS_OF_TWO {
        for way in WAYS_DOWN {
            check_siblings(&mut trial, join, way, 2);
        }
    }
    assert_counts(file!(), "two_siblings", &trial.counts());
}

#[test]
fn three_siblings() {
    let mut trial = Trial::new(203);
    for join in JOINS {
        check_siblings(&mut trial, join, repeat, 3);
    }
    assert_counts(file!(), "three_siblings", &trial.counts());
}

/// Tries so many siblings, their parent at each depth, that reach depths about the greatest one, in
/// every order.
fn check_siblings(trial: &mut Trial, join: Join, way: WayDown, count: usize) {
    for parent in ROOT_DEPTH..=MAX_DEPTH {
        let least = (MAX_DEPTH - 2).max(parent + 1);
        for depths in lists(least..=BEYOND, count) {
            let siblings = depths.iter().map(|&to| reaching(way, parent + 1, to));
            let root = beneath(way, parent - ROOT_DEPTH, join(siblings.collect()));
            let deepest = depths.into_iter().max().expect("there are siblings");
            trial.check(&root, deepest);
        }
    }
}

/// All lists of `len` of these numbers.
fn lists(numbers: impl Iterator<Item = usize> + Clone, len: usize) -> Vec<Vec<usize>> {
    let mut lists = vec![Vec::new()];
    for _ in 0..len {
        let longer = |list: Vec<usize>| {
            let numbers = numbers.clone();
            numbers.map(move |number| [&list[..], &[number]].concat())
        };
        lists = lists.into_iter().flat_map(longer).collect();
    }
    lists
}

/// What is lost or left over at each of many siblings adds up until the last one comes.
#[test]
fn as_many_siblings_as_there_can_be() {
    let mut trial = Trial::new(204);
    for join in JOINS {
        for way in WAYS_DOWN {
            check_crowds(&mut trial, join, way);
        }
    }
    assert_counts(file!(), "as_many_siblings_as_there_can_be", &trial.counts());
}

/// Tries as many siblings as there can be, their parent at each depth: all reach the same depth,
/// but for the last one, which reaches the greatest depth or the one below.
fn check_crowds(trial: &mut Trial, join: Join, way: WayDown) {
    for parent in ROOT_DEPTH..MAX_DEPTH {
        let parents = |children| beneath(way, parent - ROOT_DEPTH, join(children));
        for depth in parent + 1..=MAX_DEPTH {
            let sibling = reaching(way, parent + 1, depth);
            for deepest in [MAX_DEPTH, BEYOND] {
                let last = reaching(way, parent + 1, deepest);
                trial.check(&filled(parents, &sibling, last), deepest);
            }
        }
    }
}

/// A program of most parts: as many of these siblings as there is room for, leaves before them in
/// the room that is left, and the last one.
fn filled(parents: impl Fn(Vec<Part>) -> Part, sibling: &Part, last: Part) -> Part {
    let room = MAX_PARTS - parents(vec![last.clone()]).size();
    let mut children = vec![leaf(); room % sibling.size()];
    children.extend(vec![sibling.clone(); room / sibling.size()]);
    children.push(last);
    let root = parents(children);
    assert_eq!(root.size(), MAX_PARTS);
    root
}

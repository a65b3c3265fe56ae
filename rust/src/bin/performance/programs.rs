//! The programs that are measured: four shapes, each in four sizes.

use gurvoke::builder::{
    at_least, below, choice, differs, file, goal, maintain, par, repeat, seq, start, wait,
};
use gurvoke::model::Program;
use gurvoke::parts::Part;
use gurvoke::sizes::{Sizes, MAX_CLOCKS, MAX_DEPTH, MAX_VARIABLES};

/// The numbers of parts.
pub const SIZES: [usize; 4] = [25, 50, 100, 200];

/// The variable that keeps its value while all others come to what is offered for them. Every
/// program has a goal over it, so that no run finishes.
pub const UNMOVED: usize = 0;

/// A way to build a program of any number of parts.
pub struct Shape {
    pub name: &'static str,
    pub root: fn(usize) -> Part,
}

pub const SHAPES: [Shape; 4] = [
    Shape {
        name: "one wide PAR of GOALs",
        root: wide,
    },
    Shape {
        name: "fourteen MAINTAINs above a PAR of GOALs",
        root: deep,
    },
    Shape {
        name: "a PAR of REPEAT(SEQ(START, WAIT, GOAL, CHOICE, MAINTAIN))",
        root: mixed,
    },
    Shape {
        name: "one wide PAR of STARTs",
        root: starts,
    },
];

impl Shape {
    /// The file of exactly so many parts, with as many variables and clocks as a program can have.
    pub fn file(&self, parts: usize) -> Vec<u8> {
        let file = file(MAX_VARIABLES, MAX_CLOCKS, &(self.root)(parts));
        let sizes = Sizes::read(&file).expect("a file has its sizes");
        assert_eq!(sizes.parts, parts, "{}", self.name);
        file
    }
}

/// A program with a GOAL one level deeper than is allowed, and its file.
pub fn too_deep() -> (Program, Vec<u8>) {
    let root = (0..MAX_DEPTH).fold(spread_goal(0), |child, _| repeat(child));
    let file = file(MAX_VARIABLES, MAX_CLOCKS, &root);
    let sizes = Sizes::read(&file).expect("a file has its sizes");
    (Program { sizes, root }, file)
}

fn wide(parts: usize) -> Part {
    par((0..parts - 1).map(spread_goal).collect())
}

fn deep(parts: usize) -> Part {
    let maintains = 14;
    let inside = wide(parts - maintains);
    (0..maintains).fold(inside, |child, place| {
        maintain(differs(place as u8, 250), child)
    })
}

/// As many branches as there is room for, and GOALs for the parts that are left.
fn mixed(parts: usize) -> Part {
    let branch_parts = 10;
    let branches = (parts - 1) / branch_parts;
    let left = (parts - 1) % branch_parts;
    let mut children: Vec<Part> = (0..branches).map(branch).collect();
    children.extend((0..left).map(|_| goal(UNMOVED as u8, 1)));
    par(children)
}

/// Ten parts, of which at most four are marked at a time: in a SEQ only one child is.
fn branch(place: usize) -> Part {
    let variable = (1 + place % (MAX_VARIABLES - 1)) as u8;
    let clock = (place % MAX_CLOCKS) as u8;
    repeat(seq(vec![
        start(clock),
        wait(at_least(clock, 1)),
        goal(variable, 1),
        choice(below(clock, 100), goal(variable, 2), goal(variable, 3)),
        maintain(below(clock, 1000), goal(variable, 4)),
    ]))
}

/// One GOAL, as every program has, and STARTs of all clocks in turn.
fn starts(parts: usize) -> Part {
    let mut children = vec![spread_goal(UNMOVED)];
    let places = 0..parts - 1 - children.len();
    children.extend(places.map(|place| start((place % MAX_CLOCKS) as u8)));
    par(children)
}

/// GOALs over all variables in turn, the unmoved one first.
fn spread_goal(place: usize) -> Part {
    goal((place % MAX_VARIABLES) as u8, 1)
}

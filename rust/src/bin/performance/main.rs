//! What the five calls cost, in the library, in plain Rust (`gurvoke::reference`) and in plain C
//! (`gurvoke::board`): instructions, counted by callgrind, and the deepest stack. Not part of the
//! tests, and nothing in it is timed: the figures are the same in every run.
//!
//! `cargo run --offline --release --bin performance` prints the tables of docs/PERFORMANCE.md.

mod instructions;
mod programs;
mod report;
mod stack;
mod trial;

use std::env;

use gurvoke::executive::{Executive, BOARD, LIBRARY, REFERENCE};

use instructions::{Counts, FunctionCost};
use programs::{Shape, SHAPES, SIZES};
use trial::{Operation, Trial, IDLE};

/// The argument with which this program runs itself under callgrind.
const COUNT_CALLS: &str = "count-calls";

static EXECUTIVES: [&Executive; 4] = [&LIBRARY, &REFERENCE, &BOARD, &IDLE];

/// What one call takes.
pub struct Cost {
    pub shape: &'static str,
    pub parts: usize,
    pub operation: Operation,
    pub executive: &'static str,
    /// How many parts are marked in the record of an offer and of a settling.
    pub marked: usize,
    pub instructions: u64,
    pub functions: Vec<FunctionCost>,
    pub stack: usize,
}

fn main() {
    if cfg!(debug_assertions) {
        panic!("build for release: the library and plain C are optimised, so plain Rust has to be");
    }
    let arguments: Vec<String> = env::args().skip(1).collect();
    match &arguments[..] {
        [] => report::print(&measure(), refused_stack()),
        [only] if only == COUNT_CALLS => each_call(|_, trial, operation, executive| {
            instructions::count(trial, executive, operation);
        }),
        _ => panic!("this program takes no arguments"),
    }
}

/// The costs of all calls, in their order.
fn measure() -> Vec<Cost> {
    let counts = Counts::of_run(COUNT_CALLS);
    let mut costs = Vec::new();
    each_call(|shape, trial, operation, executive| {
        let number = costs.len() + 1;
        let functions = counts.by_function(number);
        costs.push(Cost {
            shape: shape.name,
            parts: trial.parts(),
            operation,
            executive: executive.name,
            marked: trial.marked(),
            instructions: functions.iter().map(|function| function.instructions).sum(),
            functions,
            stack: stack::depth(trial, executive, operation),
        });
    });
    costs
}

/// The deepest stack of the library's calls on a program that goes too deep: a refused call must not
/// take more than an accepted one.
fn refused_stack() -> usize {
    let (program, file) = programs::too_deep();
    let mut trial = Trial::without_run(&file, &program);
    let stacks = Operation::ALL.map(|call| stack::refused_depth(&mut trial, &LIBRARY, call));
    stacks.into_iter().max().expect("some calls")
}

/// Goes over all calls, always in the same order.
fn each_call(mut visit: impl FnMut(&Shape, &mut Trial, Operation, &Executive)) {
    for shape in &SHAPES {
        for parts in SIZES {
            let mut trial = Trial::new(&shape.file(parts));
            for operation in Operation::ALL {
                for executive in EXECUTIVES {
                    visit(shape, &mut trial, operation, executive);
                }
            }
        }
    }
}

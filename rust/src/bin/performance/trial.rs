//! A program with all that each call on it needs.

use std::hint::black_box;

use gurvoke::answers::{ANSWERED, DONE, RUNNING};
use gurvoke::executive::{Executive, REFERENCE};
use gurvoke::model::{read, Program};
use gurvoke::record::{ESTIMATE, MARKS, RECORD_LEN, STARTED};
use gurvoke::sizes::{Sizes, MAX_VALUE};

use crate::programs::UNMOVED;

/// Cycles after which a run of the programs measured comes to no new marks.
const CYCLES: u32 = 8;

/// A call that is measured.
#[derive(Clone, Copy, PartialEq, Eq)]
pub enum Operation {
    Compile,
    Decompile,
    Begin,
    Offer,
    Settle,
}

impl Operation {
    pub const ALL: [Operation; 5] = [
        Operation::Compile,
        Operation::Decompile,
        Operation::Begin,
        Operation::Offer,
        Operation::Settle,
    ];

    pub fn name(self) -> &'static str {
        match self {
            Operation::Compile => "compile",
            Operation::Decompile => "decompile",
            Operation::Begin => "begin",
            Operation::Offer => "offer",
            Operation::Settle => "settle",
        }
    }
}

/// An executive that does nothing: what a call of it takes is the cost of calling.
pub static IDLE: Executive = Executive {
    name: "idle",
    compile: |_, _| Ok(()),
    decompile: |_, _| Ok(()),
    begin: |_, _, _| DONE,
    offer: |_, _, _, _| ANSWERED,
    settle: |_, _, _| RUNNING,
};

/// The inputs of all calls on one program, and a buffer for what they write.
pub struct Trial {
    sizes: Sizes,
    file: Vec<u8>,
    table: Vec<u8>,
    /// The record that an offer is made on: of a run's records the one with the most marks.
    waiting: Vec<u8>,
    /// The record that a settling is made on: the one before, after an offer.
    offered: Vec<u8>,
    time: u32,
    estimate: Vec<u8>,
    record: Vec<u8>,
    output: Vec<u8>,
}

impl Trial {
    pub fn new(file: &[u8]) -> Trial {
        let program = read(file).expect("a valid program");
        let mut trial = Trial::without_run(file, &program);
        trial.find_fullest();
        trial.offered = trial.waiting.clone();
        let goals = offer(&trial.table, &mut trial.offered, trial.time);
        trial.estimate = reached(&trial.offered, &goals);
        trial
    }

    /// Inputs with records that no run has come to: enough where every call is refused before it looks
    /// at one.
    pub fn without_run(file: &[u8], program: &Program) -> Trial {
        let sizes = program.sizes;
        Trial {
            sizes,
            file: file.to_vec(),
            table: program.table(),
            waiting: vec![0; RECORD_LEN],
            offered: vec![0; RECORD_LEN],
            time: CYCLES + 1,
            estimate: vec![0; sizes.variables],
            record: vec![0; RECORD_LEN],
            output: vec![0; sizes.table_len()],
        }
    }

    pub fn parts(&self) -> usize {
        self.sizes.parts
    }

    /// How many parts are marked before an offer, and before a settling too.
    pub fn marked(&self) -> usize {
        assert_eq!(marks(&self.waiting), marks(&self.offered));
        marks(&self.waiting)
    }

    /// Runs the program, with all goals but one variable's reached in every cycle, and keeps the
    /// first record of those with the most marks.
    fn find_fullest(&mut self) {
        let mut record = vec![0; RECORD_LEN];
        assert_eq!(
            (REFERENCE.begin)(&self.table, &self.estimate, &mut record),
            DONE
        );
        self.waiting.clone_from(&record);
        for time in 1..=CYCLES {
            let goals = offer(&self.table, &mut record, time);
            let estimate = reached(&record, &goals);
            let answer = (REFERENCE.settle)(&self.table, &mut record, &estimate);
            assert_eq!(answer, RUNNING);
            if marks(&record) > marks(&self.waiting) {
                self.waiting.clone_from(&record);
            }
        }
    }

    /// Puts the record before the next call.
    pub fn prepare(&mut self, operation: Operation) {
        self.record.copy_from_slice(match operation {
            Operation::Settle => &self.offered,
            _ => &self.waiting,
        });
    }

    /// Makes the call: whether it was accepted.
    pub fn call(&mut self, executive: &Executive, operation: Operation) -> bool {
        let accepted = match operation {
            Operation::Compile => (executive.compile)(&self.file, &mut self.output).is_ok(),
            Operation::Decompile => (executive.decompile)(&self.table, &mut self.output).is_ok(),
            Operation::Begin => {
                (executive.begin)(&self.table, &self.estimate, &mut self.record) == DONE
            }
            Operation::Offer => {
                let goals = &mut self.output;
                (executive.offer)(&self.table, &mut self.record, self.time, goals) >= ANSWERED
            }
            Operation::Settle => {
                (executive.settle)(&self.table, &mut self.record, &self.estimate) >= ANSWERED
            }
        };
        black_box(accepted)
    }
}

fn marks(record: &[u8]) -> usize {
    record[MARKS..].iter().map(|&mark| usize::from(mark)).sum()
}

/// The goals of an offer that must be accepted.
fn offer(table: &[u8], record: &mut [u8], time: u32) -> Vec<u8> {
    let sizes = Sizes::read(table).expect("a table has its sizes");
    let mut goals = vec![0; sizes.variables];
    assert!((REFERENCE.offer)(table, record, time, &mut goals) >= ANSWERED);
    goals
}

/// The record's estimate, with every goal reached but that of the variable that does not move.
fn reached(record: &[u8], goals: &[u8]) -> Vec<u8> {
    let mut estimate = record[ESTIMATE..STARTED][..goals.len()].to_vec();
    for (value, &goal) in estimate.iter_mut().zip(goals).skip(UNMOVED + 1) {
        if u16::from(goal) <= MAX_VALUE {
            *value = goal;
        }
    }
    estimate
}

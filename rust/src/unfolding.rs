//! A run by unfolding the program's tree: no table, no rows and no marks.
//!
//! It is written from nothing but document 01's "Unfolding the tree" and "The two runs of demand 3"
//! and document 02's, and shares nothing with the library or with the executive over
//! the table. The state is what these sections name: phase, last time, estimate, clocks, and what
//! remains of the tree.

mod tree;

use crate::answers::{CONTESTED, NO_GOAL};
use crate::model;
use crate::record::{self, Phase};
use crate::refusals::{
    BUFFER_TOO_SHORT, ESTIMATE_NOT_ALLOWED, RUN_FINISHED, TIME_BEFORE_LAST, WRONG_PHASE,
};
use crate::sizes::{Sizes, MAX_VALUE, UNKNOWN_VALUE};
use tree::{tree_of, View};

pub use tree::{Rest, Tree};

/// A program whose file is allowed.
#[derive(Clone, Debug, PartialEq, Eq)]
pub struct Program {
    pub sizes: Sizes,
    pub root: Tree,
}

impl Program {
    /// Reads a program file, or gives the number of the first refusal that applies.
    pub fn read(file: &[u8]) -> Result<Program, u32> {
        let program = model::read(file)?;
        Ok(Program {
            sizes: program.sizes,
            root: tree_of(program.root),
        })
    }
}

/// What an accepted offer gives.
#[derive(Clone, Debug, PartialEq, Eq)]
pub struct Offer {
    /// A goal byte for each variable.
    pub goals: Vec<u8>,
    /// The lowest-numbered contested variable, if one is contested.
    pub named: Option<u8>,
}

/// What an accepted settling says.
#[derive(Clone, Copy, Debug, PartialEq, Eq)]
pub enum Progress {
    Running,
    Finished,
}

/// A run of a program.
#[derive(Clone, Debug)]
pub struct Run<'a> {
    pub program: &'a Program,
    pub phase: Phase,
    pub time: u32,
    /// A byte for each variable: its value, or that it is unknown.
    pub estimate: Vec<u8>,
    /// When each clock was started last, where it was.
    pub clocks: Vec<Option<u32>>,
    /// What remains of the tree: nothing once the root has ended.
    pub rest: Option<Rest>,
    /// The settlings not refused so far.
    pub settlings: u64,
    /// The number of settlings not refused when the phase was first "finished".
    pub finishing_cycle: Option<u64>,
}

impl<'a> Run<'a> {
    /// Begins a run with the root afresh.
    pub fn begin(program: &'a Program, estimate: &[u8]) -> Result<Run<'a>, u32> {
        if !estimate_allowed(program, estimate) {
            return Err(ESTIMATE_NOT_ALLOWED);
        }
        Ok(Run {
            program,
            phase: Phase::Waiting,
            time: 0,
            estimate: estimate.to_vec(),
            clocks: vec![None; program.sizes.clocks],
            rest: Some(program.root.afresh()),
            settlings: 0,
            finishing_cycle: None,
        })
    }

    /// An offer at this time, with room for so many goal bytes.
    pub fn offer(&mut self, time: u32, room: usize) -> Result<Offer, u32> {
        match self.phase {
            Phase::Finished => return Err(RUN_FINISHED),
            Phase::Offered => return Err(WRONG_PHASE),
            Phase::Waiting => {}
        }
        if time < self.time {
            return Err(TIME_BEFORE_LAST);
        }
        if room < self.program.sizes.variables {
            return Err(BUFFER_TOO_SHORT);
        }
        self.phase = Phase::Offered;
        self.time = time;
        let mut goals = Vec::new();
        if let Some(mut rest) = self.rest.take() {
            self.program.root.check(&mut rest, &self.view());
            self.program.root.goals(&rest, &mut goals);
            self.rest = Some(rest);
        }
        Ok(offer_of(self.program.sizes.variables, &goals))
    }

    /// A settling with this estimate.
    pub fn settle(&mut self, estimate: &[u8]) -> Result<Progress, u32> {
        match self.phase {
            Phase::Finished => return Err(RUN_FINISHED),
            Phase::Waiting => return Err(WRONG_PHASE),
            Phase::Offered => {}
        }
        if !estimate_allowed(self.program, estimate) {
            return Err(ESTIMATE_NOT_ALLOWED);
        }
        let clocks = self.clocks_after();
        let view = View {
            estimate,
            ..self.view()
        };
        let root = &self.program.root;
        self.rest = self.rest.as_ref().and_then(|rest| root.settle(rest, &view));
        self.clocks = clocks;
        self.estimate = estimate.to_vec();
        self.settlings += 1;
        Ok(self.close_cycle())
    }

    /// The value of a variable by the estimate stored, if it is known.
    pub fn value(&self, variable: usize) -> Option<u8> {
        self.view().value(variable)
    }

    /// What a clock reads at the last time, if it is started.
    pub fn reading(&self, clock: usize) -> Option<u32> {
        self.view().reading(clock)
    }

    /// What an offer judges by: the estimate stored and the last time.
    fn view(&self) -> View<'_> {
        View {
            estimate: &self.estimate,
            time: self.time,
            clocks: &self.clocks,
        }
    }

    /// The clocks after this cycle: every START at work sets its clock to the cycle's time, whether or
    /// not the clock is started.
    fn clocks_after(&self) -> Vec<Option<u32>> {
        let mut starts = Vec::new();
        if let Some(rest) = &self.rest {
            self.program.root.starts(rest, &mut starts);
        }
        let mut clocks = self.clocks.clone();
        for clock in starts {
            clocks[clock] = Some(self.time);
        }
        clocks
    }

    /// The phase after a settling, which is also its answer.
    fn close_cycle(&mut self) -> Progress {
        if self.rest.is_some() {
            self.phase = Phase::Waiting;
            return Progress::Running;
        }
        self.phase = Phase::Finished;
        self.finishing_cycle = Some(self.settlings);
        Progress::Finished
    }

    /// The record that holds this state: what the table's run must have written.
    pub fn record(&self) -> Vec<u8> {
        let mut bytes = vec![0; record::RECORD_LEN];
        bytes[record::PHASE] = self.phase as u8;
        put(&mut bytes, record::TIME, &self.time.to_le_bytes());
        put(&mut bytes, record::ESTIMATE, &self.estimate);
        for (clock, start) in self.clocks.iter().enumerate() {
            if let Some(start) = start {
                bytes[record::STARTED + clock] = 1;
                put(&mut bytes, record::start_place(clock), &start.to_le_bytes());
            }
        }
        let mut marks = Vec::with_capacity(self.program.sizes.parts);
        self.program.root.marks(self.rest.as_ref(), &mut marks);
        put(&mut bytes, record::MARKS, &marks);
        bytes
    }
}

fn put(bytes: &mut [u8], place: usize, field: &[u8]) {
    bytes[place..place + field.len()].copy_from_slice(field);
}

fn estimate_allowed(program: &Program, estimate: &[u8]) -> bool {
    let mut values = estimate.iter().filter_map(|&byte| known(byte));
    estimate.len() == program.sizes.variables && values.all(|value| u16::from(value) <= MAX_VALUE)
}

/// The value that an estimate's byte says, if it says one.
fn known(byte: u8) -> Option<u8> {
    (byte != UNKNOWN_VALUE).then_some(byte)
}

/// What an offer gives, from the variables and values of the GOALs at work.
fn offer_of(variables: usize, goals: &[(usize, u8)]) -> Offer {
    Offer {
        goals: (0..variables)
            .map(|variable| goal_byte(variable, goals))
            .collect(),
        named: lowest_contested(goals),
    }
}

/// No goal where no GOAL names the variable, the value where all agree, contested where two differ.
fn goal_byte(variable: usize, goals: &[(usize, u8)]) -> u8 {
    let mut values = goals
        .iter()
        .filter(|goal| goal.0 == variable)
        .map(|goal| goal.1);
    match values.next() {
        None => NO_GOAL,
        Some(first) if values.all(|value| value == first) => first,
        Some(_) => CONTESTED,
    }
}

/// The lowest variable to which two GOALs give different values.
fn lowest_contested(goals: &[(usize, u8)]) -> Option<u8> {
    let is_contested = |&&(variable, value): &&(usize, u8)| {
        goals
            .iter()
            .any(|goal| goal.0 == variable && goal.1 != value)
    };
    let contested = goals.iter().filter(is_contested);
    contested.map(|goal| goal.0 as u8).min()
}

//! A plain executive over the location table, with the answers and buffers of the C interface.
//!
//! It is written from document 01's "Location table", "Run record" and "One cycle over the table" and
//! from document 02's, in the order of their sentences and with nothing proved:
//! slices, loops and local arrays, as one would write it for a board. The tests of the library run on
//! it too, and `bin/performance` compares the library's cost with its cost.

mod program;
mod table;

use crate::answers::{self, ANSWERED, CONTESTED, DONE, NO_GOAL, NO_VARIABLE};
use crate::parts::{
    AT_LEAST, CHOICE, DIFFERS, EQUALS, GOAL, MAINTAIN, PAR, REPEAT, SEQ, START, WAIT,
};
use crate::record::{
    start_place, ESTIMATE, FINISHED, MARKS, OFFERED, PHASE, RECORD_LEN, STARTED, TIME, WAITING,
};
use crate::refusals::{
    BUFFER_TOO_SHORT, ESTIMATE_NOT_ALLOWED, NOTHING_AT_WORK, NOT_A_TABLE, RECORD_NOT_ALLOWED,
    RUN_FINISHED, TIME_BEFORE_LAST, WRONG_PHASE,
};
use crate::sizes::{
    MAX_CLOCKS, MAX_PARTS, MAX_VALUE, MAX_VARIABLES, NO_PART, TIME_LEN, UNKNOWN_VALUE,
};
use table::Table;

pub use table::{compile, decompile};

/// A record without further bytes.
type Record = [u8; RECORD_LEN];

/// The marks of all the parts that a program can have.
type Marks = [u8; MAX_PARTS];

/// Begins a run: `DONE`, or the refusal.
pub fn begin(table: &[u8], estimate: &[u8], record: &mut [u8]) -> u32 {
    let Some(table) = Table::read(table) else {
        return NOT_A_TABLE;
    };
    if !estimate_allowed(estimate, &table) {
        return ESTIMATE_NOT_ALLOWED;
    }
    let Some(record) = record.first_chunk_mut::<RECORD_LEN>() else {
        return BUFFER_TOO_SHORT;
    };
    record.fill(0);
    record[ESTIMATE..ESTIMATE + estimate.len()].copy_from_slice(estimate);
    table.initialise(0, &mut record[MARKS..]);
    DONE
}

/// Offers the goals of a cycle: the refusal, or `ANSWERED` and the lowest contested variable.
pub fn offer(table: &[u8], record: &mut [u8], time: u32, goals: &mut [u8]) -> u32 {
    let (table, record) = match examine(table, record, WAITING) {
        Ok(run) => run,
        Err(refusal) => return refusal,
    };
    if time < time_at(record, TIME) {
        return TIME_BEFORE_LAST;
    }
    let Some(goals) = goals.get_mut(..table.sizes.variables) else {
        return BUFFER_TOO_SHORT;
    };
    record[PHASE] = OFFERED;
    record[TIME..TIME + TIME_LEN].copy_from_slice(&time.to_le_bytes());
    table.write_goals(record, goals);
    let contested = goals.iter().position(|&byte| byte == CONTESTED);
    let named = contested.map_or(NO_VARIABLE, |variable| variable as u8);
    ANSWERED + u32::from(named)
}

/// Settles a cycle: the refusal, or whether the run goes on (`RUNNING`, `FINISHED`).
pub fn settle(table: &[u8], record: &mut [u8], estimate: &[u8]) -> u32 {
    let (table, record) = match examine(table, record, OFFERED) {
        Ok(run) => run,
        Err(refusal) => return refusal,
    };
    if !estimate_allowed(estimate, &table) {
        return ESTIMATE_NOT_ALLOWED;
    }
    let after = table.marks_after(record, estimate);
    let finished = after[0] == 0;
    if !finished && !table.goes_on(&after) {
        return NOTHING_AT_WORK;
    }
    table.start_clocks(record);
    record[PHASE] = if finished { FINISHED } else { WAITING };
    record[ESTIMATE..ESTIMATE + estimate.len()].copy_from_slice(estimate);
    record[MARKS..].copy_from_slice(&after);
    if finished {
        answers::FINISHED
    } else {
        answers::RUNNING
    }
}

/// The table and the record of a run that goes on and is in this phase, or the refusal: the tests
/// that an offer and a settling begin with.
fn examine<'a, 'b>(
    table: &'a [u8],
    record: &'b mut [u8],
    phase: u8,
) -> Result<(Table<'a>, &'b mut Record), u32> {
    let table = Table::read(table).ok_or(NOT_A_TABLE)?;
    let record = record.first_chunk_mut().ok_or(RECORD_NOT_ALLOWED)?;
    if !record_allowed(record, &table) {
        return Err(RECORD_NOT_ALLOWED);
    }
    if record[PHASE] == FINISHED {
        return Err(RUN_FINISHED);
    }
    if record[PHASE] != phase {
        return Err(WRONG_PHASE);
    }
    Ok((table, record))
}

/// What a condition comes to.
#[derive(Clone, Copy, PartialEq, Eq)]
enum Outcome {
    Satisfied,
    Violated,
    /// Over an unknown variable or an unstarted clock.
    Open,
}

impl Table<'_> {
    /// Marks a part in which nothing is marked, and what begins with it inside.
    fn initialise(&self, first: usize, marks: &mut [u8]) {
        marks[first] = 1;
        for part in first + 1..self.end(first) {
            let parent = self.parent(part);
            let begins = match self.kind(parent) {
                SEQ => part == parent + 1,
                CHOICE => false,
                _ => true,
            };
            marks[part] = marks[parent] & u8::from(begins);
        }
    }

    /// Whether nothing is marked inside a part.
    fn hollow(&self, part: usize, marks: &[u8]) -> bool {
        all_zero(&marks[part + 1..self.end(part)])
    }

    /// What a part's condition comes to by this estimate and the record's time and clocks.
    fn outcome(&self, part: usize, record: &Record, estimate: &[u8]) -> Outcome {
        let [b0, b1, b2, b3] = self.operand(part);
        let subject = usize::from(b1);
        let value = u16::from_le_bytes([b2, b3]);
        let holds = match b0 {
            EQUALS | DIFFERS if estimate[subject] == UNKNOWN_VALUE => return Outcome::Open,
            EQUALS => u16::from(estimate[subject]) == value,
            DIFFERS => u16::from(estimate[subject]) != value,
            _ if record[STARTED + subject] == 0 => return Outcome::Open,
            AT_LEAST => reading(record, subject) >= u32::from(value),
            _ => reading(record, subject) < u32::from(value),
        };
        if holds {
            Outcome::Satisfied
        } else {
            Outcome::Violated
        }
    }

    /// From the root down, a marked MAINTAIN whose condition is violated loses every mark inside; the
    /// marked GOALs that are left give the goal bytes.
    fn write_goals(&self, record: &mut Record, goals: &mut [u8]) {
        goals.fill(NO_GOAL);
        for part in 0..self.sizes.parts {
            if record[MARKS + part] == 0 {
                continue;
            }
            match self.kind(part) {
                MAINTAIN => {
                    let estimate = &record[ESTIMATE..STARTED];
                    if self.outcome(part, record, estimate) == Outcome::Violated {
                        record[MARKS + part + 1..MARKS + self.end(part)].fill(0);
                    }
                }
                GOAL => {
                    let [_, variable, value, _] = self.operand(part);
                    let byte = &mut goals[usize::from(variable)];
                    let first_or_same = *byte == NO_GOAL || *byte == value;
                    *byte = if first_or_same { value } else { CONTESTED };
                }
                _ => {}
            }
        }
    }

    /// The marks after a settling. What is inside a part is settled before it, so the parts go from
    /// the last to the first; only those marked before are judged.
    fn marks_after(&self, record: &Record, estimate: &[u8]) -> Marks {
        let before = marks_in(record);
        let mut after = *before;
        for part in (0..self.sizes.parts).rev() {
            if before[part] == 0 {
                continue;
            }
            let ends = match self.kind(part) {
                GOAL => self.achieved(part, estimate),
                START => true,
                WAIT => self.outcome(part, record, estimate) == Outcome::Satisfied,
                CHOICE if self.hollow(part, before) => {
                    let branch = self.chosen(part, record, estimate);
                    self.initialise(branch, &mut after);
                    false
                }
                _ => self.hollow(part, &after),
            };
            if ends {
                after[part] = 0;
                if self.next(part) != NO_PART {
                    self.initialise(self.next(part), &mut after);
                }
            }
        }
        after
    }

    /// Whether a GOAL's variable has its value. One that is unknown has none that a GOAL can name.
    fn achieved(&self, goal: usize, estimate: &[u8]) -> bool {
        let [_, variable, value, _] = self.operand(goal);
        estimate[usize::from(variable)] == value
    }

    /// The branch that a deciding CHOICE takes.
    fn chosen(&self, choice: usize, record: &Record, estimate: &[u8]) -> usize {
        match self.outcome(choice, record, estimate) {
            Outcome::Satisfied => choice + 1,
            _ => self.end(choice + 1),
        }
    }

    /// Whether some leaf is marked, or some CHOICE is deciding.
    fn goes_on(&self, marks: &Marks) -> bool {
        (0..self.sizes.parts).any(|part| {
            let live = match self.kind(part) {
                GOAL | START | WAIT => true,
                CHOICE => self.hollow(part, marks),
                _ => false,
            };
            marks[part] == 1 && live
        })
    }

    /// Every marked START sets its clock to the cycle's time.
    fn start_clocks(&self, record: &mut Record) {
        let time = time_at(record, TIME);
        for part in 0..self.sizes.parts {
            if record[MARKS + part] == 0 || self.kind(part) != START {
                continue;
            }
            let clock = usize::from(self.operand(part)[1]);
            let place = start_place(clock);
            record[STARTED + clock] = 1;
            record[place..place + TIME_LEN].copy_from_slice(&time.to_le_bytes());
        }
    }

    /// Whether the marks of a run in this phase are such as the paper allows. From the last part to
    /// the first, the marked children of a part have been counted when it is looked at.
    fn marks_allowed(&self, phase: u8, marks: &Marks) -> bool {
        let (marks, beyond) = marks.split_at(self.sizes.parts);
        if !all_zero(beyond) {
            return false;
        }
        if phase == FINISHED {
            return all_zero(marks);
        }
        let mut counts = [0; MAX_PARTS];
        for (part, &mark) in marks.iter().enumerate().rev() {
            if mark == 0 {
                continue;
            }
            if mark > 1 || !count_allowed(self.kind(part), counts[part], phase) {
                return false;
            }
            if part > 0 {
                let parent = self.parent(part);
                if marks[parent] == 0 {
                    return false;
                }
                counts[parent] += 1;
            }
        }
        marks[0] == 1
    }
}

/// Whether a marked part of this kind may have so many marked children.
fn count_allowed(kind: u8, count: u16, phase: u8) -> bool {
    match kind {
        SEQ | REPEAT => count == 1,
        PAR => count >= 1,
        CHOICE => count <= 1,
        MAINTAIN => count == 1 || phase == OFFERED,
        _ => true,
    }
}

fn estimate_allowed(estimate: &[u8], table: &Table) -> bool {
    estimate.len() == table.sizes.variables && values_allowed(estimate)
}

/// Whether each of these bytes of an estimate is a value, or says that the variable is unknown.
fn values_allowed(values: &[u8]) -> bool {
    values
        .iter()
        .all(|&value| u16::from(value) <= MAX_VALUE || value == UNKNOWN_VALUE)
}

fn record_allowed(record: &Record, table: &Table) -> bool {
    let estimate = &record[ESTIMATE..ESTIMATE + MAX_VARIABLES];
    let (values, beyond) = estimate.split_at(table.sizes.variables);
    record[PHASE] <= FINISHED
        && values_allowed(values)
        && all_zero(beyond)
        && (0..MAX_CLOCKS).all(|clock| clock_allowed(record, table, clock))
        && table.marks_allowed(record[PHASE], marks_in(record))
}

fn clock_allowed(record: &Record, table: &Table, clock: usize) -> bool {
    let start = time_at(record, start_place(clock));
    match record[STARTED + clock] {
        0 => start == 0,
        1 => clock < table.sizes.clocks && start <= time_at(record, TIME),
        _ => false,
    }
}

/// What a started clock reads.
fn reading(record: &Record, clock: usize) -> u32 {
    time_at(record, TIME) - time_at(record, start_place(clock))
}

fn time_at(record: &Record, place: usize) -> u32 {
    let [b0, b1, b2, b3] = record[place..place + TIME_LEN] else {
        unreachable!("a time has four bytes");
    };
    u32::from_le_bytes([b0, b1, b2, b3])
}

fn marks_in(record: &Record) -> &Marks {
    record.last_chunk().expect("a record ends with the marks")
}

fn all_zero(bytes: &[u8]) -> bool {
    bytes.iter().all(|&byte| byte == 0)
}

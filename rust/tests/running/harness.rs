//! Calls of an executive that are compared with the unfolding in every byte.

use std::ops::Range;

use gurvoke::answers::{self, ANSWERED, DONE, NO_VARIABLE};
use gurvoke::executive::Executive;
use gurvoke::hex::hex;
use gurvoke::lent::Lent;
use gurvoke::model;
use gurvoke::record::{Phase, FINISHED, MARKS, PHASE, RECORD_LEN, STARTED, STARTS};
use gurvoke::refusals::BUFFER_TOO_SHORT;
use gurvoke::rng::Rng;
use gurvoke::runs::Call;
use gurvoke::sizes::{MAX_CLOCKS, MAX_VALUE, MAX_VARIABLES, TIME_LEN, UNKNOWN_VALUE};
use gurvoke::unfolding::{Offer, Program, Progress, Run};

/// The last variable of a program with as many as allowed.
pub const LAST_VARIABLE: u8 = MAX_VARIABLES as u8 - 1;

/// The bytes that no estimate has: they are no values, and none of them says that a variable is
/// unknown.
pub const NO_VALUES: Range<u8> = MAX_VALUE as u8 + 1..UNKNOWN_VALUE;

/// The table of an accepted file.
pub fn table_of(file: &[u8]) -> Vec<u8> {
    model::read(file).expect("an accepted file").table()
}

/// What an executive answers to a call of a run.
#[derive(Clone, Debug, PartialEq, Eq)]
pub enum Given {
    Refused(u32),
    Offered(Offer),
    Settled(Progress),
}

/// An executive with a program's table and a record, and what has been called so far.
#[derive(Clone)]
pub struct Board {
    executive: &'static Executive,
    pub table: Lent,
    pub record: Lent,
    calls: Vec<Call>,
    settlings: u64,
    finishing_cycle: Option<u64>,
}

impl Board {
    /// Lends the table of this file, and a record of so many bytes that hold anything.
    pub fn new(
        rng: &mut Rng,
        executive: &'static Executive,
        file: &[u8],
        record_len: usize,
    ) -> Board {
        let filling = rng.bytes(record_len);
        Board::holding(rng, executive, &table_of(file), &filling)
    }

    /// Lends this table and this record.
    pub fn holding(
        rng: &mut Rng,
        executive: &'static Executive,
        table: &[u8],
        record: &[u8],
    ) -> Board {
        Board {
            executive,
            table: Lent::new(rng, table),
            record: Lent::new(rng, record),
            calls: Vec::new(),
            settlings: 0,
            finishing_cycle: None,
        }
    }

    /// Begins a run and compares: the unfolding of `program` begins with the same estimate, but for
    /// a record that is too short, which it does not have.
    pub fn begin<'a>(
        &mut self,
        rng: &mut Rng,
        program: &'a Program,
        first: &[u8],
    ) -> Result<Run<'a>, u32> {
        let wanted = match Run::begin(program, first) {
            Ok(_) if self.record.content().len() < RECORD_LEN => Err(BUFFER_TOO_SHORT),
            begun => begun,
        };
        let estimate = Lent::new(rng, first);
        let answer = (self.executive.begin)(
            self.table.content(),
            estimate.content(),
            self.record.content_mut(),
        );
        self.calls.clear();
        self.settlings = 0;
        self.finishing_cycle = None;
        if let Ok(run) = &wanted {
            self.record.expect(&run.record());
        }
        let number = wanted.as_ref().err().copied().unwrap_or(DONE);
        assert_eq!(answer, number, "begin with {first:?}: {}", self.case());
        self.assert_lent(&[&estimate]);
        wanted
    }

    /// Makes a call and compares answer, goals and all of the record with the unfolding.
    pub fn call(&mut self, rng: &mut Rng, run: &mut Run, call: &Call) -> Given {
        self.calls.push(call.clone());
        match call {
            Call::Offer { time, room } => {
                let wanted = run.offer(*time, *room);
                self.offer(rng, run, call, wanted)
            }
            Call::Settle { estimate } => {
                let wanted = run.settle(estimate);
                self.settle(rng, run, call, wanted)
            }
        }
    }

    fn offer(
        &mut self,
        rng: &mut Rng,
        run: &mut Run,
        call: &Call,
        wanted: Result<Offer, u32>,
    ) -> Given {
        let (answer, mut goals) = self.make(rng, call);
        self.record.expect(&run.record());
        let number = match &wanted {
            Err(number) => *number,
            Ok(offer) => {
                goals.expect(&offer.goals);
                ANSWERED + u32::from(offer.named.unwrap_or(NO_VARIABLE))
            }
        };
        assert_eq!(answer, number, "{}", self.case());
        self.assert_lent(&[&goals]);
        wanted.map_or_else(Given::Refused, Given::Offered)
    }

    fn settle(
        &mut self,
        rng: &mut Rng,
        run: &mut Run,
        call: &Call,
        wanted: Result<Progress, u32>,
    ) -> Given {
        let (answer, estimate) = self.make(rng, call);
        self.record.expect(&run.record());
        let number = match wanted {
            Err(number) => number,
            Ok(Progress::Running) => answers::RUNNING,
            Ok(Progress::Finished) => answers::FINISHED,
        };
        assert_eq!(answer, number, "{}", self.case());
        self.assert_lent(&[&estimate]);
        self.count_settling(answer);
        assert_eq!(self.finishing_cycle, run.finishing_cycle, "{}", self.case());
        wanted.map_or_else(Given::Refused, Given::Settled)
    }

    /// Counts the executive's own cycles, by its own answers and record.
    fn count_settling(&mut self, answer: u32) {
        if answer < ANSWERED {
            return;
        }
        self.settlings += 1;
        if self.record.content()[PHASE] == FINISHED {
            self.finishing_cycle.get_or_insert(self.settlings);
        }
    }

    /// All that was lent holds what it should, the table and the record too.
    fn assert_lent(&self, others: &[&Lent]) {
        assert!(self.table.is_as_expected(), "table: {}", self.case());
        assert!(
            self.record.is_as_expected(),
            "record or a byte beside it: {} {}",
            self.record.differences(),
            self.case()
        );
        for other in others {
            assert!(
                other.is_as_expected(),
                "goals or estimate, or a byte beside it: {} {}",
                other.differences(),
                self.case()
            );
        }
    }

    /// Makes a call that must get this refusal and change nothing lent.
    pub fn assert_refused(&mut self, rng: &mut Rng, call: &Call, number: u32) {
        self.calls.push(call.clone());
        let (answer, other) = self.make(rng, call);
        assert_eq!(answer, number, "{}", self.case());
        self.assert_lent(&[&other]);
    }

    /// Makes a call and compares nothing. Gives the answer, and the goals or the estimate lent.
    pub fn make(&mut self, rng: &mut Rng, call: &Call) -> (u32, Lent) {
        let table = self.table.content();
        let record = self.record.content_mut();
        match call {
            Call::Offer { time, room } => {
                let filling = rng.bytes(*room);
                let mut goals = Lent::new(rng, &filling);
                let answer = (self.executive.offer)(table, record, *time, goals.content_mut());
                (answer, goals)
            }
            Call::Settle { estimate } => {
                let estimate = Lent::new(rng, estimate);
                let answer = (self.executive.settle)(table, record, estimate.content());
                (answer, estimate)
            }
        }
    }

    /// What to say about a failure.
    pub fn case(&self) -> String {
        format!(
            "{} with table {} after {:?}",
            self.executive.name,
            hex(self.table.content()),
            self.calls
        )
    }
}

/// Whether a run is finished.
pub fn is_over(run: &Run) -> bool {
    run.phase == Phase::Finished
}

/// A run of one program that a test steps by hand, compared with the unfolding all the while.
pub struct SteppedRun<'a> {
    rng: Rng,
    pub board: Board,
    pub run: Run<'a>,
}

/// Runs a program on every executive, from this first estimate and by these steps.
pub fn step_through(file: &[u8], first: &[u8], steps: impl Fn(&mut SteppedRun)) {
    let program = Program::read(file).expect("an accepted file");
    for &executive in gurvoke::executive::ALL {
        let mut rng = Rng::new(1);
        let mut board = Board::new(&mut rng, executive, file, RECORD_LEN + 3);
        let run = board
            .begin(&mut rng, &program, first)
            .expect("an allowed estimate");
        steps(&mut SteppedRun { rng, board, run });
    }
}

impl SteppedRun<'_> {
    /// Offers at this time; the goal bytes must be these, and no variable be named.
    pub fn offer(&mut self, time: u32, goals: &[u8]) {
        self.offer_that_names(None, time, goals);
    }

    /// Offers at this time; the goal bytes must be these, and this variable be named.
    pub fn offer_naming(&mut self, variable: u8, time: u32, goals: &[u8]) {
        self.offer_that_names(Some(variable), time, goals);
    }

    fn offer_that_names(&mut self, named: Option<u8>, time: u32, goals: &[u8]) {
        let room = goals.len();
        let given = self.call(Call::Offer { time, room });
        let goals = goals.to_vec();
        let wanted = Given::Offered(Offer { goals, named });
        assert_eq!(given, wanted, "{}", self.board.case());
    }

    /// Settles with this estimate; the run must go on.
    pub fn runs_on(&mut self, estimate: &[u8]) {
        self.settle(estimate, Progress::Running);
    }

    /// Settles with this estimate; the run must finish.
    pub fn finishes(&mut self, estimate: &[u8]) {
        self.settle(estimate, Progress::Finished);
    }

    fn settle(&mut self, estimate: &[u8], progress: Progress) {
        let given = self.call(Call::Settle {
            estimate: estimate.to_vec(),
        });
        assert_eq!(given, Given::Settled(progress), "{}", self.board.case());
    }

    /// The call must get this refusal.
    pub fn refused(&mut self, call: Call, number: u32) {
        let given = self.call(call);
        assert_eq!(given, Given::Refused(number), "{}", self.board.case());
    }

    fn call(&mut self, call: Call) -> Given {
        self.board.call(&mut self.rng, &mut self.run, &call)
    }

    /// Makes a call that must be accepted.
    pub fn accepted(&mut self, call: Call) {
        let given = self.call(call);
        let refused = matches!(given, Given::Refused(_));
        assert!(!refused, "{given:?}: {}", self.board.case());
    }

    /// The record's bytes, without what stands behind them.
    pub fn record(&self) -> &[u8] {
        &self.board.record.content()[..RECORD_LEN]
    }
}

/// Expects that the first clocks were started at these times, the last start of each, and that no
/// other one is started.
pub fn assert_starts(run: &SteppedRun, starts: &[Option<u32>]) {
    let mut flags = [0; MAX_CLOCKS];
    let mut times = [0; MAX_CLOCKS * TIME_LEN];
    for (clock, start) in starts.iter().enumerate() {
        flags[clock] = u8::from(start.is_some());
        let bytes = start.unwrap_or(0).to_le_bytes();
        times[clock * TIME_LEN..][..TIME_LEN].copy_from_slice(&bytes);
    }
    let case = run.board.case();
    assert_eq!(run.record()[STARTED..STARTS], flags, "{case}");
    assert_eq!(run.record()[STARTS..MARKS], times, "{case}");
}

/// Expects that the first parts have these marks.
pub fn assert_marks<const PARTS: usize>(run: &SteppedRun, marks: [u8; PARTS]) {
    let case = run.board.case();
    assert_eq!(run.record()[MARKS..MARKS + PARTS], marks, "{case}");
}

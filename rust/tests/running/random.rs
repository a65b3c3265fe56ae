//! Random runs: every executive against the unfolding, call by call.

use gurvoke::answers::DONE;
use gurvoke::cases::Shape;
use gurvoke::counts::{assert_counts, named, Counts};
use gurvoke::executive::{Executive, ALL};
use gurvoke::hex::hex;
use gurvoke::model;
use gurvoke::record::RECORD_LEN;
use gurvoke::refusals::{BUFFER_TOO_SHORT, ESTIMATE_NOT_ALLOWED};
use gurvoke::rng::Rng;
use gurvoke::runs::{self, Caller, SilenceCounts, Silences};
use gurvoke::sizes::{MAX_DEPTH, MAX_PARTS};
use gurvoke::unfolding::{Program, Run};

use crate::harness::{is_over, Board, Given};
use crate::tally::Tally;

/// The first executive gets every run, each other one in this many.
const SHARE: usize = 10;

/// What the runs of one executive came to.
#[derive(Default)]
struct Seen {
    tally: Tally,
    runs: u64,
    finished: u64,
    /// Runs of programs with one part, with as many as allowed, and as deep as allowed.
    smallest: u64,
    largest: u64,
    deepest: u64,
    /// Runs that came to the last time there is.
    end_of_time: u64,
    /// Offers that found a MAINTAIN violated.
    violated: u64,
    /// Those of them in which a clock came due inside it, and with how many at three deep or more.
    doubtful: u64,
    doubtful_deep: u64,
    silences: SilenceCounts,
}

impl Seen {
    fn note_run(&mut self, file: &[u8], run: &Run) {
        let parts = run.program.sizes.parts;
        let depth = model::read(file).map_or(0, |program| program.root.depth());
        self.runs += 1;
        self.finished += u64::from(is_over(run));
        self.smallest += u64::from(parts == 1);
        self.largest += u64::from(parts == MAX_PARTS);
        self.deepest += u64::from(depth == MAX_DEPTH);
        self.end_of_time += u64::from(run.time == u32::MAX);
    }

    fn note_offer(&mut self, run: &Run) {
        let findings = runs::findings(run);
        self.violated += u64::from(findings.violated > 0);
        self.doubtful += u64::from(findings.doubtful > 0);
        self.doubtful_deep += u64::from(findings.doubtful >= runs::DEEP);
    }

    /// What was counted, as the list of counts names it.
    fn counts(&self) -> Counts {
        let own = named([
            ("runs", self.runs),
            ("runs that finish", self.finished),
            ("runs of one part", self.smallest),
            ("runs of most parts", self.largest),
            ("runs of greatest depth", self.deepest),
            ("runs to the last time", self.end_of_time),
            ("offers that find a MAINTAIN violated", self.violated),
            (
                "offers that find a MAINTAIN violated just as a clock comes due",
                self.doubtful,
            ),
            ("such offers three parts deep or more", self.doubtful_deep),
        ]);
        [own, self.silences.counts(), self.tally.counts()].concat()
    }
}

/// Runs so many programs on the first executive, and a share on each other one, and compares what
/// the first came to with the list of counts.
fn check_runs(test: &str, seed: u64, count: usize, program: impl Fn(&mut Rng) -> Vec<u8>) {
    check_runs_by(Caller::new, test, seed, count, program);
}

/// The same with the calls that such a caller makes.
fn check_runs_by(
    caller: fn(&mut Rng, &Program) -> Caller,
    test: &str,
    seed: u64,
    count: usize,
    program: impl Fn(&mut Rng) -> Vec<u8>,
) {
    for (place, &executive) in ALL.iter().enumerate() {
        let count = if place == 0 { count } else { count / SHARE };
        let mut rng = Rng::new(seed);
        let mut seen = Seen::default();
        for _ in 0..count {
            let file = program(&mut rng);
            check_run(&mut rng, &mut seen, executive, &file, caller);
        }
        assert_eq!(seen.runs, count as u64);
        if place == 0 {
            assert_counts(file!(), test, &seen.counts());
        }
    }
}

/// One run from its beginning.
fn check_run(
    rng: &mut Rng,
    seen: &mut Seen,
    executive: &'static Executive,
    file: &[u8],
    caller: fn(&mut Rng, &Program) -> Caller,
) {
    let program = Program::read(file).unwrap_or_else(|number| panic!("{number}: {}", hex(file)));
    let record_len = RECORD_LEN + rng.pick(&[0, 0, 1, 40]);
    let mut board = Board::new(rng, executive, file, record_len);
    if rng.one_in(4) {
        let estimate = runs::first_estimate(rng, &program);
        let estimate = runs::spoil(rng, estimate);
        _ = board.begin(rng, &program, &estimate);
    }
    let first = runs::first_estimate(rng, &program);
    let begun = board.begin(rng, &program, &first);
    let mut run = begun.expect("a record that is long enough");
    let mut caller = caller(rng, &program);
    let mut silences = Silences::default();
    let mut calls = rng.between(0, 50);
    while calls > 0 {
        let call = caller.next_call(rng, &run);
        let given = seen.tally.call(rng, (&mut board, &mut run), &call);
        if let Given::Offered(offer) = &given {
            caller.note_goals(&offer.goals);
            seen.note_offer(&run);
            silences.note_offer(&run, &mut seen.silences);
        }
        // Few calls are enough to see that a run is over.
        calls = if is_over(&run) { calls.min(4) } else { calls } - 1;
    }
    seen.note_run(file, &run);
    if rng.one_in(10) {
        // What a run has left in the record does not matter to the next beginning.
        let begun = board.begin(rng, &program, &first);
        assert!(begun.is_ok());
    }
}

/// Programs of any size and shape.
#[test]
fn any_programs() {
    check_runs("any_programs", 300, 50_000, runs::program);
}

/// Programs made for the buyer's doubtful cycles: a condition breaks just as a clock comes due.
#[test]
fn doubtful_programs() {
    check_runs("doubtful_programs", 304, 30_000, runs::doubtful_program);
}

/// Programs made for offers with several contested variables.
#[test]
fn contending_programs() {
    check_runs("contending_programs", 305, 20_000, runs::contending_program);
}

/// Programs made for clocks that are started again.
#[test]
fn restarting_programs() {
    check_runs("restarting_programs", 306, 20_000, runs::restarting_program);
}

/// Programs made for sensors that fall silent just as a condition would break and as a clock comes due,
/// and come back.
#[test]
fn silent_programs() {
    check_runs_by(
        Caller::falling_silent,
        "silent_programs",
        307,
        30_000,
        runs::silent_program,
    );
}

/// Small programs, in which a run comes to most places.
#[test]
fn small_programs() {
    check_runs("small_programs", 301, 40_000, |rng| {
        let parts = rng.between(4, 10);
        let depth = rng.between(2, 6);
        let shape = rng.pick(&[Shape::Deep, Shape::Mixed]);
        runs::program_of(rng, parts, depth, shape)
    });
}

/// As many parts as allowed, deep and wide.
#[test]
fn largest_programs() {
    check_runs("largest_programs", 302, 1500, |rng| {
        let shape = rng.pick(&[Shape::Deep, Shape::Wide, Shape::Mixed]);
        let parts = rng.between(MAX_PARTS - 1, MAX_PARTS);
        runs::program_of(rng, parts, MAX_DEPTH, shape)
    });
}

/// A beginning refuses an estimate that is not allowed before a record that is too short, and
/// writes nothing then.
#[test]
fn beginnings() {
    for &executive in ALL {
        let mut rng = Rng::new(303);
        let mut answers = [0; ESTIMATE_NOT_ALLOWED as usize + 1];
        for _ in 0..20_000 {
            let file = runs::program(&mut rng);
            let program = Program::read(&file).expect("a valid program");
            let any = rng.below(RECORD_LEN);
            let len = rng.pick(&[0, any, RECORD_LEN - 1, RECORD_LEN, RECORD_LEN + 9]);
            let mut board = Board::new(&mut rng, executive, &file, len);
            let estimate = runs::first_estimate(&mut rng, &program);
            let estimate = match rng.one_in(2) {
                true => runs::spoil(&mut rng, estimate),
                false => estimate,
            };
            let begun = board.begin(&mut rng, &program, &estimate);
            answers[begun.err().unwrap_or(DONE) as usize] += 1;
        }
        let [done, short, estimates] =
            [DONE, BUFFER_TOO_SHORT, ESTIMATE_NOT_ALLOWED].map(|answer| answers[answer as usize]);
        assert_eq!(done + short + estimates, 20_000);
        let counts = named([
            ("beginnings that are done", done),
            ("beginnings refused with 8", short),
            ("beginnings refused with 13", estimates),
        ]);
        assert_counts(file!(), "beginnings", &counts);
    }
}

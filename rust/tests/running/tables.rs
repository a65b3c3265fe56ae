//! Calls with bytes that are not the program's table.

use gurvoke::builder::{
    at_least, below, choice, differs, equals, file, goal, maintain, par, repeat, seq, start, wait,
};
use gurvoke::cases::Shape;
use gurvoke::counts::{assert_counts, named, Counts};
use gurvoke::examples::NO_TABLE;
use gurvoke::executive::{Executive, ALL, REFERENCE};
use gurvoke::hex::hex;
use gurvoke::lent::Lent;
use gurvoke::model;
use gurvoke::record::RECORD_LEN;
use gurvoke::refusals::NOT_A_TABLE;
use gurvoke::rng::Rng;
use gurvoke::runs::{self, Call};
use gurvoke::sizes::{Sizes, MAX_DEPTH, MAX_PARTS};
use gurvoke::stations::STATION_10;
use gurvoke::unfolding::{Program, Run};

use crate::harness::{table_of, Board, NO_VALUES};

/// A program with every kind, a PAR and a CHOICE with different branches among them.
fn each_kind() -> Vec<u8> {
    let branch = seq(vec![goal(1, 3), wait(below(0, 700))]);
    let root = par(vec![
        maintain(differs(0, 2), seq(vec![goal(0, 1), wait(equals(1, 1))])),
        choice(at_least(0, 1), branch, start(0)),
        repeat(seq(vec![start(1), par(vec![goal(1, 4), goal(1, 4)])])),
    ]);
    file(2, 2, &root)
}

/// A program that begins with two contested variables.
fn contending_goals() -> Vec<u8> {
    let goals = [(2, 1), (2, 2), (1, 1), (1, 2), (0, 1)];
    let goals = goals.map(|(variable, value)| goal(variable, value));
    file(3, 0, &par(goals.to_vec()))
}

/// The records of a run that waits for an offer and of one that waits for a settling.
fn two_records(program: &Program) -> [Vec<u8>; 2] {
    let estimate = vec![0; program.sizes.variables];
    let mut run = Run::begin(program, &estimate).expect("an allowed estimate");
    let fresh = run.record();
    let offer = run.offer(3, program.sizes.variables);
    assert!(offer.is_ok());
    [fresh, run.record()]
}

/// What a call answers, and the bytes of the record and of the other buffer after it.
type Outcome = (u32, Vec<u8>, Vec<u8>);

/// The three calls with this table, each as it would be made in a run of `program`; bytes beside
/// what is lent must stay.
fn three_calls(executive: &'static Executive, table: &[u8], program: &Program) -> [Outcome; 3] {
    let [fresh, offered] = two_records(program);
    let room = program.sizes.variables;
    let estimate = vec![0; room];
    let begun = begin(executive, table, &estimate, &[0x5A; RECORD_LEN]);
    let offer = call(executive, table, &fresh, Call::Offer { time: 3, room });
    let settling = call(executive, table, &offered, Call::Settle { estimate });
    [begun, offer, settling]
}

fn begin(executive: &Executive, table: &[u8], estimate: &[u8], record: &[u8]) -> Outcome {
    let mut rng = Rng::new(500);
    let table = Lent::new(&mut rng, table);
    let estimate = Lent::new(&mut rng, estimate);
    let mut record = Lent::new(&mut rng, record);
    let answer = (executive.begin)(table.content(), estimate.content(), record.content_mut());
    let after = record.content().to_vec();
    record.expect(&after);
    let beside = table.is_as_expected() && estimate.is_as_expected() && record.is_as_expected();
    assert!(beside, "{}: {}", executive.name, hex(table.content()));
    (answer, after, Vec::new())
}

fn call(executive: &'static Executive, table: &[u8], record: &[u8], call: Call) -> Outcome {
    // The same goal bytes before every call, so that outcomes can be compared.
    let mut rng = Rng::new(501);
    let mut board = Board::holding(&mut rng, executive, table, record);
    let (answer, mut other) = board.make(&mut rng, &call);
    let record = board.record.content().to_vec();
    let others = other.content().to_vec();
    board.record.expect(&record);
    other.expect(&others);
    let beside = [&board.table, &board.record, &other];
    assert!(
        beside.iter().all(|lent| lent.is_as_expected()),
        "{}",
        board.case()
    );
    (answer, record, others)
}

/// A call with bytes that are no table is refused with 9 and changes nothing.
fn assert_no_table(executive: &'static Executive, table: &[u8], program: &Program) {
    let [fresh, offered] = two_records(program);
    let [begun, offer, settling] = three_calls(executive, table, program);
    let case = || format!("{}: {}", executive.name, hex(table));
    assert_eq!(
        (begun.0, &begun.1[..]),
        (NOT_A_TABLE, &[0x5A; RECORD_LEN][..]),
        "{}",
        case()
    );
    assert_eq!((offer.0, offer.1), (NOT_A_TABLE, fresh), "{}", case());
    assert_eq!(
        (settling.0, settling.1),
        (NOT_A_TABLE, offered),
        "{}",
        case()
    );
    assert_eq!(offer.2, untouched_goals(program), "{}", case());
}

/// The goal bytes that `call` lends, before the call.
fn untouched_goals(program: &Program) -> Vec<u8> {
    let room = program.sizes.variables;
    let offer = Call::Offer { time: 0, room };
    call(&REFERENCE, &[], &[], offer).2
}

/// Whether the bytes are the table of some file.
fn is_table(table: &[u8]) -> bool {
    let mut file = vec![0; table.len()];
    model::decompile(table, &mut file).is_ok()
}

/// How many tables with one byte changed were tried, and how many of them are tables all the same.
#[derive(Default)]
struct Changed {
    all: u64,
    tables: u64,
}

impl Changed {
    fn note(&mut self, table: &[u8]) {
        self.all += 1;
        self.tables += u64::from(is_table(table));
    }

    /// What was counted, as the list of counts names it.
    fn counts(&self) -> Counts {
        let refused = self.all - self.tables;
        named([
            ("tables with one byte changed", self.all),
            ("tables with one byte changed that are refused", refused),
        ])
    }
}

/// Every byte of the table of this file changed to every other value. Bytes that are no table get
/// 9; the table of another file gets what that file's run would give.
fn check_each_byte(seen: &mut Changed, file: &[u8], values: &[u8]) {
    let program = Program::read(file).expect("a valid program");
    let right = table_of(file);
    for place in 0..right.len() {
        for &value in values.iter().filter(|&&value| value != right[place]) {
            let mut table = right.clone();
            table[place] = value;
            seen.note(&table);
            for &executive in ALL {
                if !is_table(&table) {
                    assert_no_table(executive, &table, &program);
                    continue;
                }
                let outcomes = three_calls(executive, &table, &program);
                assert!(outcomes.iter().all(|outcome| outcome.0 != NOT_A_TABLE));
                check_begin(executive, &table, &program);
                assert_alike(executive, &table, &outcomes, &program);
            }
        }
    }
}

/// With the table of another file, an executive does what the plain one in Rust does.
fn assert_alike(executive: &Executive, table: &[u8], outcomes: &[Outcome; 3], program: &Program) {
    let plain = three_calls(&REFERENCE, table, program);
    assert_eq!(*outcomes, plain, "{}: {}", executive.name, hex(table));
}

/// A beginning with the table of another file is a beginning of that file's program.
fn check_begin(executive: &'static Executive, table: &[u8], program: &Program) {
    let mut rng = Rng::new(502);
    let mut file = vec![0; Sizes::read(table).expect("sizes").file_len()];
    model::decompile(table, &mut file).expect("the table of a file");
    let other = Program::read(&file).expect("a valid program");
    let mut board = Board::new(&mut rng, executive, &file, RECORD_LEN);
    assert_eq!(board.table.content(), table);
    let estimate = vec![0; program.sizes.variables];
    let begun = board.begin(&mut rng, &other, &estimate);
    let fits = other.sizes.variables == program.sizes.variables;
    assert_eq!(begun.is_ok(), fits);
}

#[test]
fn every_byte_of_small_tables() {
    let values: Vec<u8> = (0..=255).collect();
    let mut seen = Changed::default();
    check_each_byte(&mut seen, &STATION_10, &values);
    check_each_byte(&mut seen, &each_kind(), &values);
    check_each_byte(&mut seen, &contending_goals(), &values);
    assert_counts(file!(), "every_byte_of_small_tables", &seen.counts());
}

#[test]
fn every_byte_of_large_tables() {
    let mut rng = Rng::new(503);
    let mut seen = Changed::default();
    for shape in [Shape::Deep, Shape::Wide, Shape::Mixed] {
        let file = runs::program_of(&mut rng, MAX_PARTS, MAX_DEPTH, shape);
        let right = table_of(&file);
        let program = Program::read(&file).expect("a valid program");
        for place in 0..right.len() {
            let mut table = right.clone();
            table[place] ^= 1 << rng.below(8);
            seen.note(&table);
            if !is_table(&table) {
                for &executive in ALL {
                    assert_no_table(executive, &table, &program);
                }
            }
        }
    }
    assert_counts(file!(), "every_byte_of_large_tables", &seen.counts());
}

/// A table has exactly its length.
#[test]
fn tables_cut_short_or_longer() {
    for file in [STATION_10.to_vec(), each_kind()] {
        let program = Program::read(&file).expect("a valid program");
        let right = table_of(&file);
        let mut longer = right.clone();
        longer.push(0);
        for &executive in ALL {
            assert_no_table(executive, &longer, &program);
            for len in 0..right.len() {
                assert_no_table(executive, &right[..len], &program);
            }
        }
    }
}

/// 9 comes before every other refusal: all else is wrong here too.
#[test]
fn no_table_comes_first() {
    let short = [7; RECORD_LEN - 1];
    for &executive in ALL {
        let begun = begin(executive, &NO_TABLE, &[NO_VALUES.start, 0, 0], &short);
        assert_eq!((begun.0, &begun.1[..]), (NOT_A_TABLE, &short[..]));
        let offer = Call::Offer { time: 0, room: 0 };
        let estimate = vec![NO_VALUES.start];
        for wrong in [offer, Call::Settle { estimate }] {
            let outcome = call(executive, &NO_TABLE, &short, wrong);
            assert_eq!((outcome.0, &outcome.1[..]), (NOT_A_TABLE, &short[..]));
        }
    }
}

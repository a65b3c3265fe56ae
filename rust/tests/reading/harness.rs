//! Calls of the executives that are compared with the model in every byte.

use gurvoke::answers::DONE;
use gurvoke::counts::{named, Counts};
use gurvoke::executive::{Executive, ALL};
use gurvoke::hex::hex;
use gurvoke::lent::Lent;
use gurvoke::model;
use gurvoke::refusals::NOT_A_TABLE;
use gurvoke::rng::Rng;
use gurvoke::sizes::{Sizes, MAX_TABLE_LEN};

/// What a call answers.
pub type Answer = Result<(), u32>;

/// A call of an executive or of the model: input, output.
type Call = fn(&[u8], &mut [u8]) -> Answer;

/// Compares one reading of a file with the model, and gives the answer.
pub fn check_compile(rng: &mut Rng, file: &[u8], table_len: usize) -> Answer {
    check_call(rng, COMPILE, file, &[], table_len)
}

/// Compares one giving back of a table with the model, and gives the answer.
pub fn check_decompile(rng: &mut Rng, table: &[u8], file_len: usize) -> Answer {
    check_call(rng, DECOMPILE, table, &[], file_len)
}

/// As `check_compile`, for the first `len` bytes of a file that stands whole in memory.
pub fn check_compile_cut(rng: &mut Rng, file: &[u8], len: usize, table_len: usize) -> Answer {
    check_call(rng, COMPILE, &file[..len], &file[len..], table_len)
}

/// As `check_decompile`, for the first `len` bytes of a table that stands whole in memory.
pub fn check_decompile_cut(rng: &mut Rng, table: &[u8], len: usize, file_len: usize) -> Answer {
    check_call(rng, DECOMPILE, &table[..len], &table[len..], file_len)
}

/// An operation of the executives with its model.
struct Operation {
    name: &'static str,
    of: fn(&Executive) -> Call,
    model: Call,
}

const COMPILE: Operation = Operation {
    name: "compile",
    of: |executive| executive.compile,
    model: model::compile,
};

const DECOMPILE: Operation = Operation {
    name: "decompile",
    of: |executive| executive.decompile,
    model: model::decompile,
};

/// Makes one call on every executive and compares each with the model, in every byte.
fn check_call(
    rng: &mut Rng,
    operation: Operation,
    input: &[u8],
    behind: &[u8],
    output_len: usize,
) -> Answer {
    let lent_input = Lent::followed(rng, input, behind);
    let filling = rng.bytes(output_len);
    let lent_output = Lent::new(rng, &filling);

    let mut expected = filling;
    let wanted = (operation.model)(input, &mut expected);
    for executive in ALL {
        let mut lent_output = lent_output.clone();
        let answer = (operation.of)(executive)(lent_input.content(), lent_output.content_mut());
        let case = || {
            format!(
                "{}: {} of {} into {output_len} bytes",
                executive.name,
                operation.name,
                hex(input)
            )
        };
        assert_eq!(answer, wanted, "{}: answer (right: model)", case());
        assert!(lent_input.is_as_expected(), "{}: input changed", case());
        if answer.is_err() {
            let untouched = lent_output.is_as_expected();
            assert!(untouched, "{}: refused, but output changed", case());
        }
        lent_output.expect(&expected);
        assert!(
            lent_output.is_as_expected(),
            "{}: output is {} and should be {}, or a byte beside it changed",
            case(),
            hex(lent_output.content()),
            hex(&expected)
        );
    }
    wanted
}

/// Compares all that can be done with a file: reading it into output buffers of every
/// interesting length and, where it is accepted, giving it back.
pub fn check_file(rng: &mut Rng, tally: &mut Tally, file: &[u8]) -> Answer {
    let Ok(program) = model::read(file) else {
        return check_refused_file(rng, tally, file);
    };
    let table = program.table();
    for table_len in interesting_lengths(rng, table.len()) {
        tally.note(check_compile(rng, file, table_len));
    }
    for file_len in interesting_lengths(rng, file.len()) {
        tally.note(check_decompile(rng, &table, file_len));
    }
    check_round_trip(file);
    Ok(())
}

fn check_refused_file(rng: &mut Rng, tally: &mut Tally, file: &[u8]) -> Answer {
    let likely = Sizes::read(file).map_or(0, |sizes| sizes.table_len());
    let mut answer = Ok(());
    for table_len in [0, MAX_TABLE_LEN, likely] {
        answer = check_compile(rng, file, table_len);
        tally.note(answer);
    }
    answer
}

/// Compares giving a table back into output buffers of every interesting length.
pub fn check_table(rng: &mut Rng, tally: &mut Tally, table: &[u8]) -> Answer {
    let likely = Sizes::read(table).map_or(0, |sizes| sizes.file_len());
    let mut answer = Ok(());
    for file_len in interesting_lengths(rng, likely) {
        answer = check_decompile(rng, table, file_len);
        tally.note(answer);
    }
    answer
}

/// Reads an accepted file and gives it back, with no model between.
fn check_round_trip(file: &[u8]) {
    let sizes = Sizes::read(file).expect("an accepted file has its sizes");
    let mut table = vec![0; sizes.table_len()];
    let mut again = vec![0; file.len()];
    assert_eq!(gurvoke::compile(file, &mut table), Ok(()), "{}", hex(file));
    assert_eq!(
        gurvoke::decompile(&table, &mut again),
        Ok(()),
        "table {} of file {}",
        hex(&table),
        hex(file)
    );
    assert!(
        again == file,
        "file {} is given back as {}",
        hex(file),
        hex(&again)
    );
}

/// Lengths of an output buffer for `exact` bytes: none, one short, longer, exact.
fn interesting_lengths(rng: &mut Rng, exact: usize) -> [usize; 5] {
    let short = rng.below(exact + 1);
    let longer = exact + rng.between(1, 40);
    [0, short, exact.saturating_sub(1), longer, exact]
}

/// The last refusal that reading or giving back can get.
const LAST_REFUSAL: usize = NOT_A_TABLE as usize;

/// How often each answer was given.
#[derive(Default)]
pub struct Tally {
    counts: [u64; LAST_REFUSAL + 1],
}

impl Tally {
    pub fn note(&mut self, answer: Answer) {
        let number = answer.err().unwrap_or(DONE);
        self.counts[number as usize] += 1;
    }

    /// What was counted, as the list of counts names it.
    pub fn counts(&self) -> Counts {
        let mut counts = named([("calls", self.counts.iter().sum())]);
        for (answer, count) in self.counts.iter().enumerate() {
            counts.push((format!("answers {answer}"), *count));
        }
        counts
    }

    /// Fails unless the answer named was given exactly so often.
    pub fn require_exactly(&self, name: &str, answer: u32, count: u64) {
        assert_eq!(
            self.counts[answer as usize], count,
            "{name}: answer {answer}"
        );
    }
}

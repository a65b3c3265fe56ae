//! Calls of the library that are compared with the model in every byte.

use std::panic::resume_unwind;
use std::thread;

use gurvoke::answers::DONE;
use gurvoke::counts::{named, Counts};
use gurvoke::executive::{Executive, ALL};
use gurvoke::hex::hex;
use gurvoke::lent::Lent;
use gurvoke::model::{self, Program};
use gurvoke::parts::{Label, Part};
use gurvoke::refusals::NOT_A_TEXT;
use gurvoke::rng::Rng;
use gurvoke::sizes::MAX_FILE_LEN;
use gurvoke::text::{self, shown, Typed, MAX_TEXT_LEN};
use gurvoke::typing;

/// What a call answers.
pub type Answer = Result<(), u32>;

/// Compares one reading of a text with the model, and gives the answer.
pub fn check_text(rng: &mut Rng, text: &[u8], file_len: usize) -> Answer {
    check_call(rng, text, &[], file_len)
}

/// As `check_text`, for the first `len` bytes of a text that stands whole in memory.
pub fn check_cut(rng: &mut Rng, text: &[u8], len: usize, file_len: usize) -> Answer {
    check_call(rng, &text[..len], &text[len..], file_len)
}

/// Makes one call and compares it with the model, in every byte.
fn check_call(rng: &mut Rng, text: &[u8], behind: &[u8], file_len: usize) -> Answer {
    let lent_text = Lent::followed(rng, text, behind);
    let filling = rng.bytes(file_len);
    let mut lent_file = Lent::new(rng, &filling);

    let mut expected = filling;
    let wanted = text::write_file(text, &mut expected);
    let answer = typing::write_file(lent_text.content(), lent_file.content_mut());
    let case = || format!("{} into {file_len} bytes", shown(text));
    assert_eq!(answer, wanted, "{}: answer (right: model)", case());
    assert!(lent_text.is_as_expected(), "{}: text changed", case());
    if answer.is_err() {
        let untouched = lent_file.is_as_expected();
        assert!(untouched, "{}: refused, but file changed", case());
    }
    lent_file.expect(&expected);
    assert!(
        lent_file.is_as_expected(),
        "{}: {}",
        case(),
        lent_file.differences()
    );
    wanted
}

/// Compares all that can be done with a text: reading it into buffers of every interesting length
/// and, where it is accepted, all that can be done with its file.
pub fn check_all(rng: &mut Rng, tally: &mut Tally, text: &[u8]) -> Answer {
    let answer = match text::program(text) {
        Ok(program) => {
            for file_len in interesting_lengths(rng, program.sizes.file_len()) {
                tally.note(check_text(rng, text, file_len));
            }
            check_chain(text, &program);
            Ok(())
        }
        Err(refusal) => {
            for file_len in [0, rng.below(MAX_FILE_LEN), MAX_FILE_LEN] {
                tally.note(check_text(rng, text, file_len));
            }
            Err(refusal)
        }
    };
    tally.note_text(answer);
    answer
}

/// Lengths of a buffer for `exact` bytes: none, too short, one short, longer, exact.
fn interesting_lengths(rng: &mut Rng, exact: usize) -> [usize; 5] {
    [
        0,
        rng.below(exact),
        exact - 1,
        exact + rng.between(1, 40),
        exact,
    ]
}

/// Follows an accepted text from its file through every executive's table and back, with nothing of
/// the model's writing between. The file says the tree that the text says.
fn check_chain(text: &[u8], program: &Program) {
    let mut file = vec![0; program.sizes.file_len()];
    let case = shown(text);
    assert_eq!(typing::write_file(text, &mut file), Ok(()), "{case}");
    let read_back = model::read(&file);
    assert_eq!(read_back.as_ref(), Ok(program), "{case}: {}", hex(&file));
    let typed = text::read(text).expect("an accepted text fits the grammar");
    assert_eq!(typed.root, program.root, "{case}");
    assert!(no_lone_child(&typed.root), "{case}: SEQ or PAR of one");
    for executive in ALL {
        check_table(executive, &file, program, &case);
    }
}

/// Compiles the file of a text and decompiles its table.
fn check_table(executive: &Executive, file: &[u8], program: &Program, case: &str) {
    let name = executive.name;
    let mut table = vec![0; program.sizes.table_len()];
    let mut again = vec![0; file.len()];
    let compiled = (executive.compile)(file, &mut table);
    assert_eq!(compiled, Ok(()), "{name}: compile the file of {case}");
    assert!(table == program.table(), "{name}: table of {case}");
    let decompiled = (executive.decompile)(&table, &mut again);
    assert_eq!(decompiled, Ok(()), "{name}: decompile for {case}");
    assert!(again == file, "{name}: {case} is given back otherwise");
}

/// "A single step makes no SEQ or PAR."
fn no_lone_child(part: &Part) -> bool {
    let is_lone = matches!(
        part.label,
        Label::Seq { count: 1 } | Label::Par { count: 1 }
    );
    !is_lone && part.children.iter().all(no_lone_child)
}

/// Compares all that can be done with a text, which must get this answer where there is room for
/// any file.
pub fn expect(rng: &mut Rng, tally: &mut Tally, text: &[u8], expected: Answer) {
    let answer = check_all(rng, tally, text);
    assert_eq!(answer, expected, "{} (left: answer)", shown(text));
}

/// The same for a text that must be accepted and give the file of this program.
pub fn expect_program(rng: &mut Rng, tally: &mut Tally, text: &[u8], typed: &Typed) {
    expect(rng, tally, text, Ok(()));
    let mut file = vec![0; typed.sizes.file_len()];
    assert_eq!(typing::write_file(text, &mut file), Ok(()));
    assert_eq!(hex(&file), hex(&typed.file()), "{}", shown(text));
}

/// Stack for the deepest text. The library goes down some calls for each bracket, of which there
/// can be as many as bytes: this is 4 KiB for each.
const ROOM: usize = MAX_TEXT_LEN << 12;

/// Runs a test with room for the deepest text.
pub fn with_room(test: impl FnOnce() + Send + 'static) {
    let thread = thread::Builder::new().stack_size(ROOM).spawn(test);
    if let Err(panic) = thread.expect("a thread").join() {
        resume_unwind(panic);
    }
}

/// The last refusal that a text can get.
const LAST_REFUSAL: usize = NOT_A_TEXT as usize;

/// How often each answer was given.
#[derive(Default)]
pub struct Tally {
    answers: [u64; LAST_REFUSAL + 1],
    /// Of texts that were tried with several buffers, each with room for any file.
    accepted: u64,
    refused: u64,
}

impl Tally {
    pub fn note(&mut self, answer: Answer) {
        self.answers[number_of(answer)] += 1;
    }

    fn note_text(&mut self, answer: Answer) {
        match answer {
            Ok(()) => self.accepted += 1,
            Err(_) => self.refused += 1,
        }
    }

    /// What was counted, as the list of counts names it.
    pub fn counts(&self) -> Counts {
        let mut counts = named([("calls", self.answers.iter().sum())]);
        for (answer, count) in self.answers.iter().enumerate() {
            counts.push((format!("answers {answer}"), *count));
        }
        counts.extend(named([
            ("texts accepted", self.accepted),
            ("texts refused", self.refused),
        ]));
        counts
    }

    /// Fails unless each of these answers was given so often, and no other.
    pub fn require(&self, least: &[(u32, u64)]) {
        for (answer, &count) in self.answers.iter().enumerate() {
            let wanted = least.iter().find(|(number, _)| *number as usize == answer);
            match wanted {
                Some((_, least)) => assert!(count >= *least, "answer {answer}: {count} times"),
                None => assert_eq!(count, 0, "answer {answer}"),
            }
        }
    }
}

fn number_of(answer: Answer) -> usize {
    answer.err().unwrap_or(DONE) as usize
}

//! The program `assemble`, and `rehearse` on texts: the file that comes out, and what they say of a refused text.

use std::ffi::OsStr;
use std::fs;
use std::path::Path;
use std::process::{Command, Output, Stdio};

use gurvoke::counts::{assert_counts, named};
use gurvoke::programs::{path_of, Program, TemporaryFile};
use gurvoke::refusals::{NOT_A_TEXT, OPERAND_NOT_ALLOWED, SIZE_OUT_OF_RANGE, TOO_DEEP};
use gurvoke::rng::Rng;
use gurvoke::stations::{STATION_10, STATION_10_LISTING};
use gurvoke::text::cases::{damaged, spoilt, typed_program, with_damaged_signs};
use gurvoke::text::examples;
use gurvoke::text::printer::written;
use gurvoke::text::{file, is_text, line_and_column, read, shown, Outside, MAX_TEXT_LEN};

const REHEARSE: Program = Program::named("rehearse");

/// What a program prints with this text as its file, or on standard input where `named` is false.
fn printed(program: &str, text: &[u8], named: bool) -> Output {
    let file = TemporaryFile::holding(text);
    let mut command = Command::new(path_of(program));
    if named {
        command.arg(file.path()).stdin(Stdio::null());
    } else {
        command.stdin(fs::File::open(file.path()).expect("a file can be opened"));
    }
    command.output().expect("the program starts")
}

/// The file of a text, or the line that says why it is refused.
fn expected(text: &[u8]) -> Result<Vec<u8>, String> {
    file(text).map_err(|refusal| words(text, refusal))
}

fn words(text: &[u8], refusal: u32) -> String {
    let why = match refusal {
        SIZE_OUT_OF_RANGE => {
            "a size is out of range (1 to 200 parts, 1 to 32 variables, 0 to 16 clocks)".to_string()
        }
        OPERAND_NOT_ALLOWED => {
            "a variable, clock or value is not allowed (variables below V, clocks below K, values of variables up to 250)"
                .to_string()
        }
        TOO_DEEP => "a part stands more than 16 deep".to_string(),
        NOT_A_TEXT => outside(text),
        _ => panic!("no text gets {refusal}"),
    };
    format!("refused {refusal}: {why}\n")
}

fn outside(text: &[u8]) -> String {
    match read(text) {
        Err(Outside::TooLong) => format!("the text has more than {MAX_TEXT_LEN} bytes"),
        Err(Outside::At(place)) => {
            let (line, column) = line_and_column(text, place);
            format!("the text does not fit the grammar from line {line}, column {column} on")
        }
        Ok(_) => panic!("the text fits: {}", shown(text)),
    }
}

/// Expects the file or the words of the model; says which of them.
fn assert_assembled(text: &[u8], named: bool) -> bool {
    let output = printed("assemble", text, named);
    let error = String::from_utf8(output.stderr).expect("text on standard error");
    match expected(text) {
        Ok(file) => {
            assert_eq!(error, "", "{}", shown(text));
            assert_eq!(output.stdout, file, "{}", shown(text));
            true
        }
        Err(words) => {
            assert_eq!(error, words, "{}", shown(text));
            assert_eq!(output.stdout, b"", "{}", shown(text));
            false
        }
    }
}

#[test]
fn each_example() {
    for example in examples::all() {
        let accepted = assert_assembled(&example.text, true);
        assert_eq!(accepted, example.gives.is_ok(), "{example}");
    }
}

#[test]
fn random_texts() {
    let mut rng = Rng::new(360);
    let mut accepted = 0;
    let texts = 600;
    for number in 0..texts {
        let typed = typed_program(&mut rng);
        let text = match number % 4 {
            0 => written(&mut rng, &typed),
            1 => {
                let other = spoilt(&mut rng, typed);
                written(&mut rng, &other)
            }
            2 => {
                let whole = written(&mut rng, &typed);
                damaged(&mut rng, &whole)
            }
            _ => with_damaged_signs(&mut rng, &typed),
        };
        accepted += u64::from(assert_assembled(&text, number % 8 < 4));
    }
    let counts = named([
        ("random texts", texts),
        ("random texts that are accepted", accepted),
    ]);
    assert_counts(file!(), "random_texts", &counts);
}

/// All of the input counts, however long it is.
#[test]
fn longest_texts() {
    for len in [MAX_TEXT_LEN, MAX_TEXT_LEN + 1, MAX_TEXT_LEN + 2, 100_000] {
        for named in [true, false] {
            let mut text = b"1 0: v0=1".to_vec();
            text.resize(len, b' ');
            assert_eq!(assert_assembled(&text, named), len <= MAX_TEXT_LEN);
            text[len - 1] = b'x';
            assert!(!assert_assembled(&text, named));
        }
    }
}

/// `assemble` and `listing` one after the other: station 10 of the paper.
#[test]
fn listing_of_a_text() {
    let text = b"1 1: start c0 ; wait c0>=10";
    let written = printed("assemble", text, true).stdout;
    assert_eq!(written, STATION_10);
    let listing = printed("listing", &written, false).stdout;
    assert_eq!(String::from_utf8_lossy(&listing), STATION_10_LISTING);
}

/// The example programs stand there in both forms, and their rehearsals are those of the stored outputs.
#[test]
fn example_programs() {
    let folder = Path::new(env!("CARGO_MANIFEST_DIR")).join("../examples");
    let bytes = |name: String| fs::read(folder.join(name)).expect("an example");
    for name in ["coring", "dipping", "silence"] {
        let text = bytes(format!("{name}.txt"));
        assert_eq!(file(&text), Ok(bytes(format!("{name}.program"))), "{name}");
        assert!(assert_assembled(&text, true), "{name}");
        let path = folder.join(format!("{name}.txt"));
        let arguments = [path.as_os_str(), OsStr::new("parts")];
        let printed = REHEARSE.run(&arguments, &bytes(format!("{name}.calls")));
        assert_eq!(printed.as_bytes(), bytes(format!("{name}.out")), "{name}");
    }
}

/// `rehearse` prints the same for a text as for its file.
#[test]
fn rehearsals_of_texts() {
    for example in examples::all() {
        if !is_text(&example.text) {
            continue;
        }
        let output = printed("rehearse", &example.text, true);
        let error = String::from_utf8(output.stderr).expect("text on standard error");
        match &example.gives {
            Ok(file) => {
                assert_eq!(output.stdout, printed("rehearse", file, true).stdout);
                assert_eq!(error, "", "{example}");
            }
            Err(refusal) => {
                assert_eq!(
                    output.stdout,
                    format!("refused {refusal}\n").as_bytes(),
                    "{example}"
                );
                assert_eq!(error, words(&example.text, *refusal), "{example}");
            }
        }
    }
}

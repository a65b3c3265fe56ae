//! The C header has the numbers of the proved code and of the papers, name by name.

mod code;
mod macros;

use std::collections::BTreeMap;

use gurvoke::answers::{self, ANSWERED, CONTESTED, DONE, NO_GOAL, NO_VARIABLE};
use gurvoke::counts::{assert_counts, named};
use gurvoke::parts::{Kind, Test};
use gurvoke::record::{self, Phase};
use gurvoke::refusals::{self, FILE_TOO_SHORT, NOTHING_AT_WORK};
use gurvoke::sizes::{self, row};
use gurvoke::text;

use code::Code;
use macros::{evaluate, object_macros};

/// Constants of the proved code that a board has no use for.
const NOT_FOR_BOARDS: [&str; 2] = ["MAX_MARKS", "BYTE_VALUES"];

/// Enums of the proved code whose cases have numbers in the header.
const ENUMS: [&str; 3] = ["Refusal", "Kind", "Test"];

/// Macros that only C has.
const ONLY_IN_C: [&str; 2] = ["VERSION_MAJOR", "VERSION_MINOR"];

/// Names and values.
type Numbers = BTreeMap<String, u64>;

/// The name in the header of a constant of the proved code. There, phases and settlings' answers
/// have modules and types to tell them apart.
fn name_in_header(constant: &str) -> String {
    match constant {
        "WAITING" | "OFFERED" | "FINISHED" => format!("PHASE_{constant}"),
        "NO_VARIABLE" => "NONE".to_string(),
        _ => constant.to_string(),
    }
}

/// The numbers of an enum's cases in the proved code, by their names in the header, where 0 stands for no case.
fn cases_of(code: &Code, name: &str) -> Numbers {
    let cases = code.cases(name);
    cases
        .into_iter()
        .filter(|(_, number)| *number != 0)
        .map(|(case, number)| (upper_case(&case), number))
        .collect()
}

/// The numbers of the proved code that a board has a use for, by their names in the header.
fn numbers_of(code: &Code) -> Numbers {
    let mut numbers: Numbers = ENUMS.iter().flat_map(|name| cases_of(code, name)).collect();
    for (case, number) in code.arms("settle_number") {
        numbers.insert(upper_case(&case), number);
    }
    for (constant, number) in code.constants() {
        if !NOT_FOR_BOARDS.contains(&&constant[..]) {
            let before = numbers.insert(name_in_header(&constant), number);
            assert_eq!(before, None, "{constant} stands for two things");
        }
    }
    assert_eq!(agreed(code), numbers["ANSWERED"] + numbers["NONE"]);
    numbers
}

/// The number of an offer's answer where no variable is contested.
fn agreed(code: &Code) -> u64 {
    let arms = code.arms("offer_number");
    let [(case, answer)] = &arms[..] else {
        panic!("one answer without a value, not {arms:?}");
    };
    assert_eq!(case, "None");
    *answer
}

/// `FileTooShort` as `FILE_TOO_SHORT`.
fn upper_case(camel_case: &str) -> String {
    let mut name = String::new();
    for letter in camel_case.chars() {
        if letter.is_uppercase() && !name.is_empty() {
            name.push('_');
        }
        name.extend(letter.to_uppercase());
    }
    name
}

/// All macros of the header that have a value, without their prefix.
fn numbers_in_header() -> Numbers {
    let names = object_macros();
    let values = evaluate(&names);
    let short = names.iter().map(|name| short_name(name).to_string());
    short.zip(values).collect()
}

fn short_name(name: &str) -> &str {
    name.strip_prefix("GURVOKE_").expect("the header's prefix")
}

/// The numbers of the papers as the tests have them, by their names in the header.
fn numbers_of_the_papers() -> Numbers {
    let mut numbers = Numbers::new();
    let mut add = |name: &str, number: usize| {
        numbers.insert(name.to_string(), number as u64);
    };
    for (name, number) in refusals::ALL {
        add(name, *number as usize);
    }
    for kind in Kind::ALL {
        add(&upper_case(&format!("{kind:?}")), kind as usize);
    }
    for test in Test::ALL {
        add(&upper_case(&format!("{test:?}")), test as usize);
    }
    for phase in [Phase::Waiting, Phase::Offered, Phase::Finished] {
        add(&upper_case(&format!("Phase{phase:?}")), phase as usize);
    }
    for (name, number) in limits_and_places() {
        add(name, number);
    }
    add("ANSWERED", ANSWERED as usize);
    add("RUNNING", answers::RUNNING as usize);
    add("FINISHED", answers::FINISHED as usize);
    add("NONE", NO_VARIABLE.into());
    add("NO_GOAL", NO_GOAL.into());
    add("CONTESTED", CONTESTED.into());
    numbers
}

fn limits_and_places() -> [(&'static str, usize); 33] {
    [
        ("MAX_PARTS", sizes::MAX_PARTS),
        ("MAX_VARIABLES", sizes::MAX_VARIABLES),
        ("MAX_CLOCKS", sizes::MAX_CLOCKS),
        ("MAX_DEPTH", sizes::MAX_DEPTH),
        ("MAX_VALUE", sizes::MAX_VALUE.into()),
        ("UNKNOWN_VALUE", sizes::UNKNOWN_VALUE.into()),
        ("NO_PART", sizes::NO_PART),
        ("NUMBER", sizes::NUMBER_LEN),
        ("KIND", sizes::KIND_LEN),
        ("COUNT", 1),
        ("OPERAND", sizes::OPERAND_LEN),
        ("TIME", sizes::TIME_LEN),
        ("VARIABLES_PLACE", sizes::VARIABLES),
        ("CLOCKS_PLACE", sizes::CLOCKS),
        ("HEADER", sizes::SIZES_LEN),
        ("END_PLACE", row::END),
        ("PARENT_PLACE", row::PARENT),
        ("NEXT_PLACE", row::NEXT),
        ("OPERAND_PLACE", row::OPERAND),
        ("ROW", sizes::ROW_LEN),
        ("MAX_FILE", sizes::MAX_FILE_LEN),
        ("MAX_TABLE", sizes::MAX_TABLE_LEN),
        ("MAX_TEXT", text::MAX_TEXT_LEN),
        ("PHASE_PLACE", record::PHASE),
        ("TIME_PLACE", record::TIME),
        ("ESTIMATE_PLACE", record::ESTIMATE),
        ("STARTED_PLACE", record::STARTED),
        ("STARTS_PLACE", record::STARTS),
        ("MARKS_PLACE", record::MARKS),
        ("RECORD", record::RECORD_LEN),
        ("UNMARKED", 0),
        ("MARKED", 1),
        ("STARTED", 1),
    ]
}

/// Every number of the proved code stands in the header under its name, and the other way round.
#[test]
fn numbers_of_the_proved_code() {
    let code = numbers_of(&Code::read());
    let header = numbers_in_header();
    for (name, number) in &code {
        assert_eq!(header.get(name), Some(number), "GURVOKE_{name}");
    }
    for name in header.keys() {
        let found = code.contains_key(name) || ONLY_IN_C.contains(&&name[..]);
        assert!(found, "the proved code has no number for GURVOKE_{name}");
    }
    let counts = named([("numbers", code.len() as u64)]);
    assert_counts(file!(), "numbers_of_the_proved_code", &counts);
}

/// The refusals of the proved code are the papers', in their order, and each has its number.
#[test]
fn refusals_of_the_proved_code() {
    let code = Code::read();
    let cases: Vec<String> = code
        .cases("Refusal")
        .iter()
        .map(|(case, _)| upper_case(case))
        .collect();
    let names: Vec<&str> = refusals::ALL.iter().map(|(name, _)| *name).collect();
    assert_eq!(cases, names);
    let numbers: Numbers = refusals::ALL
        .iter()
        .map(|(name, number)| (name.to_string(), u64::from(*number)))
        .collect();
    assert_eq!(cases_of(&code, "Refusal"), numbers);
}

/// Every number in the header is the papers', and each of these stands in the header.
#[test]
fn numbers_in_the_papers() {
    let mut header = numbers_in_header();
    for name in ONLY_IN_C {
        assert!(header.remove(name).is_some(), "GURVOKE_{name}");
    }
    assert_eq!(header, numbers_of_the_papers());
}

/// The macros that compute a length or a place.
#[test]
fn lengths_and_places() {
    for number in [0, 1, 15, 199, 200] {
        let names = ["FILE_LENGTH", "TABLE_LENGTH", "ROW_PLACE", "START_PLACE"];
        let calls = names.map(|name| format!("GURVOKE_{name}({number})"));
        let table_len = sizes::table_len(number);
        let expected = [
            sizes::file_len(number),
            table_len,
            table_len,
            record::start_place(number),
        ];
        assert_eq!(evaluate(&calls), expected.map(|value| value as u64));
    }
}

/// The macros that take an answer apart.
#[test]
fn answers_taken_apart() {
    for answer in [
        DONE,
        FILE_TOO_SHORT,
        NOTHING_AT_WORK,
        ANSWERED - 1,
        ANSWERED,
        u32::MAX,
    ] {
        let call = format!("GURVOKE_IS_REFUSAL({answer}u)");
        let refused = (FILE_TOO_SHORT..ANSWERED).contains(&answer);
        assert_eq!(evaluate(&[call]), [u64::from(refused)], "{answer}");
    }
    for variable in [0, 31, NO_VARIABLE] {
        let answer = ANSWERED + u32::from(variable);
        let calls = ["NAMED", "NAMES_NONE"].map(|name| format!("GURVOKE_{name}({answer}u)"));
        let none = variable == NO_VARIABLE;
        assert_eq!(evaluate(&calls), [u64::from(variable), u64::from(none)]);
    }
}

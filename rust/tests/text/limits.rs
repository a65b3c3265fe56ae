//! Texts about the most bytes, parts and levels, and nests as deep as a text can have them. How
//! many parts and levels there are follows from how the test writes them, and from that follows the
//! answer.

use gurvoke::counts::assert_counts;
use gurvoke::refusals::{NOT_A_TEXT, OPERAND_NOT_ALLOWED, SIZE_OUT_OF_RANGE, TOO_DEEP};
use gurvoke::rng::Rng;
use gurvoke::sizes::{MAX_DEPTH, MAX_PARTS};
use gurvoke::text::long::{list, nest, padded, SIZES};
use gurvoke::text::MAX_TEXT_LEN;

use crate::harness::{expect, with_room, Answer, Tally};

/// What a test tries, and how it is answered.
struct Trial {
    rng: Rng,
    tally: Tally,
}

impl Trial {
    fn new(seed: u64) -> Trial {
        Trial {
            rng: Rng::new(seed),
            tally: Tally::default(),
        }
    }

    fn expect(&mut self, text: &[u8], expected: Answer) {
        expect(&mut self.rng, &mut self.tally, text, expected);
    }

    /// Expects the answer to a text of so many parts on so many levels that fits the grammar, and
    /// that faults at its very end come first.
    fn expect_tree(&mut self, text: &[u8], parts: usize, levels: usize) {
        let expected = match () {
            _ if text.len() > MAX_TEXT_LEN => Err(NOT_A_TEXT),
            _ if parts > MAX_PARTS => Err(SIZE_OUT_OF_RANGE),
            _ if levels > MAX_DEPTH => Err(TOO_DEEP),
            _ => Ok(()),
        };
        self.expect(text, expected);
        for fault in [";", ",", ")", " v0=1", " else", "\t"] {
            let text = [text, fault.as_bytes()].concat();
            self.expect(&text, Err(NOT_A_TEXT));
        }
    }
}

/// One gap more than there may be makes any text too long, wherever it stands.
#[test]
fn most_bytes() {
    with_room(|| {
        let texts: [(&[u8], Answer); 5] = [
            (b"1 1:v0=1", Ok(())),
            (b"0 1:v0=1", Err(SIZE_OUT_OF_RANGE)),
            (b"1 1:v1=1", Err(OPERAND_NOT_ALLOWED)),
            (b"1 1:v0=1;", Err(NOT_A_TEXT)),
            (b"", Err(NOT_A_TEXT)),
        ];
        let mut trial = Trial::new(360);
        for (text, answer) in texts {
            for gap in *b" \n" {
                for place in [0, SIZES.len().min(text.len()), text.len()] {
                    for len in [MAX_TEXT_LEN - 1, MAX_TEXT_LEN] {
                        trial.expect(&padded(text, place, gap, len), answer);
                    }
                    for len in too_long(text.len()) {
                        trial.expect(&padded(text, place, gap, len), Err(NOT_A_TEXT));
                    }
                }
            }
        }
        assert_counts(file!(), "most_bytes", &trial.tally.counts());
    });
}

/// Lengths above the most, also such as 16 bits take for the length of the text alone.
fn too_long(len: usize) -> [usize; 4] {
    let beyond_16_bits = 1 << 16;
    [
        MAX_TEXT_LEN + 1,
        2 * MAX_TEXT_LEN,
        beyond_16_bits,
        beyond_16_bits + len,
    ]
}

/// Steps to make long lists of, with the number of parts and of levels of each.
const STEPS: [(&str, usize, usize); 7] = [
    ("v0=1", 1, 1),
    ("start c0", 1, 1),
    ("repeat v0=1", 2, 2),
    ("(v0=1;v0=2)", 3, 2),
    ("(v0=1,v0=2)", 3, 2),
    ("if v0=1 then v0=1 else start c0", 3, 2),
    ("maintain c0<5 repeat wait v0!=1", 3, 3),
];

/// Lists of each length up to a few parts too many.
#[test]
fn most_parts() {
    with_room(|| {
        let mut trial = Trial::new(361);
        for (step, parts, levels) in STEPS {
            for joint in [";", ",", " ;\n"] {
                for count in 2..=MAX_PARTS / parts + 2 {
                    let text = list(step, joint, count);
                    trial.expect_tree(&text, 1 + count * parts, 1 + levels);
                }
            }
        }
        assert_counts(file!(), "most_parts", &trial.tally.counts());
    });
}

/// Far more parts than there may be, also such as a byte takes for fewer.
#[test]
fn many_parts() {
    with_room(|| {
        let mut trial = Trial::new(362);
        for parts in [255, 256, 257, 258, 256 + MAX_PARTS, 512, 1000, 3000] {
            for joint in [";", ","] {
                trial.expect_tree(&list("v0=1", joint, parts - 1), parts, 2);
            }
            // In pairs: a PAR of SEQs of two.
            let pairs = list("v0=1;v0=1", ",", parts / 3);
            trial.expect_tree(&pairs, 1 + parts / 3 * 3, 3);
        }
        // A fault of an operand, in the first part or in the last, comes after the number of parts.
        for (first, last) in [("v1=1;", ""), ("", ";v1=1")] {
            let goals = vec!["v0=1"; 2998].join(";");
            let text = [SIZES, first, &goals, last].concat();
            trial.expect(text.as_bytes(), Err(SIZE_OUT_OF_RANGE));
        }
        assert_counts(file!(), "many_parts", &trial.tally.counts());
    });
}

/// What opens and closes a level, with the number of parts that it adds.
const LEVELS: [(&str, &str, usize); 13] = [
    ("repeat ", "", 1),
    ("repeat(", ")", 1),
    ("((repeat(", ")))", 1),
    ("maintain v0=1 ", "", 1),
    ("maintain c0<5(", ")", 1),
    ("if v0=1 then ", " else v0=2", 2),
    ("if v0=1 then v0=2 else ", "", 2),
    ("if v0=1 then(", ")else v0=2", 2),
    ("(v0=1;", ")", 2),
    ("(v0=1,", ")", 2),
    ("v0=1;(", ")", 2),
    ("v0=1,(", ")", 2),
    ("(", ";v0=1)", 2),
];

/// Nests of each depth to far below the greatest, and as deep as a text can have them.
#[test]
fn most_levels() {
    with_room(|| {
        let mut trial = Trial::new(363);
        for (opening, closing, parts) in LEVELS {
            let inner = "wait c0>=1";
            let room = MAX_TEXT_LEN - SIZES.len() - inner.len();
            let deepest = room / (opening.len() + closing.len());
            let depths = (0..2 * MAX_DEPTH).chain([98, 99, 100, 101, 198, 199, 200, 201]);
            for levels in depths.chain([1000, deepest]) {
                if levels <= deepest {
                    let text = nest(opening, levels, inner, closing);
                    trial.expect_tree(&text, 1 + levels * parts, 1 + levels);
                }
            }
        }
        assert_counts(file!(), "most_levels", &trial.tally.counts());
    });
}

/// Brackets make no parts and no levels, however many there are.
#[test]
fn most_brackets() {
    with_room(|| {
        let mut trial = Trial::new(364);
        for pairs in [
            1, 2, 15, 16, 17, 199, 200, 255, 256, 257, 8000, 8187, 8188, 8189,
        ] {
            trial.expect_tree(&nest("(", pairs, "v0=1", ")"), 1, 1);
        }
        for pairs in [1, 17, 200, 8000] {
            let two = nest("(", pairs, "v0=1;v0=2", ")");
            trial.expect_tree(&two, 3, 2);
            let in_repeat = nest("(", pairs, "repeat(v0=1)", ")");
            trial.expect_tree(&in_repeat, 2, 2);
            trial.expect(&two[..two.len() - 1], Err(NOT_A_TEXT));
        }
        // Between the parts: both steps of a SEQ, and one step inside another.
        let step = ["(".repeat(2000), "v0=1".into(), ")".repeat(2000)].concat();
        trial.expect_tree(&list(&step, ";", 2), 3, 2);
        let held = format!("maintain v0=1{}", step);
        trial.expect_tree(&list(&held, ",", 3), 7, 3);
        assert_counts(file!(), "most_brackets", &trial.tally.counts());
    });
}

/// Levels that nothing closes, as many as there is room for: the end comes too early.
#[test]
fn open_nests() {
    with_room(|| {
        let mut trial = Trial::new(365);
        let mut openings: Vec<&str> = LEVELS.map(|(opening, ..)| opening).to_vec();
        openings.extend([
            "(",
            " (",
            "((v0=1;",
            "v0=1;v0=1,(",
            "repeat((",
            ")",
            "()",
            "(;",
        ]);
        for opening in openings {
            let levels = (MAX_TEXT_LEN - SIZES.len()) / opening.len();
            for levels in [1, 2, MAX_DEPTH, MAX_PARTS, 1000.min(levels), levels] {
                trial.expect(&nest(opening, levels, "", ""), Err(NOT_A_TEXT));
            }
        }
        assert_counts(file!(), "open_nests", &trial.tally.counts());
    });
}

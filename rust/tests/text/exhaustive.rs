//! All texts of a few signs: with a space between all, with gaps only where they are needed, with
//! each of those left out, and with none.

use gurvoke::counts::assert_counts;
use gurvoke::rng::Rng;
use gurvoke::sizes::file_len;
use gurvoke::text::printer::join;
use gurvoke::text::LINE_END;

use crate::harness::{check_all, check_text, Answer, Tally};

/// Texts that begin so and go on with up to so many of these signs, or pieces of several signs.
struct Alphabet {
    begin: &'static str,
    pieces: &'static [&'static str],
    most: usize,
}

/// What may stand between two signs, by whether a gap is needed there.
type Gap = fn(bool) -> &'static [u8];

const EVERYWHERE: Gap = |_| b" ";
const WHERE_NEEDED: Gap = |is_needed| if is_needed { &[LINE_END] } else { b"" };
const NOWHERE: Gap = |_| b"";

/// A walk over all texts of an alphabet.
struct Walk {
    rng: Rng,
    tally: Tally,
}

impl Walk {
    fn over(seed: u64, alphabet: &Alphabet) -> Tally {
        let mut walk = Walk {
            rng: Rng::new(seed),
            tally: Tally::default(),
        };
        walk.go_on(alphabet, &mut vec![alphabet.begin]);
        walk.tally
    }

    /// Tries the text of these signs, and all that go on with more.
    fn go_on(&mut self, alphabet: &Alphabet, signs: &mut Vec<&'static str>) {
        let [everywhere, where_needed, nowhere] =
            [EVERYWHERE, WHERE_NEEDED, NOWHERE].map(|gap| join(signs, gap));
        _ = self.check(&everywhere);
        if self.check(&where_needed).is_ok() {
            self.leave_gaps_out(&where_needed);
        }
        if nowhere != where_needed {
            _ = self.check(&nowhere);
        }
        if signs.len() > alphabet.most {
            return;
        }
        for &piece in alphabet.pieces {
            signs.push(piece);
            self.go_on(alphabet, signs);
            signs.pop();
        }
    }

    /// Tries a text without one of the gaps that it needs.
    fn leave_gaps_out(&mut self, text: &[u8]) {
        let is_gap = |place: &usize| text[*place] == LINE_END;
        for place in (0..text.len()).filter(is_gap) {
            _ = self.check(&[&text[..place], &text[place + 1..]].concat());
        }
    }

    /// One call, and all that can be done with a text that is accepted.
    fn check(&mut self, text: &[u8]) -> Answer {
        let answer = check_text(&mut self.rng, text, file_len(SMALL));
        self.tally.note(answer);
        if answer.is_ok() {
            check_all(&mut self.rng, &mut self.tally, text).expect("accepted just before");
        }
        answer
    }
}

/// No text here has as many parts.
const SMALL: usize = 8;

#[test]
fn signs_of_goals() {
    let alphabet = Alphabet {
        begin: "1 1:",
        pieces: &["v0", "=", "1", ";", ",", "(", ")", "repeat"],
        most: 6,
    };
    let tally = Walk::over(310, &alphabet);
    assert_counts(file!(), "signs_of_goals", &tally.counts());
}

#[test]
fn signs_of_clocks() {
    let alphabet = Alphabet {
        begin: "1 1:",
        pieces: &["start", "c0", "wait", ">=", "<", "5", ";"],
        most: 6,
    };
    let tally = Walk::over(311, &alphabet);
    assert_counts(file!(), "signs_of_clocks", &tally.counts());
}

#[test]
fn joints_and_brackets() {
    let alphabet = Alphabet {
        begin: "1 1:",
        pieces: &["v0=1", ";", ",", "(", ")"],
        most: 7,
    };
    let tally = Walk::over(312, &alphabet);
    assert_counts(file!(), "joints_and_brackets", &tally.counts());
}

#[test]
fn branches() {
    let alphabet = Alphabet {
        begin: "1 1:",
        pieces: &["v0=1", "if", "then", "else", "repeat", ";", "(", ")"],
        most: 6,
    };
    let tally = Walk::over(313, &alphabet);
    assert_counts(file!(), "branches", &tally.counts());
}

#[test]
fn branches_behind_then() {
    let alphabet = Alphabet {
        begin: "1 1:if v0=1 then",
        pieces: &["v0=1", "if v0=1 then", "else", "repeat", ";", ",", "(", ")"],
        most: 6,
    };
    let tally = Walk::over(317, &alphabet);
    assert_counts(file!(), "branches_behind_then", &tally.counts());
}

#[test]
fn words_with_conditions() {
    let alphabet = Alphabet {
        begin: "1 1:",
        pieces: &["maintain", "wait", "v0=1", "v0!=1", "c0<5", ",", "(", ")"],
        most: 6,
    };
    let tally = Walk::over(314, &alphabet);
    assert_counts(file!(), "words_with_conditions", &tally.counts());
}

#[test]
fn sizes() {
    let alphabet = Alphabet {
        begin: "",
        pieces: &["0", "1", "33", "65535", "65536", "00", ":", "v0=1"],
        most: 5,
    };
    let tally = Walk::over(315, &alphabet);
    assert_counts(file!(), "sizes", &tally.counts());
}

/// Bytes that are no signs alone, and make signs where no gap stands between them.
#[test]
fn halves_of_signs() {
    let alphabet = Alphabet {
        begin: "1 1:",
        pieces: &["v", "0", "=", "!", ">", "c0", "wait", "v0", "1"],
        most: 5,
    };
    let tally = Walk::over(316, &alphabet);
    assert_counts(file!(), "halves_of_signs", &tally.counts());
}

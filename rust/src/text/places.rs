//! Tests of the place that the reader names for a text that does not fit: by hand, and against a
//! search for texts with which a beginning goes on.

use super::printer::join;
use super::{line_and_column, read, shown, Outside};

/// Texts with the place of the first sign with which none goes on.
const PLACES: &[(&[u8], usize)] = &[
    // The end comes too early.
    (b"", 0),
    (b" \n", 2),
    (b"1", 1),
    (b"1 1", 3),
    (b"1 1:", 4),
    (b"1 1: \n ", 7),
    (b"1 1: v0", 7),
    (b"1 1: v0=", 8),
    (b"1 1: v0=1;", 10),
    (b"1 1: v0=1 ,\n", 12),
    (b"1 1: (v0=1", 10),
    (b"1 1: start", 10),
    (b"1 1: wait c0", 12),
    (b"1 1: wait c0<", 13),
    (b"1 1: maintain v0=1", 18),
    (b"1 1: repeat", 11),
    (b"1 1: if v0=1", 12),
    (b"1 1: if v0=1 then v0=1", 22),
    (b"1 1: if v0=1 then v0=1 else", 27),
    // A sign that cannot stand there.
    (b": v0=1", 0),
    (b"1: v0=1", 1),
    (b"11:v0=1", 2),
    (b"1 1 1: v0=1", 4),
    (b"1 1 v0=1", 4),
    (b"1 1: 1=v0", 5),
    (b"1 1: v0!=1", 7),
    (b"1 1: v0==1", 8),
    (b"1 1: v0=v0", 8),
    (b"1 1: v0=1 v0=2", 10),
    (b"1 1: v0=1)", 9),
    (b"1 1: ()", 6),
    (b"1 1: (v0=1;)", 11),
    (b"1 1: (v0=1)(v0=1)", 11),
    (b"1 1: c0>=1", 5),
    (b"1 1: start v0", 11),
    (b"1 1: wait c0=1", 12),
    (b"1 1: wait v0>=1", 12),
    (b"1 1: wait c0<=5", 13),
    (b"1 1: if v0=1 else v0=1", 13),
    (b"1 1: if v0=1 then v0=1; v0=2 else v0=3", 22),
    (b"1 1: if v0=1 then repeat v0=1, v0=2 else v0=3", 29),
    (b"1 1: if v0=1 then (v0=1 else v0=2)", 24),
    (b"1 1: then v0=1", 5),
    // No sign at all: where it begins, whatever stands before it.
    (b"1 1: v0=1else v0=2", 8),
    (b"1 1: startc0", 5),
    (b"1 1: maintain c0<5v0=1", 17),
    (b"1 1: repeatrepeat v0=1", 5),
    (b"01 1: v0=1", 0),
    (b"1 65536: v0=1", 2),
    (b"1 1: v00=1", 5),
    (b"1 1: v65536=1", 5),
    (b"1 1: v 0=1", 5),
    (b"1 1: wait v0! =1", 12),
    (b"1 1: wait c0>5", 12),
    (b"1 1: wait c0 > =5", 13),
    (b"1 1:\tv0=1", 4),
    (b"1 1: v0=1\r\n", 9),
    (b"1 1: V0=1", 5),
    (b"1 1: v0=1A", 9),
    (b"1 1: v0A=1", 7),
    (b"1 1: startC0", 10),
    (b"1 1: start\xE9", 10),
    (b"1 1: try c0<5 do v0=1 else v0=2", 5),
    (b"1 1: v0=1 \xFF", 10),
];

#[test]
fn places_by_hand() {
    for (text, place) in PLACES {
        let fault = read(text).expect_err("outside the grammar");
        assert_eq!(fault, Outside::At(*place), "{}", shown(text));
    }
}

#[test]
fn lines_and_columns_of_places() {
    let text = b"1 1:\n  start c0;\n  wait c0>10\n";
    let Err(Outside::At(place)) = read(text) else {
        panic!("`>` is no sign");
    };
    assert_eq!(line_and_column(text, place), (3, 10));
}

/// Signs that are tried behind the sizes and colon, some of them in larger pieces, and from the
/// front.
const SIGNS: [&str; 19] = [
    "v0", "c0", "=", "!=", ">=", "<", "1", ":", ";", ",", "(", ")", "start", "wait", "maintain",
    "repeat", "if", "then", "else",
];
const PIECES: [&str; 9] = ["v0=1", "if", "then", "else", "repeat", ";", ",", "(", ")"];
const SIGNS_OF_SIZES: [&str; 8] = ["1", "0", "00", ":", "v0", "=", "(", "start"];

/// What ends the step that goes on, with the sizes and colon before it where these are open.
const ENDS: [&str; 19] = [
    "",
    "1 1 : v0 = 1",
    "1 : v0 = 1",
    ": v0 = 1",
    "v0 = 1",
    "= 1",
    "1",
    "c0",
    "< 1",
    "v0 = 1 v0 = 1",
    "= 1 v0 = 1",
    "< 1 v0 = 1",
    "1 v0 = 1",
    "v0 = 1 then v0 = 1",
    "= 1 then v0 = 1",
    "< 1 then v0 = 1",
    "1 then v0 = 1",
    "then v0 = 1",
    "else v0 = 1",
];

/// What ends a bracket or a first branch.
const CLOSINGS: [&str; 2] = [") ", "else v0 = 1 "];

/// Whether some text goes on from these signs. All ends are tried, each with as many closings as
/// there are signs that open something, in every order.
fn goes_on(signs: &[&str]) -> bool {
    let is_opening = |sign: &&&str| matches!(**sign, "(" | "if");
    let most = signs.iter().filter(is_opening).count();
    let front = text_of(signs);
    closings_up_to(most).iter().any(|closings| {
        let fits = |end: &str| read(format!("{front} {end} {closings}").as_bytes()).is_ok();
        ENDS.iter().any(|end| fits(end))
    })
}

/// All lists of up to so many closings.
fn closings_up_to(most: usize) -> Vec<String> {
    let mut all = vec![String::new()];
    let mut longest = all.clone();
    for _ in 0..most {
        let longer = |list: &String| CLOSINGS.map(|closing| list.clone() + closing);
        longest = longest.iter().flat_map(longer).collect();
        all.extend(longest.clone());
    }
    all
}

fn text_of(signs: &[&str]) -> String {
    let text = join(signs, |_| b" ");
    String::from_utf8(text).expect("signs are text")
}

/// All texts that begin with some signs, and how many of them are accepted.
struct Search {
    alphabet: &'static [&'static str],
    texts: u64,
    accepted: u64,
}

/// Tries all texts that begin with these signs and have up to so many more of the alphabet.
fn search(begin: &[&'static str], alphabet: &'static [&'static str], more: usize) -> Search {
    let mut search = Search {
        alphabet,
        texts: 0,
        accepted: 0,
    };
    search.check(&mut begin.to_vec(), None, more);
    search
}

impl Search {
    /// Tries a text, and all that go on with up to so many signs. `fault` is the place of the first
    /// sign with which no text goes on, if it has one.
    fn check(&mut self, signs: &mut Vec<&'static str>, fault: Option<usize>, more: usize) {
        let text = text_of(signs);
        self.check_one(&text, fault);
        if more == 0 {
            return;
        }
        let place = if text.is_empty() { 0 } else { text.len() + 1 };
        for &sign in self.alphabet {
            signs.push(sign);
            let fault = fault.or_else(|| (!goes_on(signs)).then_some(place));
            self.check(signs, fault, more - 1);
            signs.pop();
        }
    }

    fn check_one(&mut self, text: &str, fault: Option<usize>) {
        self.texts += 1;
        match read(text.as_bytes()) {
            Ok(_) => {
                assert_eq!(fault, None, "{text}: accepted");
                self.accepted += 1;
            }
            Err(named) => {
                let expected = Outside::At(fault.unwrap_or(text.len()));
                assert_eq!(named, expected, "{text}");
            }
        }
    }
}

/// Fails unless at least so many of the texts are accepted.
fn require(found: Search, least: u64) {
    let Search {
        texts, accepted, ..
    } = found;
    assert!(accepted >= least, "{accepted} of {texts} texts");
}

#[test]
fn places_in_five_signs() {
    require(search(&["1", "1", ":"], &SIGNS, 5), 20);
}

#[test]
fn places_in_five_pieces() {
    require(search(&["1", "1", ":"], &PIECES, 5), 30);
    require(
        search(&["1", "1", ":", "if", "v0=1", "then"], &PIECES, 5),
        10,
    );
}

#[test]
fn places_in_the_sizes() {
    require(search(&[], &SIGNS_OF_SIZES, 6), 4);
}

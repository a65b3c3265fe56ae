//! Texts of a program, in every way that the grammar leaves free: more brackets than are needed,
//! and gaps.

use super::Typed;
use crate::parts::{Condition, Label, Part, Test};
use crate::rng::Rng;

/// Gaps that may stand between signs.
const GAPS: [&[u8]; 6] = [b" ", b" ", b"\n", b"  ", b"\n \n", b" \n    "];

/// Writes a program as a text, whether or not its file is allowed. It has no SEQ or PAR of one
/// child, which no text can say.
pub fn written(rng: &mut Rng, typed: &Typed) -> Vec<u8> {
    let signs = signs_of(rng, typed);
    spaced(rng, &signs)
}

/// Signs with random gaps.
pub(super) fn spaced(rng: &mut Rng, signs: &[String]) -> Vec<u8> {
    let seldom = rng.pick(&[1, 2, 10, usize::MAX]);
    let before = gap(rng, seldom, false);
    let text = join(signs, |is_needed| gap(rng, seldom, is_needed));
    [before, &text, gap(rng, seldom, false)].concat()
}

/// A random gap where one is needed, and once in so many times where none is.
fn gap(rng: &mut Rng, seldom: usize, is_needed: bool) -> &'static [u8] {
    if is_needed || rng.one_in(seldom) {
        rng.pick(&GAPS)
    } else {
        b""
    }
}

/// Signs one after the other. Between two stands what `gap` gives, which is told whether a gap must
/// stand there.
pub fn join<S: AsRef<[u8]>>(signs: &[S], mut gap: impl FnMut(bool) -> &'static [u8]) -> Vec<u8> {
    let mut text = Vec::new();
    for sign in signs.iter().map(AsRef::as_ref) {
        if !text.is_empty() {
            let is_needed = text.last().is_some_and(u8::is_ascii_alphanumeric)
                && sign.first().is_some_and(u8::is_ascii_alphanumeric);
            text.extend(gap(is_needed));
        }
        text.extend(sign);
    }
    text
}

/// The signs of a program, with random brackets where none are needed.
pub(super) fn signs_of(rng: &mut Rng, typed: &Typed) -> Vec<String> {
    let (variables, clocks) = (typed.sizes.variables, typed.sizes.clocks);
    let mut writer = Writer {
        seldom: rng.pick(&[2, 8, usize::MAX]),
        rng,
        signs: Vec::new(),
    };
    writer.push(&variables.to_string());
    writer.push(&clocks.to_string());
    writer.push(":");
    writer.push_step(&typed.root, Where::Alone);
    writer.signs
}

/// Where a step stands, and so which steps need brackets there.
#[derive(Clone, Copy, PartialEq)]
enum Where {
    /// As the whole text, or in brackets.
    Alone,
    /// Between two `,`.
    InPar,
    /// Between two `;`, or behind a word.
    InSeq,
}

struct Writer<'a> {
    rng: &'a mut Rng,
    /// Once in so many times a step gets brackets that it does not need.
    seldom: usize,
    signs: Vec<String>,
}

impl Writer<'_> {
    fn push(&mut self, sign: &str) {
        self.signs.push(sign.to_string());
    }

    /// A step, in brackets where it needs them, and sometimes where it does not.
    fn push_step(&mut self, part: &Part, place: Where) {
        let needs_brackets = match part.label {
            Label::Seq { .. } => place == Where::InSeq,
            Label::Par { .. } => place != Where::Alone,
            _ => false,
        };
        if needs_brackets || self.rng.one_in(self.seldom) {
            self.push("(");
            self.push_step(part, Where::Alone);
            self.push(")");
        } else {
            self.push_bare(part);
        }
    }

    /// A step without brackets of its own.
    fn push_bare(&mut self, part: &Part) {
        match part.label {
            Label::Goal { variable, value } => {
                self.push_numbered("v", variable);
                self.push("=");
                self.push(&value.to_string());
            }
            Label::Start { clock } => {
                self.push("start");
                self.push_numbered("c", clock);
            }
            Label::Wait(condition) => self.push_conditional("wait", condition),
            Label::Seq { .. } => self.push_joined(part, ";", Where::InSeq),
            Label::Par { .. } => self.push_joined(part, ",", Where::InPar),
            Label::Maintain(condition) => {
                self.push_conditional("maintain", condition);
                self.push_step(&part.children[0], Where::InSeq);
            }
            Label::Choice(condition) => {
                self.push_conditional("if", condition);
                self.push("then");
                self.push_step(&part.children[0], Where::InSeq);
                self.push("else");
                self.push_step(&part.children[1], Where::InSeq);
            }
            Label::Repeat => {
                self.push("repeat");
                self.push_step(&part.children[0], Where::InSeq);
            }
        }
    }

    fn push_joined(&mut self, part: &Part, joint: &str, place: Where) {
        for (number, child) in part.children.iter().enumerate() {
            if number > 0 {
                self.push(joint);
            }
            self.push_step(child, place);
        }
    }

    fn push_conditional(&mut self, word: &str, condition: Condition) {
        let (letter, test) = match condition.test {
            Test::Equals => ("v", "="),
            Test::Differs => ("v", "!="),
            Test::AtLeast => ("c", ">="),
            Test::Below => ("c", "<"),
        };
        self.push(word);
        self.push_numbered(letter, condition.subject);
        self.push(test);
        self.push(&condition.value.to_string());
    }

    /// A variable or a clock. The largest byte stands for all numbers that no byte can hold.
    fn push_numbered(&mut self, letter: &str, number: u8) {
        let number = match number {
            u8::MAX => self.rng.pick(&[255, 256, 257, 300, 511, 512, 65_535]),
            _ => u16::from(number),
        };
        self.push(&format!("{letter}{number}"));
    }
}

#[cfg(test)]
mod tests {
    use super::*;
    use crate::text::cases::{spoilt, typed_program};
    use crate::text::{read, shown};

    /// What is written reads back as the tree that it is written from.
    #[test]
    fn is_read_back() {
        let mut rng = Rng::new(700);
        for number in 0..20_000 {
            let valid = typed_program(&mut rng);
            let typed = match number % 2 {
                0 => valid,
                _ => spoilt(&mut rng, valid),
            };
            let text = written(&mut rng, &typed);
            assert_eq!(read(&text).as_ref(), Ok(&typed), "{}", shown(&text));
        }
    }

    /// One program is written in many ways: with and without brackets and gaps that it does not
    /// need.
    #[test]
    fn in_many_ways() {
        let mut rng = Rng::new(701);
        let typed = read(b"1 1: v0=1; repeat(v0=1, v0=2)").expect("a text");
        let texts: Vec<Vec<u8>> = (0..1000).map(|_| written(&mut rng, &typed)).collect();
        let with = |words: &[u8]| {
            let has = |text: &&Vec<u8>| text.windows(words.len()).any(|part| part == words);
            texts.iter().filter(has).count()
        };
        let ways: [&[u8]; 6] = [
            b"1 1:v0=1;repeat(v0=1,v0=2)",
            b"((",
            b"\n",
            b" ;",
            b")\n",
            b"1)",
        ];
        for words in ways {
            assert!(with(words) > 20, "{}", words.escape_ascii());
        }
    }
}

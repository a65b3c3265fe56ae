//! Tests of the reader: all texts of a few pieces, made by the rules of the grammar from the
//! smallest up. The reader reads each of them as the tree that it is made with, and accepts no
//! other.

use std::collections::HashMap;
use std::slice::from_ref;

use super::printer::join;
use super::read;
use crate::builder::{choice, equals, goal, maintain, par, repeat, seq};
use crate::parts::Part;

/// What a text is made of, behind its sizes and colon.
const PIECES: [&str; 9] = [
    STEP, REPEAT, MAINTAIN, IF_THEN, ELSE, SEMICOLON, COMMA, OPEN, CLOSE,
];
const STEP: &str = "v0=1";
const REPEAT: &str = "repeat";
const MAINTAIN: &str = "maintain v0=1";
const IF_THEN: &str = "if v0=1 then";
const ELSE: &str = "else";
const SEMICOLON: &str = ";";
const COMMA: &str = ",";
const OPEN: &str = "(";
const CLOSE: &str = ")";

/// All texts of up to so many pieces are tried.
const MOST: usize = 6;

/// The pieces of a text, with the part or the parts that they make.
type Made<T> = (Vec<&'static str>, T);

/// What the rules make, by the number of pieces.
#[derive(Default)]
struct Grammar {
    steps: Vec<Vec<Made<Part>>>,
    sequences: Vec<Vec<Made<Part>>>,
    /// Whole texts.
    groups: Vec<Vec<Made<Part>>>,
}

impl Grammar {
    /// All that the rules make of up to so many pieces.
    fn up_to(most: usize) -> Grammar {
        let mut grammar = Grammar::default();
        for count in 0..=most {
            let steps = grammar.steps_of(count);
            grammar.steps.push(steps);
            let sequences = joined(&grammar.steps, SEMICOLON, seq, count);
            grammar.sequences.push(sequences);
            let groups = joined(&grammar.sequences, COMMA, par, count);
            grammar.groups.push(groups);
        }
        grammar
    }

    /// The steps of so many pieces, where all shorter ones are there.
    fn steps_of(&self, count: usize) -> Vec<Made<Part>> {
        let mut steps = Vec::new();
        if count == 1 {
            steps.push((vec![STEP], goal(0, 1)));
        }
        for (pieces, part) in self.steps[..count].last().into_iter().flatten() {
            let behind = |word| [&[word], &pieces[..]].concat();
            steps.push((behind(REPEAT), repeat(part.clone())));
            let held = maintain(equals(0, 1), part.clone());
            steps.push((behind(MAINTAIN), held));
        }
        if count > 2 {
            for (pieces, part) in &self.groups[count - 2] {
                let bracketed = [&[OPEN], &pieces[..], &[CLOSE]].concat();
                steps.push((bracketed, part.clone()));
            }
            for first in 1..count - 2 {
                steps.extend(choices(&self.steps[first], &self.steps[count - 2 - first]));
            }
        }
        steps
    }
}

/// Every first branch with every second one.
fn choices(firsts: &[Made<Part>], seconds: &[Made<Part>]) -> Vec<Made<Part>> {
    let mut choices = Vec::new();
    for (front, first) in firsts {
        for (back, second) in seconds {
            let pieces = [&[IF_THEN], &front[..], &[ELSE], back].concat();
            let part = choice(equals(0, 1), first.clone(), second.clone());
            choices.push((pieces, part));
        }
    }
    choices
}

/// One alone, or several joined by a sign into one part.
fn joined(
    items: &[Vec<Made<Part>>],
    sign: &'static str,
    join: fn(Vec<Part>) -> Part,
    count: usize,
) -> Vec<Made<Part>> {
    let part = |mut parts: Vec<Part>| match parts.len() {
        1 => parts.remove(0),
        _ => join(parts),
    };
    lists(items, sign, count)
        .into_iter()
        .map(|(pieces, parts)| (pieces, part(parts)))
        .collect()
}

/// All lists of so many pieces with the sign between neighbours.
fn lists(items: &[Vec<Made<Part>>], sign: &'static str, count: usize) -> Vec<Made<Vec<Part>>> {
    let mut lists_of_count: Vec<Made<Vec<Part>>> = Vec::new();
    for (pieces, part) in &items[count] {
        lists_of_count.push((pieces.clone(), vec![part.clone()]));
    }
    for first in 1..count.saturating_sub(1) {
        let rests = lists(items, sign, count - first - 1);
        for (front, part) in &items[first] {
            for (back, parts) in &rests {
                let pieces = [&front[..], &[sign], back].concat();
                let parts = [from_ref(part), parts].concat();
                lists_of_count.push((pieces, parts));
            }
        }
    }
    lists_of_count
}

/// A text of one variable and one clock of these pieces.
fn text_of(pieces: &[&str]) -> Vec<u8> {
    join(&[&["1 1:"], pieces].concat(), |_| b" ")
}

/// "It has one reading": the rules make no text twice, and the reader gives the tree of each.
#[test]
fn each_text_of_the_grammar_is_read() {
    let grammar = Grammar::up_to(MOST + 3);
    let mut trees = HashMap::new();
    for (pieces, part) in grammar.groups.into_iter().flatten() {
        let text = text_of(&pieces);
        let typed = read(&text).unwrap_or_else(|fault| panic!("{pieces:?}: {fault:?}"));
        assert_eq!(typed.root, part, "{pieces:?}");
        assert_eq!(trees.insert(text, part), None, "{pieces:?}");
    }
    assert!(trees.len() > 10_000, "only {} texts", trees.len());
}

/// Of all lists of pieces, the reader accepts those that the rules make.
#[test]
fn no_other_text_is_accepted() {
    let grammar = Grammar::up_to(MOST);
    for count in 0..=MOST {
        let accepted = accepted_of(count, &mut Vec::new());
        assert_eq!(accepted, grammar.groups[count].len(), "{count} pieces");
    }
}

/// How many texts are accepted that go on with so many pieces.
fn accepted_of(count: usize, pieces: &mut Vec<&'static str>) -> usize {
    if count == 0 {
        return usize::from(read(&text_of(pieces)).is_ok());
    }
    let mut accepted = 0;
    for piece in PIECES {
        pieces.push(piece);
        accepted += accepted_of(count - 1, pieces);
        pieces.pop();
    }
    accepted
}

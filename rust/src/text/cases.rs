//! Random programs that a text can say, some with faults, and random texts with faults.

use super::printer::{signs_of, spaced};
use super::Typed;
use crate::builder::{differs, goal, maintain, par, repeat, seq};
use crate::cases::any_program;
use crate::model;
use crate::parts::{Condition, Label, Part, Test};
use crate::rng::Rng;
use crate::sizes::{Sizes, MAX_CLOCKS, MAX_DEPTH, MAX_PARTS, MAX_VALUE, MAX_VARIABLES};

/// A valid program of any size, depth and shape that a text can say: no SEQ or PAR has one child.
pub fn typed_program(rng: &mut Rng) -> Typed {
    let file = any_program(rng).file();
    let program = model::read(&file).expect("a valid program");
    let (sizes, mut root) = (program.sizes, program.root);
    change_labels(&mut root, &mut |label| {
        if let Label::Seq { count: 1 } | Label::Par { count: 1 } = label {
            *label = rng.pick(&[Label::Repeat, Label::Maintain(differs(0, 0))]);
        }
    });
    Typed { sizes, root }
}

/// Changes what each part says by itself.
fn change_labels(part: &mut Part, change: &mut impl FnMut(&mut Label)) {
    change(&mut part.label);
    for child in &mut part.children {
        change_labels(child, change);
    }
}

/// A program with one or two faults that the grammar lets through, of which some may make no
/// difference.
pub fn spoilt(rng: &mut Rng, typed: Typed) -> Typed {
    let Typed {
        mut sizes,
        mut root,
    } = typed;
    for _ in 0..rng.between(1, 2) {
        match rng.below(5) {
            0 => sizes.variables = rng.pick(&[0, MAX_VARIABLES + 1, 255, 256, 257, 65_535]),
            1 => sizes.clocks = rng.pick(&[MAX_CLOCKS + 1, 255, 256, 257, 65_535]),
            2 => root = lengthened(rng, root),
            3 => root = deepened(rng, root),
            _ => spoil_operand(rng, &mut root, &sizes),
        }
    }
    Typed::new(sizes.variables, sizes.clocks, root)
}

/// The program among GOALs: about as many parts as are allowed, or more than a byte can count.
fn lengthened(rng: &mut Rng, root: Part) -> Part {
    let most = MAX_PARTS;
    let size = rng.pick(&[most - 1, most, most + 1, 256, 257, 256 + most]);
    let goals = size.saturating_sub(1 + root.size()).max(1);
    let mut children = vec![goal(0, 0); goals];
    children.insert(rng.below(goals + 1), root);
    match rng.one_in(2) {
        true => seq(children),
        false => par(children),
    }
}

/// The program inside others, down to about the greatest depth or far below it.
fn deepened(rng: &mut Rng, root: Part) -> Part {
    let depth = rng.pick(&[MAX_DEPTH, MAX_DEPTH + 1, MAX_DEPTH + 2, 2 * MAX_DEPTH]);
    let mut part = root;
    while part.depth() < depth {
        part = match rng.below(4) {
            0 => repeat(part),
            1 => maintain(differs(0, 0), part),
            2 => seq(vec![goal(0, 0), part]),
            _ => par(vec![part, goal(0, 0)]),
        };
    }
    part
}

/// Puts a fault into the operand of some part that has a variable or a clock.
fn spoil_operand(rng: &mut Rng, root: &mut Part, sizes: &Sizes) {
    let place = rng.below(root.size());
    let mut number = 0;
    change_labels(root, &mut |label| {
        if number == place {
            spoil_label(rng, label, sizes);
        }
        number += 1;
    });
}

fn spoil_label(rng: &mut Rng, label: &mut Label, sizes: &Sizes) {
    match label {
        Label::Goal { variable, value } => spoil_variable(rng, variable, value, sizes),
        Label::Start { clock } => *clock = no_subject(rng, sizes.clocks),
        Label::Wait(condition) | Label::Maintain(condition) | Label::Choice(condition) => {
            let Condition {
                test,
                subject,
                value,
            } = condition;
            match test {
                Test::Equals | Test::Differs => spoil_variable(rng, subject, value, sizes),
                Test::AtLeast | Test::Below => *subject = no_subject(rng, sizes.clocks),
            }
        }
        Label::Seq { .. } | Label::Par { .. } | Label::Repeat => {}
    }
}

fn spoil_variable(rng: &mut Rng, variable: &mut u8, value: &mut u16, sizes: &Sizes) {
    match rng.one_in(2) {
        true => *variable = no_subject(rng, sizes.variables),
        false => *value = rng.pick(&[MAX_VALUE + 1, 255, 256, 256 + MAX_VALUE, u16::MAX]),
    }
}

/// The first number that is none of so many variables or clocks, or the one that stands for all
/// that no byte can hold.
fn no_subject(rng: &mut Rng, count: usize) -> u8 {
    let first = u8::try_from(count).unwrap_or(u8::MAX);
    rng.pick(&[first, u8::MAX])
}

/// A text with one or two bytes or pieces dropped, doubled, exchanged, put in or cut off. It is not
/// empty.
pub fn damaged(rng: &mut Rng, text: &[u8]) -> Vec<u8> {
    let mut text = text.to_vec();
    for _ in 0..rng.between(1, 2) {
        damage(rng, &mut text);
        if text.is_empty() {
            break;
        }
    }
    text
}

fn damage(rng: &mut Rng, text: &mut Vec<u8>) {
    let len = text.len();
    let (place, other) = (rng.below(len), rng.below(len));
    match rng.below(9) {
        0 => drop(text.remove(place)),
        1 => text.insert(place, text[place]),
        2 => text[place] = damaging_byte(rng),
        3 => text.insert(place, damaging_byte(rng)),
        4 => text.swap(place, (place + 1) % len),
        5 => text.swap(place, other),
        6 => text.truncate(place),
        7 => drop(text.drain(place.min(other)..place.max(other))),
        _ => {
            let piece = text[place.min(other)..place.max(other)].to_vec();
            text.splice(place..place, piece);
        }
    }
}

/// Any byte, mostly one that the grammar knows or just about one.
fn damaging_byte(rng: &mut Rng) -> u8 {
    let any = rng.byte();
    let mark = rng.pick(b"  \n;;,,(())=!<>::");
    let digit = rng.pick(b"01269");
    let other = rng.pick(b"vctaeVC\t\r\0/:@`{\xFF");
    rng.pick(&[any, mark, mark, digit, other])
}

/// A text of a program with one or two signs dropped, doubled, exchanged or cut off.
pub fn with_damaged_signs(rng: &mut Rng, typed: &Typed) -> Vec<u8> {
    let mut signs = signs_of(rng, typed);
    for _ in 0..rng.between(1, 2) {
        let (place, other) = (rng.below(signs.len()), rng.below(signs.len()));
        match rng.below(12) {
            0 if signs.len() > 1 => drop(signs.remove(place)),
            1 => signs.insert(place, signs[place].clone()),
            2 => signs.swap(place, other),
            3 => signs.truncate(place + 1),
            4 => signs.insert(place, signs[other].clone()),
            5 => signs[place] = signs[other].clone(),
            _ => signs[place] = another(rng, &signs[place]),
        }
    }
    spaced(rng, &signs)
}

/// Another sign that can often stand in the place of this one.
fn another(rng: &mut Rng, sign: &str) -> String {
    let number = rng.pick(&[
        "0", "1", "15", "16", "31", "32", "33", "250", "251", "256", "65536",
    ]);
    let word = match sign {
        ";" => ",",
        "," => ";",
        "=" => "!=",
        "!=" => "=",
        ">=" => "<",
        "<" => ">=",
        "then" => "else",
        "wait" => "maintain",
        "maintain" => "if",
        _ if sign.starts_with('v') => return format!("v{number}"),
        _ if sign.starts_with('c') => return format!("c{number}"),
        _ => number,
    };
    word.to_string()
}

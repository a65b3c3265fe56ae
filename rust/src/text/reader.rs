//! Reading a text, sign by sign.

use std::mem::take;

use super::signs::Signs;
use super::{Outside, Typed, MAX_TEXT_LEN};
use crate::builder::{choice, goal, maintain, par, repeat, seq, start, wait};
use crate::parts::{Condition, Part, Test};

/// Reads a text, or says why it does not fit.
pub fn read(text: &[u8]) -> Result<Typed, Outside> {
    if text.len() > MAX_TEXT_LEN {
        return Err(Outside::TooLong);
    }
    let mut signs = Signs::of(text);
    let variables = signs.number()?;
    let clocks = signs.number()?;
    signs.take(b":")?;
    let root = read_steps(&mut signs)?;
    Ok(Typed::new(variables.into(), clocks.into(), root))
}

/// What has begun and waits for a step.
enum Open {
    Maintain(Condition),
    Repeat,
    /// Waits for the step behind `then`.
    Then(Condition),
    /// Has that step, and waits for the one behind `else`.
    Else(Condition, Part),
    /// The whole text, or what stands in brackets.
    Group(Group),
}

/// Steps joined by `;` and `,`.
#[derive(Default)]
struct Group {
    /// The children of the PAR: what stands between two `,`.
    ended: Vec<Part>,
    /// The children of the SEQ that goes on.
    steps: Vec<Part>,
}

impl Group {
    fn end_sequence(&mut self) {
        let sequence = joined(take(&mut self.steps), seq);
        self.ended.push(sequence);
    }

    /// The part that the steps make together.
    fn part(mut self) -> Part {
        self.end_sequence();
        joined(self.ended, par)
    }
}

/// "Steps joined by the same sign make one part with that many children", and "a single step makes
/// no SEQ or PAR".
fn joined(mut steps: Vec<Part>, join: fn(Vec<Part>) -> Part) -> Part {
    match steps.len() {
        1 => steps.remove(0),
        _ => join(steps),
    }
}

/// Reads a whole text without its sizes and colon. What is open stands in a list, the innermost
/// last, and not on the stack: brackets may go as deep as a text is long.
fn read_steps(signs: &mut Signs) -> Result<Part, Outside> {
    let mut open = vec![Open::Group(Group::default())];
    loop {
        match read_beginning(signs)? {
            Beginning::Whole(step) => {
                if let Some(root) = end_step(signs, &mut open, step)? {
                    return Ok(root);
                }
            }
            Beginning::Waits(outer) => open.push(outer),
        }
    }
}

/// What the beginning of a step comes to.
enum Beginning {
    /// It is a step already.
    Whole(Part),
    /// It waits for another step.
    Waits(Open),
}

/// Reads a step as far as the step inside it, if there is one.
fn read_beginning(signs: &mut Signs) -> Result<Beginning, Outside> {
    use Beginning::{Waits, Whole};
    if let Ok(variable) = signs.variable() {
        signs.take(b"=")?;
        return Ok(Whole(goal(variable, signs.number()?)));
    }
    let (first, fault) = (signs.next(), signs.fault());
    signs.pass();
    Ok(match first {
        b"start" => Whole(start(signs.clock()?)),
        b"wait" => Whole(wait(read_condition(signs)?)),
        b"maintain" => Waits(Open::Maintain(read_condition(signs)?)),
        b"repeat" => Waits(Open::Repeat),
        b"if" => {
            let condition = read_condition(signs)?;
            signs.take(b"then")?;
            Waits(Open::Then(condition))
        }
        b"(" => Waits(Open::Group(Group::default())),
        _ => return Err(fault),
    })
}

/// "Conditions are written `v0=1`, `v0!=1`, `c0>=5`, `c0<5`".
fn read_condition(signs: &mut Signs) -> Result<Condition, Outside> {
    let (subject, test) = match signs.variable() {
        Ok(variable) => (variable, signs.take_as(test_of_variable)?),
        Err(_) => (signs.clock()?, signs.take_as(test_of_clock)?),
    };
    let value = signs.number()?;
    Ok(Condition {
        test,
        subject,
        value,
    })
}

fn test_of_variable(sign: &[u8]) -> Option<Test> {
    match sign {
        b"=" => Some(Test::Equals),
        b"!=" => Some(Test::Differs),
        _ => None,
    }
}

fn test_of_clock(sign: &[u8]) -> Option<Test> {
    match sign {
        b">=" => Some(Test::AtLeast),
        b"<" => Some(Test::Below),
        _ => None,
    }
}

/// Puts a step that has ended into what is open about it, which may end with it. Gives the root
/// where the text has ended, and nothing where another step must follow.
fn end_step(
    signs: &mut Signs,
    open: &mut Vec<Open>,
    mut step: Part,
) -> Result<Option<Part>, Outside> {
    while let Some(outer) = open.pop() {
        match outer {
            Open::Maintain(condition) => step = maintain(condition, step),
            Open::Repeat => step = repeat(step),
            Open::Then(condition) => {
                signs.take(b"else")?;
                open.push(Open::Else(condition, step));
                return Ok(None);
            }
            Open::Else(condition, first) => step = choice(condition, first, step),
            Open::Group(mut group) => {
                group.steps.push(step);
                if read_joint(signs, &mut group, open.is_empty())? {
                    open.push(Open::Group(group));
                    return Ok(None);
                }
                step = group.part();
            }
        }
    }
    Ok(Some(step))
}

/// Reads what follows a step of a group, and says whether this is another step.
fn read_joint(signs: &mut Signs, group: &mut Group, is_whole_text: bool) -> Result<bool, Outside> {
    let goes_on = match signs.next() {
        b";" => true,
        b"," => {
            group.end_sequence();
            true
        }
        b"" if is_whole_text => false,
        b")" if !is_whole_text => false,
        _ => return Err(signs.fault()),
    };
    signs.pass();
    Ok(goes_on)
}

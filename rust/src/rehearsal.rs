//! What the program `rehearse` prints for a program file or text and a list of calls.
//!
//! It is written from document 01 and the format of a list of calls, and shares nothing with the
//! crates. The calls are made on the unfolding, which knows no table: so a rehearsal by the table is
//! compared with one by the tree.

use std::fmt::Write;

use crate::hex::hex;
use crate::record::{self, time_at};
use crate::refusals::RECORD_NOT_ALLOWED;
use crate::text;
use crate::unfolding::{Offer, Program, Progress, Run};

/// Bytes of the longest line that can be a call, without its line feed.
pub const MAX_LINE: usize = 4095;

/// What the program is given.
#[derive(Clone, Debug)]
pub struct Rehearsal {
    /// The program file, or the program as text.
    pub file: Vec<u8>,
    /// The list of calls, as text.
    pub calls: Vec<u8>,
    /// Whether the marked parts stand under each answer.
    pub with_parts: bool,
}

/// The program of an input, or the number of the first refusal that applies.
fn program_in(input: &[u8]) -> Result<Program, u32> {
    if text::is_text(input) {
        Program::read(&text::file(input)?)
    } else {
        Program::read(input)
    }
}

/// A call in a list of calls.
#[derive(Clone, Debug, PartialEq, Eq)]
pub enum Call {
    Begin {
        estimate: Vec<u8>,
    },
    /// Where no length is given, the goal buffer has a byte for each variable.
    Offer {
        time: u32,
        length: Option<u32>,
    },
    Settle {
        estimate: Vec<u8>,
    },
}

/// What a line of a list of calls says.
#[derive(Clone, Debug, PartialEq, Eq)]
pub enum Line {
    PassedOver,
    Call(Call),
    NoCall,
}

/// Reads a line, which is given without its line feed.
pub fn read_line(line: &[u8]) -> Line {
    // A line that is too long is not looked at, be it a comment.
    if line.len() > MAX_LINE {
        return Line::NoCall;
    }
    let words: Vec<&[u8]> = line
        .split(|&byte| byte == b' ')
        .filter(|word| !word.is_empty())
        .collect();
    match words.split_first() {
        None => Line::PassedOver,
        Some((first, _)) if first.starts_with(b"#") => Line::PassedOver,
        Some((first, others)) => read_call(first, others).map_or(Line::NoCall, Line::Call),
    }
}

/// The call that these words make, if they make one.
fn read_call(name: &[u8], operands: &[&[u8]]) -> Option<Call> {
    match (name, operands) {
        (b"begin", _) => Some(Call::Begin {
            estimate: read_pairs(operands)?,
        }),
        (b"settle", _) => Some(Call::Settle {
            estimate: read_pairs(operands)?,
        }),
        (b"offer", [time]) => Some(Call::Offer {
            time: read_number(time)?,
            length: None,
        }),
        (b"offer", [time, length]) => Some(Call::Offer {
            time: read_number(time)?,
            length: Some(read_number(length)?),
        }),
        _ => None,
    }
}

/// The bytes that these words spell. Each word is one pair of digits or several: no pair goes over
/// from one word to the next.
fn read_pairs(words: &[&[u8]]) -> Option<Vec<u8>> {
    let mut bytes = Vec::new();
    for word in words {
        for pair in word.chunks(2) {
            let [high, low] = pair else { return None };
            bytes.push(16 * read_digit(*high)? + read_digit(*low)?);
        }
    }
    Some(bytes)
}

/// The value of a hexadecimal digit.
fn read_digit(digit: u8) -> Option<u8> {
    match digit {
        b'0'..=b'9' => Some(digit - b'0'),
        b'A'..=b'F' => Some(digit - b'A' + 10),
        b'a'..=b'f' => Some(digit - b'a' + 10),
        _ => None,
    }
}

/// A number of 32 bits. There can be any number of zeros before it.
fn read_number(word: &[u8]) -> Option<u32> {
    let mut number: u32 = 0;
    for digit in word {
        if !digit.is_ascii_digit() {
            return None;
        }
        number = number
            .checked_mul(10)?
            .checked_add(u32::from(digit - b'0'))?;
    }
    Some(number)
}

/// What a call is answered.
#[derive(Clone, Debug, PartialEq, Eq)]
pub enum Answer {
    Refused(u32),
    Begun,
    Offered(Offer),
    Settled(Progress),
}

/// A program, and the run of it that was begun last, if any was.
pub struct LatestRun<'a> {
    program: &'a Program,
    run: Option<Run<'a>>,
}

impl<'a> LatestRun<'a> {
    /// No run has begun.
    pub fn new(program: &'a Program) -> LatestRun<'a> {
        let run = None;
        LatestRun { program, run }
    }

    /// The run that is going on or finished, if any has begun.
    pub fn run(&self) -> Option<&Run<'a>> {
        self.run.as_ref()
    }

    /// Makes a call.
    pub fn call(&mut self, call: &Call) -> Answer {
        let answer = match call {
            Call::Begin { estimate } => self.begin(estimate),
            Call::Offer { time, length } => self.offer(*time, *length),
            Call::Settle { estimate } => self.settle(estimate),
        };
        answer.unwrap_or_else(Answer::Refused)
    }

    /// An accepted beginning takes the place of the run before it. A refused one changes nothing.
    fn begin(&mut self, estimate: &[u8]) -> Result<Answer, u32> {
        self.run = Some(Run::begin(self.program, estimate)?);
        Ok(Answer::Begun)
    }

    fn offer(&mut self, time: u32, length: Option<u32>) -> Result<Answer, u32> {
        let room = length.map_or(self.program.sizes.variables, |length| length as usize);
        let run = self.run.as_mut().ok_or(RECORD_NOT_ALLOWED)?;
        run.offer(time, room).map(Answer::Offered)
    }

    fn settle(&mut self, estimate: &[u8]) -> Result<Answer, u32> {
        let run = self.run.as_mut().ok_or(RECORD_NOT_ALLOWED)?;
        run.settle(estimate).map(Answer::Settled)
    }

    /// The record as the calls have left it. Before a beginning it holds nothing but 0, which is not
    /// allowed, since the root is not marked.
    fn record(&self) -> Vec<u8> {
        match &self.run {
            Some(run) => run.record(),
            None => vec![0; record::RECORD_LEN],
        }
    }

    /// The numbers of the marked parts.
    fn parts_line(&self) -> String {
        let record = self.record();
        let marks = &record[record::MARKS..][..self.program.sizes.parts];
        let mut line = String::from("parts");
        for (part, mark) in marks.iter().enumerate() {
            if *mark == 1 {
                _ = write!(line, " {part}");
            }
        }
        line + "\n"
    }

    /// What stands under the last answer.
    fn summary(&self) -> String {
        let record = self.record();
        let estimate = &record[record::ESTIMATE..][..self.program.sizes.variables];
        let mut text = format!("phase {}\n", record[record::PHASE]);
        _ = writeln!(text, "last time {}", time_at(&record, record::TIME));
        _ = writeln!(text, "estimate {}", hex(estimate));
        for clock in 0..self.program.sizes.clocks {
            let started = record[record::STARTED + clock] == 1;
            let start = started.then(|| time_at(&record, record::start_place(clock)));
            _ = writeln!(text, "clock {clock} {}", number_or("-", start));
        }
        let cycle = self.run().and_then(|run| run.finishing_cycle);
        text + &format!("finishing cycle {}\n", number_or("-", cycle))
    }
}

/// A number, or what says that there is none.
fn number_or(none: &str, number: Option<impl ToString>) -> String {
    number.map_or(none.to_string(), |number| number.to_string())
}

/// The line for an answer.
fn answer_line(answer: &Answer) -> String {
    match answer {
        Answer::Refused(number) => format!("refused {number}\n"),
        Answer::Begun => "begun\n".to_string(),
        Answer::Offered(offer) => {
            let named = number_or("none", offer.named);
            format!("goals {} named {named}\n", hex(&offer.goals))
        }
        Answer::Settled(Progress::Running) => "running\n".to_string(),
        Answer::Settled(Progress::Finished) => "finished\n".to_string(),
    }
}

impl Rehearsal {
    /// All that `rehearse` prints.
    pub fn transcript(&self) -> String {
        let program = match program_in(&self.file) {
            Ok(program) => program,
            Err(refusal) => return format!("refused {refusal}\n"),
        };
        let mut latest = LatestRun::new(&program);
        let mut text = String::new();
        // What stands behind the last line feed is a line too, and passed over where it is empty.
        for (place, line) in self.calls.split(|&byte| byte == b'\n').enumerate() {
            match read_line(line) {
                Line::PassedOver => {}
                Line::Call(call) => {
                    text += &answer_line(&latest.call(&call));
                    if self.with_parts {
                        text += &latest.parts_line();
                    }
                }
                Line::NoCall => return text + &format!("line {}: not a call\n", place + 1),
            }
        }
        text + &latest.summary()
    }
}

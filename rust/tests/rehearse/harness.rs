//! Rehearsals that are compared with the model, byte by byte.

use std::collections::BTreeMap;
use std::ffi::OsStr;
use std::path::Path;

use gurvoke::counts::{named, Counts};
use gurvoke::hex::hex;
use gurvoke::programs::{Program, TemporaryFile};
use gurvoke::rehearsal::{read_line, Answer, Call, LatestRun, Line, Rehearsal};
use gurvoke::runs::{GapCounts, Gaps, StartCounts, Starts};
use gurvoke::unfolding;

pub const REHEARSE: Program = Program::named("rehearse");

/// The program's arguments for this rehearsal, with its file at this path.
pub fn arguments<'a>(rehearsal: &Rehearsal, path: &'a Path) -> Vec<&'a OsStr> {
    let mut arguments = vec![path.as_os_str()];
    if rehearsal.with_parts {
        arguments.push(OsStr::new("parts"));
    }
    arguments
}

/// Expects this text from the model.
pub fn assert_model(rehearsal: &Rehearsal, text: &str) {
    assert_same("model", &rehearsal.transcript(), text, rehearsal);
}

/// Expects this text from the program.
pub fn assert_program(rehearsal: &Rehearsal, text: &str) {
    let file = TemporaryFile::holding(&rehearsal.file);
    let printed = REHEARSE.run(&arguments(rehearsal, file.path()), &rehearsal.calls);
    assert_same("program", &printed, text, rehearsal);
}

/// Expects this text from the model and from the program.
pub fn assert_both(rehearsal: &Rehearsal, text: &str) {
    assert_model(rehearsal, text);
    assert_program(rehearsal, text);
}

/// Expects the same text from the program as from the model, and gives it.
pub fn assert_as_model(rehearsal: &Rehearsal) -> String {
    let text = rehearsal.transcript();
    assert_program(rehearsal, &text);
    text
}

/// Fails unless the two texts are alike, and shows the first lines in which they are not.
pub fn assert_same(name: &str, is: &str, should: &str, rehearsal: &Rehearsal) {
    if is == should {
        return;
    }
    let pairs = is.split('\n').zip(should.split('\n')).enumerate();
    let differing = pairs.filter(|(_, (is, should))| is != should).take(3);
    let lines: String = differing
        .map(|(place, (is, should))| format!("line {} is {is:?}, not {should:?}; ", place + 1))
        .collect();
    panic!(
        "{name}: {} bytes, not {}; {lines}program {}, parts {}, calls {}",
        is.len(),
        should.len(),
        hex(&rehearsal.file),
        rehearsal.with_parts,
        rehearsal.calls.escape_ascii()
    );
}

/// How often each kind of line was printed and found right.
#[derive(Default)]
pub struct Tally {
    pub rehearsals: u64,
    lines: BTreeMap<String, u64>,
    starts: StartCounts,
    gaps: GapCounts,
}

impl Tally {
    /// Compares the program with the model, and notes the lines.
    pub fn check(&mut self, rehearsal: &Rehearsal) {
        let text = assert_as_model(rehearsal);
        self.rehearsals += 1;
        for line in text.lines() {
            *self.lines.entry(kind(line)).or_default() += 1;
        }
        self.note_calls(rehearsal);
    }

    /// Notes what the calls come upon, which the lines do not tell.
    fn note_calls(&mut self, rehearsal: &Rehearsal) {
        let Ok(program) = unfolding::Program::read(&rehearsal.file) else {
            return;
        };
        let mut latest = LatestRun::new(&program);
        for line in rehearsal.calls.split(|&byte| byte == b'\n') {
            match read_line(line) {
                Line::PassedOver => {}
                Line::NoCall => return,
                Line::Call(call) => self.note_call(&mut latest, &call),
            }
        }
    }

    /// Makes a call on the model, and notes what a settling does to clocks, and what an offer and a
    /// settling come upon where a variable is unknown.
    fn note_call(&mut self, latest: &mut LatestRun, call: &Call) {
        let starts = latest.run().map(Starts::of_settling).unwrap_or_default();
        let gaps = match (call, latest.run()) {
            (Call::Settle { estimate }, Some(run)) => Gaps::of_settling(run, estimate),
            _ => Gaps::default(),
        };
        match (latest.call(call), latest.run()) {
            (Answer::Offered(_), Some(run)) => self.gaps.note(&Gaps::of_offer(run)),
            (Answer::Settled(_), _) => {
                self.starts.note(&starts);
                self.gaps.note(&gaps);
            }
            _ => {}
        }
    }

    /// How often this kind of line was printed.
    pub fn count(&self, kind: &str) -> u64 {
        self.lines.get(kind).copied().unwrap_or(0)
    }

    /// Answers to calls.
    fn answers(&self) -> u64 {
        let answers = ["begun", "goals", ONE, SEVERAL, "running", "finished"];
        let refused = self.lines.keys().filter(|kind| kind.starts_with("refused"));
        let refused: u64 = refused.map(|kind| self.count(kind)).sum();
        refused + answers.iter().map(|kind| self.count(kind)).sum::<u64>()
    }

    /// What was counted, as the list of counts names it.
    pub fn counts(&self) -> Counts {
        let mut counts = named([("rehearsals", self.rehearsals), ("answers", self.answers())]);
        for (kind, count) in &self.lines {
            counts.push((format!("lines {kind}"), *count));
        }
        counts.extend(self.starts.counts());
        counts.extend(self.gaps.counts());
        counts
    }
}

/// The kinds of offers with one contested variable, and with more.
const ONE: &str = "contested one";
const SEVERAL: &str = "contested several";

/// The kind of estimates in which a variable is unknown.
const WITH_GAPS: &str = "estimate with gaps";

/// What kind of line it is: the first word, with the number of a refusal; offers with contested
/// variables, estimates with unknown ones, and lines with no call, under names of their own.
fn kind(line: &str) -> String {
    let first = line.split(' ').next().unwrap_or_default();
    let contested = line.split(' ').filter(|&pair| pair == "FE").count();
    match first {
        "estimate" if line.contains("FF") => WITH_GAPS.to_string(),
        "refused" => line.to_string(),
        "goals" if contested == 1 => ONE.to_string(),
        "goals" if contested > 1 => SEVERAL.to_string(),
        "line" => "not a call".to_string(),
        _ => first.to_string(),
    }
}

//! Random programs to run. They have few values and low clock limits, so that conditions break and
//! clocks come due often, and often in the same cycle.

use crate::cases::{self, Draft, DraftPart, Shape};
use crate::parts::{
    count_bytes, operand_bytes, Kind, Test, CHOICE, GOAL, MAINTAIN, PAR, REPEAT, SEQ, START, WAIT,
};
use crate::rng::Rng;
use crate::sizes::{MAX_CLOCKS, MAX_DEPTH, MAX_PARTS, MAX_VALUE, MAX_VARIABLES, OPERAND_LEN};

/// The file of a random program of 1 part up to as many as allowed.
pub fn program(rng: &mut Rng) -> Vec<u8> {
    let parts = match rng.below(40) {
        0 => MAX_PARTS,
        1 | 2 => rng.between(60, MAX_PARTS),
        3..=9 => rng.between(13, 60),
        _ => rng.between(1, 12),
    };
    let depth = match rng.below(3) {
        0 => MAX_DEPTH,
        1 => rng.between(2, MAX_DEPTH),
        _ => rng.between(2, 6),
    };
    let shape = rng.pick(&[Shape::Deep, Shape::Wide, Shape::Mixed, Shape::Mixed]);
    program_of(rng, parts, depth, shape)
}

/// The file of a random program to run, of exactly so many parts.
pub fn program_of(rng: &mut Rng, parts: usize, depth: usize, shape: Shape) -> Vec<u8> {
    let mut draft = cases::program(rng, parts, depth, shape);
    narrow(rng, &mut draft);
    draft.file()
}

/// The file of a random program that starts two clocks and then has MAINTAINs, one inside the
/// other, whose conditions break at readings for which WAITs inside them wait, or by the value 2.
pub fn doubtful_program(rng: &mut Rng) -> Vec<u8> {
    let parts = rng.between(3, 16);
    let depth = rng.between(3, 10);
    let shape = rng.pick(&[Shape::Deep, Shape::Mixed]);
    let mut draft = cases::program(rng, parts, depth, shape);
    draft.variables = 2;
    draft.clocks = 2;
    for part in &mut draft.parts {
        *part = doubtful_part(rng, *part);
    }
    draft.parts.splice(0..0, two_starts());
    draft.file()
}

/// Another part in place of this one, with as many children.
fn doubtful_part(rng: &mut Rng, part: DraftPart) -> DraftPart {
    let subject = rng.below(2) as u8;
    let limit = rng.pick(&[2, 3]);
    let due = operand_bytes(Test::AtLeast as u8, subject, limit);
    let in_time = operand_bytes(Test::Below as u8, subject, limit);
    let unbroken = operand_bytes(Test::Differs as u8, subject, 2);
    let goal = operand_bytes(0, subject, rng.pick(&[0, 1, 1, 2]));
    let known = |kind: Kind| part.kind == kind as u8;
    if known(Kind::Goal) || known(Kind::Start) || known(Kind::Wait) {
        return match rng.below(5) {
            0..=2 => draft_part(Kind::Wait, due),
            3 => draft_part(Kind::Goal, goal),
            _ => draft_part(Kind::Start, operand_bytes(0, subject, 0)),
        };
    }
    if known(Kind::Choice) {
        return draft_part(Kind::Choice, rng.pick(&[due, in_time, unbroken]));
    }
    let of_one = known(Kind::Repeat) || part.operand[0] == 1;
    if known(Kind::Maintain) || (of_one && !rng.one_in(4)) {
        return draft_part(Kind::Maintain, rng.pick(&[in_time, unbroken, unbroken]));
    }
    part
}

fn draft_part(kind: Kind, operand: [u8; OPERAND_LEN]) -> DraftPart {
    let kind = kind as u8;
    DraftPart { kind, operand }
}

/// The front of a SEQ of two STARTs and one part more.
fn two_starts() -> [DraftPart; 3] {
    [
        draft_part(Kind::Seq, count_bytes(3)),
        draft_part(Kind::Start, operand_bytes(0, 0, 0)),
        draft_part(Kind::Start, operand_bytes(0, 1, 0)),
    ]
}

/// The file of a random program in which two or more variables are often contested at once: most
/// leaves are GOALs, and most lists of children are PARs. MAINTAINs that break and SEQs have GOALs
/// come and go.
pub fn contending_program(rng: &mut Rng) -> Vec<u8> {
    let parts = rng.between(5, 30);
    let depth = rng.between(2, 5);
    let shape = rng.pick(&[Shape::Wide, Shape::Mixed]);
    let mut draft = cases::program(rng, parts, depth, shape);
    narrow(rng, &mut draft);
    let variables = rng.pick(&[2, 3, 5, MAX_VARIABLES as u8]);
    draft.variables = draft.variables.max(variables);
    for part in &mut draft.parts {
        *part = contending_part(rng, *part, draft.variables);
    }
    draft.file()
}

/// Another part in place of this one, with as many children.
fn contending_part(rng: &mut Rng, part: DraftPart, variables: u8) -> DraftPart {
    let last = variables - 1;
    let any = rng.below(usize::from(variables)) as u8;
    let variable = rng.pick(&[0, 1, last - 1, last, any]);
    let goal = operand_bytes(0, variable, rng.pick(&[0, 1, 2]));
    match part.kind {
        GOAL | START | WAIT if !rng.one_in(6) => draft_part(Kind::Goal, goal),
        SEQ if !rng.one_in(3) => draft_part(Kind::Par, part.operand),
        _ => part,
    }
}

/// The file of a random program that starts its few clocks again and again, and has conditions over
/// them with low limits: so the old start and the new one are told apart.
pub fn restarting_program(rng: &mut Rng) -> Vec<u8> {
    let parts = rng.between(3, 20);
    let depth = rng.between(2, 6);
    let shape = rng.pick(&[Shape::Deep, Shape::Wide, Shape::Mixed]);
    let mut draft = cases::program(rng, parts, depth, shape);
    draft.variables = 2;
    draft.clocks = rng.pick(&[1, 1, 2, MAX_CLOCKS as u8]);
    for part in &mut draft.parts {
        *part = restarting_part(rng, *part, draft.clocks);
    }
    if rng.one_in(2) {
        draft
            .parts
            .insert(0, draft_part(Kind::Repeat, [0; OPERAND_LEN]));
    }
    draft.file()
}

/// Another part in place of this one, with as many children.
fn restarting_part(rng: &mut Rng, part: DraftPart, clocks: u8) -> DraftPart {
    let test = rng.pick(&[Test::AtLeast, Test::Below]);
    let limit = rng.pick(&[0, 1, 1, 2, 2, 3, 5]);
    let over_clock = operand_bytes(test as u8, subject(rng, clocks), limit);
    let in_time = operand_bytes(Test::Below as u8, subject(rng, clocks), limit.max(2));
    let unbroken = operand_bytes(Test::Differs as u8, rng.below(2) as u8, 2);
    let goal = operand_bytes(0, rng.below(2) as u8, rng.pick(&[0, 1, 2]));
    match part.kind {
        GOAL | START | WAIT => match rng.below(8) {
            0..=3 => draft_part(Kind::Start, operand_bytes(0, subject(rng, clocks), 0)),
            4..=6 => draft_part(Kind::Wait, over_clock),
            _ => draft_part(Kind::Goal, goal),
        },
        MAINTAIN => draft_part(
            Kind::Maintain,
            rng.pick(&[in_time, in_time, over_clock, unbroken]),
        ),
        CHOICE => draft_part(Kind::Choice, over_clock),
        SEQ | PAR if part.operand == count_bytes(1) => draft_part(Kind::Repeat, [0; OPERAND_LEN]),
        _ => part,
    }
}

/// Gives a program few variables, clocks, values and readings, so that its parts meddle with each
/// other. Kinds and child counts stay, but for some REPEATs, under which nothing ends.
fn narrow(rng: &mut Rng, draft: &mut Draft) {
    draft.variables = rng.pick(&[1, 1, 2, 2, 3, MAX_VARIABLES as u8]);
    if draft.clocks > 0 {
        draft.clocks = rng.pick(&[1, 1, 2, 3, MAX_CLOCKS as u8]);
    }
    let keep_repeats = rng.one_in(2);
    let sizes = (draft.variables, draft.clocks);
    for part in &mut draft.parts {
        if part.kind == REPEAT && !keep_repeats {
            part.kind = MAINTAIN;
        }
        part.operand = match part.kind {
            GOAL => operand_bytes(0, subject(rng, sizes.0), small_value(rng)),
            START => operand_bytes(0, subject(rng, sizes.1), 0),
            WAIT | MAINTAIN | CHOICE => condition(rng, sizes),
            _ => part.operand,
        };
    }
}

fn condition(rng: &mut Rng, (variables, clocks): (u8, u8)) -> [u8; OPERAND_LEN] {
    if clocks == 0 || rng.one_in(2) {
        let test = rng.pick(&[Test::Equals, Test::Differs]);
        operand_bytes(test as u8, subject(rng, variables), small_value(rng))
    } else {
        let test = rng.pick(&[Test::AtLeast, Test::Below]);
        let any = rng.between(0, usize::from(u16::MAX)) as u16;
        let reading = rng.pick(&[0, 1, 1, 2, 2, 3, 3, 4, 5, 10, 255, 256, u16::MAX, any]);
        operand_bytes(test as u8, subject(rng, clocks), reading)
    }
}

/// A variable or clock, mostly one of the first two, sometimes the last one.
fn subject(rng: &mut Rng, count: u8) -> u8 {
    let last = count - 1;
    rng.pick(&[0, 0, last.min(1), last])
}

fn small_value(rng: &mut Rng) -> u16 {
    rng.pick(&[0, 0, 1, 1, 1, 2, 2, MAX_VALUE])
}

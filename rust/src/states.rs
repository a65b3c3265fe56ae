//! Records read back as states of a run.
//!
//! A record is allowed exactly when it holds a state of the unfolding, whether or not a run comes
//! to it: document 01's clauses on marks say of each kind what can remain of a part of that kind, and
//! document 02's R-4 that a variable can be unknown. So this is the papers' "allowed", said over the
//! tree.

use crate::record::{self, time_at, Phase};
use crate::sizes::{MAX_VALUE, UNKNOWN_VALUE};
use crate::unfolding::{Program, Rest, Run, Tree};

/// The state that a record holds, if it is allowed. Bytes behind the record do not count.
pub fn read<'a>(program: &'a Program, bytes: &[u8]) -> Option<Run<'a>> {
    let bytes = bytes.get(..record::RECORD_LEN)?;
    let sizes = &program.sizes;
    let phase = Phase::from_byte(bytes[record::PHASE])?;
    let time = time_at(bytes, record::TIME);
    let estimate = front(&bytes[record::ESTIMATE..record::STARTED], sizes.variables)?;
    let clocks = clocks(bytes, sizes.clocks)?;
    let marks = front(&bytes[record::MARKS..], sizes.parts)?;
    let rest = rest(&program.root, &mut marks.iter(), phase)?;

    let values = estimate.iter().all(|&byte| is_value_or_unknown(byte));
    let started = clocks.iter().flatten().all(|&start| start <= time);
    let finished = rest.is_none() == (phase == Phase::Finished);
    (values && started && finished).then(|| Run {
        program,
        phase,
        time,
        estimate: estimate.to_vec(),
        clocks,
        rest,
        settlings: 0,
        finishing_cycle: None,
    })
}

/// The entries that the program has, if all beyond them are 0.
fn front(entries: &[u8], count: usize) -> Option<&[u8]> {
    let (front, beyond) = entries.split_at(count);
    beyond.iter().all(|&entry| entry == 0).then_some(front)
}

/// Whether the byte may stand in an estimate.
fn is_value_or_unknown(byte: u8) -> bool {
    byte == UNKNOWN_VALUE || u16::from(byte) <= MAX_VALUE
}

/// When each clock was last started, if flags and times fit each other.
fn clocks(bytes: &[u8], count: usize) -> Option<Vec<Option<u32>>> {
    let flags = &bytes[record::STARTED..record::STARTS];
    let mut clocks = Vec::new();
    for (clock, flag) in flags.iter().enumerate() {
        let start = time_at(bytes, record::start_place(clock));
        clocks.push(match flag {
            0 if start == 0 => None,
            1 if clock < count => Some(start),
            _ => return None,
        });
    }
    clocks.truncate(count);
    Some(clocks)
}

/// What remains of a part by its marks, the first of which is its own: nothing, or something, if
/// the marks are allowed at all.
fn rest(tree: &Tree, marks: &mut std::slice::Iter<u8>, phase: Phase) -> Option<Option<Rest>> {
    let mark = *marks.next()?;
    let children: Vec<Option<Rest>> = tree
        .children()
        .iter()
        .map(|child| rest(child, marks, phase))
        .collect::<Option<_>>()?;
    match mark {
        0 if children.iter().all(Option::is_none) => Some(None),
        1 => marked(tree, children, phase).map(Some),
        _ => None,
    }
}

/// What remains of a marked part, by what remains of its children.
fn marked(tree: &Tree, children: Vec<Option<Rest>>, phase: Phase) -> Option<Rest> {
    let left = children.iter().flatten().count();
    let place = children.iter().position(Option::is_some);
    let first = children.iter().flatten().next().cloned().map(Box::new);
    match tree {
        Tree::Goal { .. } | Tree::Start { .. } | Tree::Wait(_) => Some(Rest::Leaf),
        Tree::Seq(_) if left == 1 => Some(Rest::Seq {
            current: place?,
            child: first?,
        }),
        Tree::Par(_) if left >= 1 => Some(Rest::Par(children)),
        Tree::Maintain(..) if left == 1 => Some(Rest::Maintain {
            violated: false,
            child: first?,
        }),
        Tree::Maintain(_, child) if phase == Phase::Offered => Some(Rest::Maintain {
            violated: true,
            child: Box::new(child.afresh()),
        }),
        Tree::Choice(..) if left == 0 => Some(Rest::Undecided),
        Tree::Choice(..) if left == 1 => Some(Rest::Decided {
            branch: place?,
            child: first?,
        }),
        Tree::Repeat(_) if left == 1 => Some(Rest::Repeat(first?)),
        _ => None,
    }
}

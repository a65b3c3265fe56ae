//! Trees that are too deep and have another fault: before the part that is too deep, at it or
//! behind it. The refusals 4, 5 and 6 come before 7, each over all parts.

use gurvoke::cases::{Draft, DraftPart};
use gurvoke::counts::assert_counts;
use gurvoke::parts::{Kind, Part, GOAL};
use gurvoke::refusals::{NOT_ONE_TREE, OPERAND_NOT_ALLOWED, UNKNOWN_KIND};
use gurvoke::sizes::OPERAND_LEN;

use super::{
    leaf, reaching, Trial, BEYOND, CLOCKS, JOINS_OF_TWO, ROOT_DEPTH, VARIABLES, WAYS_DOWN,
};

/// No part has this kind.
const UNKNOWN: u8 = Kind::ALL.len() as u8 + 1;

/// No kind allows this operand.
const FORBIDDEN: [u8; OPERAND_LEN] = [u8::MAX; OPERAND_LEN];

#[test]
fn faults_of_trees_that_are_too_deep() {
    let mut trial = Trial::new(207);
    for join in JOINS_OF_TWO {
        for way in WAYS_DOWN {
            let deep = reaching(way, ROOT_DEPTH + 1, BEYOND);
            for children in [vec![deep.clone(), leaf()], vec![leaf(), deep]] {
                let root = join(children);
                trial.check(&root, BEYOND);
                check_faults(&mut trial, &draft_of(&root));
            }
        }
    }
    let counts = trial.counts();
    assert_counts(file!(), "faults_of_trees_that_are_too_deep", &counts);
}

/// Tries each fault at each place, and several at once.
fn check_faults(trial: &mut Trial, draft: &Draft) {
    for place in 0..draft.parts.len() {
        refuse(trial, &with_unknown_kind(draft, place), UNKNOWN_KIND);
        let forbidden = with_forbidden_operand(draft, place);
        refuse(trial, &forbidden, OPERAND_NOT_ALLOWED);
    }
    for no_tree in no_trees(draft) {
        refuse(trial, &no_tree, NOT_ONE_TREE);
        let last = no_tree.parts.len() - 1;
        for (one, other) in [(0, last), (last, 0)] {
            let two_faults = with_forbidden_operand(&no_tree, one);
            refuse(trial, &two_faults, OPERAND_NOT_ALLOWED);
            let three_faults = with_unknown_kind(&two_faults, other);
            refuse(trial, &three_faults, UNKNOWN_KIND);
        }
    }
}

fn refuse(trial: &mut Trial, draft: &Draft, refusal: u32) {
    trial.expect(&draft.file(), Err(refusal));
}

fn with_unknown_kind(draft: &Draft, place: usize) -> Draft {
    let mut draft = draft.clone();
    draft.parts[place].kind = UNKNOWN;
    draft
}

fn with_forbidden_operand(draft: &Draft, place: usize) -> Draft {
    let mut draft = draft.clone();
    draft.parts[place].operand = FORBIDDEN;
    draft
}

/// A tree with one leaf more, at each place, and with one leaf less. The parts are then one more or
/// one less than the root and all children that the parts ask for, so they form no tree.
fn no_trees(draft: &Draft) -> Vec<Draft> {
    let mut drafts = Vec::new();
    for place in 0..=draft.parts.len() {
        let mut more = draft.clone();
        more.parts.insert(place, draft_part(&leaf()));
        drafts.push(more);
    }
    for place in 0..draft.parts.len() {
        if draft.parts[place].kind == GOAL {
            let mut fewer = draft.clone();
            fewer.parts.remove(place);
            drafts.push(fewer);
        }
    }
    drafts
}

/// The parts of a tree, which has no leaves but GOALs, in preorder.
fn draft_of(root: &Part) -> Draft {
    let mut parts = Vec::new();
    push_parts(root, &mut parts);
    Draft {
        variables: VARIABLES as u8,
        clocks: CLOCKS as u8,
        parts,
    }
}

fn push_parts(part: &Part, parts: &mut Vec<DraftPart>) {
    parts.push(draft_part(part));
    for child in &part.children {
        push_parts(child, parts);
    }
}

fn draft_part(part: &Part) -> DraftPart {
    DraftPart {
        kind: part.label.kind() as u8,
        operand: part.label.operand(),
    }
}

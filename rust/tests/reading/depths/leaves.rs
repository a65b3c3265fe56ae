//! Each leaf of a tree put deeper, so that the depth shows which the walk has at each part.

use std::slice::from_ref;

use gurvoke::builder::{equals, repeat};
use gurvoke::counts::assert_counts;
use gurvoke::parts::{Label, Part};
use gurvoke::sizes::MAX_DEPTH;

use super::{beneath, leaf, reaching, Trial, BEYOND, JOINS_OF_TWO, ROOT_DEPTH};

/// All trees of up to so many parts are tried.
const SMALL: usize = 5;

/// Where all leaves but one are put, and where that one is. A leaf is never put higher, so at the
/// root's depth it stays where it is.
const PLACES: [(usize, usize); 3] = [
    (ROOT_DEPTH, MAX_DEPTH),
    (ROOT_DEPTH, BEYOND),
    (MAX_DEPTH, BEYOND),
];

#[test]
fn leaves_of_small_trees() {
    let mut trial = Trial::new(205);
    for tree in (1..=SMALL).flat_map(trees) {
        check_leaves(&mut trial, &tree);
    }
    assert_counts(file!(), "leaves_of_small_trees", &trial.counts());
}

/// A tree that goes down to the greatest depth with a leaf beside each part on the way, after it or
/// before it: a walk comes back to each level, from the level below and from the greatest depth.
#[test]
fn leaves_beside_each_level() {
    let mut trial = Trial::new(206);
    for join in JOINS_OF_TWO {
        let after = |child| join(vec![child, leaf()]);
        let before = |child| join(vec![leaf(), child]);
        let levels = MAX_DEPTH - ROOT_DEPTH;
        check_leaves(&mut trial, &beneath(after, levels, leaf()));
        check_leaves(&mut trial, &beneath(before, levels, leaf()));
    }
    assert_counts(file!(), "leaves_beside_each_level", &trial.counts());
}

/// Tries a tree that is not too deep with all leaves at the greatest depth, and with each leaf in
/// turn at its place and the others at theirs.
fn check_leaves(trial: &mut Trial, tree: &Part) {
    let leaves = leaf_count(tree);
    trial.check(&with_leaves_at(tree, vec![MAX_DEPTH; leaves]), MAX_DEPTH);
    for leaf in 0..leaves {
        for (others, deepest) in PLACES {
            let mut depths = vec![others; leaves];
            depths[leaf] = deepest;
            trial.check(&with_leaves_at(tree, depths), deepest);
        }
    }
}

fn leaf_count(part: &Part) -> usize {
    match part.children.len() {
        0 => 1,
        _ => part.children.iter().map(leaf_count).sum(),
    }
}

/// A tree whose leaves are put below REPEATs, each down to its depth in the list.
fn with_leaves_at(tree: &Part, depths: Vec<usize>) -> Part {
    lengthened(tree, ROOT_DEPTH, &mut depths.into_iter())
}

/// The same for a part of the tree, which stands at this depth.
fn lengthened(part: &Part, depth: usize, depths: &mut impl Iterator<Item = usize>) -> Part {
    if part.children.is_empty() {
        let to = depths.next().expect("each leaf has its depth");
        return reaching(repeat, depth, to);
    }
    let mut children = Vec::new();
    for child in &part.children {
        children.push(lengthened(child, depth + 1, depths));
    }
    let label = part.label;
    Part { label, children }
}

/// All trees of so many parts, with one kind of leaf.
fn trees(parts: usize) -> Vec<Part> {
    match parts {
        1 => vec![leaf()],
        _ => (1..parts)
            .flat_map(|children| forests(children, parts - 1))
            .flat_map(parents)
            .collect(),
    }
}

/// All lists of so many trees with so many parts in all.
fn forests(count: usize, parts: usize) -> Vec<Vec<Part>> {
    if count == 0 {
        return vec![Vec::new(); usize::from(parts == 0)];
    }
    let mut lists = Vec::new();
    for first in 1..=parts {
        let others = forests(count - 1, parts - first);
        for tree in trees(first) {
            let list = |rest: &Vec<Part>| [from_ref(&tree), rest].concat();
            lists.extend(others.iter().map(list));
        }
    }
    lists
}

/// A part of each kind that can have these children.
fn parents(children: Vec<Part>) -> Vec<Part> {
    let count = children.len();
    let mut labels = vec![Label::Seq { count }, Label::Par { count }];
    match count {
        1 => labels.extend([Label::Maintain(equals(0, 0)), Label::Repeat]),
        2 => labels.push(Label::Choice(equals(0, 0))),
        _ => {}
    }
    let parent = |label| Part {
        label,
        children: children.clone(),
    };
    labels.into_iter().map(parent).collect()
}

//! All cases of some small sets.

mod changes;
mod symbols;

use gurvoke::answers::DONE;
use gurvoke::counts::assert_counts;
use gurvoke::model;
use gurvoke::parts::{GOAL, SEQ};
use gurvoke::rng::Rng;
use gurvoke::sizes::{file_len, table_len, MAX_TABLE_LEN, SIZES_LEN};

use crate::harness::{check_compile, check_decompile, check_file, Tally};
use symbols::{file_of, lists, table_of, tree_count, BY_CHILDREN, SYMBOLS};

#[test]
fn files_of_up_to_three_parts() {
    let mut rng = Rng::new(10);
    let mut tally = Tally::default();
    for len in 1..=3 {
        for parts in lists(&SYMBOLS, len) {
            let file = file_of(&parts);
            let exact = table_len(len);
            tally.note(check_compile(&mut rng, &file, exact + 5));
            if model::read(&file).is_ok() {
                check_file(&mut rng, &mut tally, &file).expect("the model accepts this file");
            }
        }
    }
    assert_counts(file!(), "files_of_up_to_three_parts", &tally.counts());
}

/// Files with nothing wrong but perhaps their tree. Those accepted are exactly as many as trees.
#[test]
fn trees_of_up_to_five_parts() {
    let mut rng = Rng::new(18);
    let mut tally = Tally::default();
    let symbols = BY_CHILDREN.concat();
    for len in 1..=5 {
        let exact = table_len(len);
        for parts in lists(&symbols, len) {
            tally.note(check_compile(&mut rng, &file_of(&parts), exact));
        }
    }
    let trees: usize = (1..=5).map(tree_count).sum();
    assert_counts(file!(), "trees_of_up_to_five_parts", &tally.counts());
    tally.require_exactly("trees of up to five parts", DONE, trees as u64);
}

/// Every kind with many operands, under several sizes.
#[test]
fn operands_of_one_part() {
    let mut rng = Rng::new(11);
    let mut tally = Tally::default();
    let values: [u16; 11] = [0, 1, 249, 250, 251, 252, 255, 256, 506, 64_000, 65_535];
    for (variables, clocks) in [(1, 0), (1, 1), (2, 1), (31, 15), (32, 16)] {
        for kind in (0..=12).chain([128, 129, 255]) {
            for b0 in (0..=6).chain([129, 255]) {
                for b1 in [0, 1, 2, 14, 15, 16, 30, 31, 32, 255] {
                    for value in values {
                        let [b2, b3] = value.to_le_bytes();
                        let file = [1, variables, clocks, kind, b0, b1, b2, b3];
                        tally.note(check_compile(&mut rng, &file, table_len(1)));
                    }
                }
            }
        }
    }
    assert_counts(file!(), "operands_of_one_part", &tally.counts());
}

/// Every number of parts with sizes about their limits, and lengths about the right one.
#[test]
fn sizes_and_lengths() {
    let mut rng = Rng::new(12);
    let mut tally = Tally::default();
    for parts in 0..=255 {
        for (variables, clocks) in sizes_about_limits() {
            let sizes = [parts, variables, clocks];
            let mut file = seq_of_goals(sizes);
            for table_len in [0, MAX_TABLE_LEN] {
                tally.note(check_compile(&mut rng, &file, table_len));
            }
            tally.note(check_compile(&mut rng, &sizes, MAX_TABLE_LEN));
            file.push(0);
            tally.note(check_compile(&mut rng, &file, MAX_TABLE_LEN));
            file.truncate(file.len() - 2);
            tally.note(check_compile(&mut rng, &file, MAX_TABLE_LEN));
        }
    }
    for len in 0..=2 {
        for first in 0..=255 {
            tally.note(check_compile(&mut rng, &[first, 1][..len], MAX_TABLE_LEN));
        }
    }
    assert_counts(file!(), "sizes_and_lengths", &tally.counts());
}

/// Numbers of variables and clocks, allowed and just not.
fn sizes_about_limits() -> Vec<(u8, u8)> {
    let variables = [0, 1, 2, 31, 32, 33, 128, 255];
    let clocks = [0, 1, 15, 16, 17, 255];
    variables
        .iter()
        .flat_map(|&v| clocks.iter().map(move |&k| (v, k)))
        .collect()
}

/// A SEQ of GOALs, or a GOAL alone, of these sizes.
fn seq_of_goals(sizes: [u8; 3]) -> Vec<u8> {
    let parts = usize::from(sizes[0]);
    let mut file = sizes.to_vec();
    file.resize(SIZES_LEN + parts, GOAL);
    file.resize(file_len(parts), 0);
    if parts > 1 {
        file[SIZES_LEN] = SEQ;
        file[SIZES_LEN + parts] = sizes[0] - 1;
    }
    file
}

/// Among all tables of one or two parts over a few numbers, exactly one belongs to each tree.
#[test]
fn tables_of_up_to_two_parts() {
    let mut rng = Rng::new(15);
    let mut tally = Tally::default();
    let symbols = BY_CHILDREN.concat();
    let places = all_places();
    for &first in &symbols {
        for &place in &places {
            let table = table_of(&[(first, place)]);
            tally.note(check_decompile(&mut rng, &table, file_len(1)));
        }
        for &second in &symbols {
            for &place in &places {
                for &below in &places {
                    let table = table_of(&[(first, place), (second, below)]);
                    tally.note(check_decompile(&mut rng, &table, file_len(2)));
                }
            }
        }
    }
    let trees = tree_count(1) + tree_count(2);
    assert_counts(file!(), "tables_of_up_to_two_parts", &tally.counts());
    tally.require_exactly("tables of up to two parts", DONE, trees as u64);
}

/// All values of end, parent and next over a few numbers.
fn all_places() -> Vec<[u8; 3]> {
    let numbers = [0, 1, 2, 255];
    let mut places = Vec::new();
    for end in numbers {
        for parent in numbers {
            for next in numbers {
                places.push([end, parent, next]);
            }
        }
    }
    places
}

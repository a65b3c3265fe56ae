//! Every single change of a byte, every shorter input, and output buffers of every length.

use gurvoke::answers::DONE;
use gurvoke::cases::{any_program, program, Shape};
use gurvoke::counts::assert_counts;
use gurvoke::model;
use gurvoke::rng::Rng;
use gurvoke::sizes::{MAX_DEPTH, MAX_PARTS};

use crate::harness::{
    check_compile, check_compile_cut, check_decompile, check_decompile_cut, Tally,
};

/// Small programs of each shape.
fn small_programs(rng: &mut Rng) -> Vec<Vec<u8>> {
    let mut files = Vec::new();
    for parts in [1, 2, 3, 4, 5, 6, 8] {
        for shape in [Shape::Deep, Shape::Wide, Shape::Mixed] {
            files.push(program(rng, parts, 5, shape).file());
        }
    }
    files
}

/// Every byte of small files, set to every other value.
#[test]
fn single_byte_changes_of_small_files() {
    let mut rng = Rng::new(13);
    let mut tally = Tally::default();
    for file in small_programs(&mut rng) {
        let exact = model::read(&file).expect("a valid program").table().len();
        for changed in changes(&file, 1..=255) {
            tally.note(check_compile(&mut rng, &changed, exact));
        }
    }
    assert_counts(
        file!(),
        "single_byte_changes_of_small_files",
        &tally.counts(),
    );
}

/// Every byte of the tables of small files, set to every other value.
#[test]
fn single_byte_changes_of_small_tables() {
    let mut rng = Rng::new(13);
    let mut tally = Tally::default();
    for file in small_programs(&mut rng) {
        let table = model::read(&file).expect("a valid program").table();
        for changed in changes(&table, 1..=255) {
            tally.note(check_decompile(&mut rng, &changed, file.len()));
        }
    }
    assert_counts(
        file!(),
        "single_byte_changes_of_small_tables",
        &tally.counts(),
    );
}

/// Every byte of the largest tables, made one more and one less.
#[test]
fn single_byte_changes_of_large_tables() {
    let mut rng = Rng::new(14);
    let mut tally = Tally::default();
    for shape in [Shape::Deep, Shape::Wide, Shape::Mixed] {
        let draft = program(&mut rng, MAX_PARTS, MAX_DEPTH, shape);
        let file = draft.file();
        let table = model::read(&file).expect("a valid program").table();
        for changed in changes(&table, [1, 255]) {
            tally.note(check_decompile(&mut rng, &changed, file.len()));
        }
    }
    assert_counts(
        file!(),
        "single_byte_changes_of_large_tables",
        &tally.counts(),
    );
}

/// All copies of `bytes` with one byte increased by one of the steps.
fn changes<'a>(
    bytes: &'a [u8],
    steps: impl IntoIterator<Item = u8> + Clone + 'a,
) -> impl Iterator<Item = Vec<u8>> + 'a {
    (0..bytes.len()).flat_map(move |place| {
        steps.clone().into_iter().map(move |step| {
            let mut changed = bytes.to_vec();
            changed[place] = changed[place].wrapping_add(step);
            changed
        })
    })
}

/// Every shorter piece of a file or table, with the rest standing behind it in memory.
#[test]
fn cut_inputs() {
    let mut rng = Rng::new(16);
    let mut tally = Tally::default();
    for _ in 0..60 {
        let file = any_program(&mut rng).file();
        let table = model::read(&file).expect("a valid program").table();
        for len in 0..file.len() {
            tally.note(check_compile_cut(&mut rng, &file, len, table.len()));
        }
        for len in 0..table.len() {
            tally.note(check_decompile_cut(&mut rng, &table, len, file.len()));
        }
    }
    assert_counts(file!(), "cut_inputs", &tally.counts());
    tally.require_exactly("cut inputs", DONE, 0);
}

/// Output buffers of every length up to a few bytes more than are needed.
#[test]
fn output_lengths() {
    let mut rng = Rng::new(17);
    let mut tally = Tally::default();
    for parts in [1, 2, 3, 20, MAX_PARTS] {
        let file = program(&mut rng, parts, MAX_DEPTH, Shape::Mixed).file();
        let table = model::read(&file).expect("a valid program").table();
        for len in 0..=table.len() + 10 {
            tally.note(check_compile(&mut rng, &file, len));
        }
        for len in 0..=file.len() + 10 {
            tally.note(check_decompile(&mut rng, &table, len));
        }
    }
    assert_counts(file!(), "output_lengths", &tally.counts());
    tally.require_exactly("output lengths", DONE, 5 * 2 * 11);
}

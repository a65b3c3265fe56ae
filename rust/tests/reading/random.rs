//! Random programs, files and tables, valid and damaged.

use gurvoke::cases::{any_program, program, Shape};
use gurvoke::counts::{assert_counts, named};
use gurvoke::damage::{damaged_file, damaged_table, random_file, random_table, wrap_rows};
use gurvoke::hex::hex;
use gurvoke::model;
use gurvoke::refusals::{NOT_A_TABLE, TOO_DEEP};
use gurvoke::rng::Rng;
use gurvoke::sizes::{Sizes, MAX_DEPTH, MAX_PARTS};

use crate::harness::{check_compile, check_decompile, check_file, check_table, Tally};

/// Programs that are valid by the way they are made.
#[test]
fn valid_programs() {
    let mut rng = Rng::new(100);
    let mut tally = Tally::default();
    let mut smallest = 0;
    let mut largest = 0;
    let mut deepest = 0;
    for _ in 0..20_000 {
        let file = any_program(&mut rng).file();
        let answer = check_file(&mut rng, &mut tally, &file);
        assert_eq!(answer, Ok(()), "valid program {}", hex(&file));
        let program = model::read(&file).expect("accepted just before");
        smallest += u64::from(program.sizes.parts == 1);
        largest += u64::from(program.sizes.parts == MAX_PARTS);
        deepest += u64::from(program.root.depth() == MAX_DEPTH);
    }
    let sizes = named([
        ("programs of one part", smallest),
        ("programs of most parts", largest),
        ("programs of greatest depth", deepest),
    ]);
    let counts = [tally.counts(), sizes].concat();
    assert_counts(file!(), "valid_programs", &counts);
}

/// Deep programs: accepted up to the depth allowed, refused below it, as files and as tables.
#[test]
fn depths_about_the_limit() {
    let mut rng = Rng::new(101);
    let mut tally = Tally::default();
    for depth in MAX_DEPTH - 1..=MAX_DEPTH + 2 {
        for _ in 0..2500 {
            let parts = rng.between(2 * depth, MAX_PARTS);
            let file = program(&mut rng, parts, depth, Shape::Deep).file();
            let expected = match depth <= MAX_DEPTH {
                true => Ok(()),
                false => Err(TOO_DEEP),
            };
            let answer = check_file(&mut rng, &mut tally, &file);
            assert_eq!(answer, expected, "depth {depth}: {}", hex(&file));
        }
    }
    assert_counts(file!(), "depths_about_the_limit", &tally.counts());
}

/// The rows of a program with a REPEAT put above it: a table unless it is too deep or too long.
#[test]
fn tables_about_the_limits() {
    let mut rng = Rng::new(102);
    let mut tally = Tally::default();
    for _ in 0..5000 {
        let file = any_program(&mut rng).file();
        let inner = model::read(&file).expect("a valid program");
        let mut rows = inner.rows();
        wrap_rows(&mut rows);
        let sizes = Sizes {
            parts: rows.len(),
            ..inner.sizes
        };
        let table = model::table_bytes(&sizes, &rows);
        let fits = rows.len() <= MAX_PARTS && inner.root.depth() < MAX_DEPTH;
        let expected = if fits { Ok(()) } else { Err(NOT_A_TABLE) };
        let answer = check_table(&mut rng, &mut tally, &table);
        assert_eq!(answer, expected, "{}", hex(&table));
    }
    assert_counts(file!(), "tables_about_the_limits", &tally.counts());
}

#[test]
fn damaged_files() {
    let mut rng = Rng::new(103);
    let mut tally = Tally::default();
    for _ in 0..80_000 {
        let draft = any_program(&mut rng);
        let file = damaged_file(&mut rng, &draft);
        check_any_file(&mut rng, &mut tally, &file);
    }
    assert_counts(file!(), "damaged_files", &tally.counts());
}

#[test]
fn random_files() {
    let mut rng = Rng::new(104);
    let mut tally = Tally::default();
    for _ in 0..60_000 {
        let file = random_file(&mut rng);
        check_any_file(&mut rng, &mut tally, &file);
    }
    assert_counts(file!(), "random_files", &tally.counts());
}

#[test]
fn damaged_tables() {
    let mut rng = Rng::new(105);
    let mut tally = Tally::default();
    for _ in 0..80_000 {
        let file = any_program(&mut rng).file();
        let program = model::read(&file).expect("a valid program");
        let table = damaged_table(&mut rng, &program);
        check_any_table(&mut rng, &mut tally, &table);
    }
    assert_counts(file!(), "damaged_tables", &tally.counts());
}

#[test]
fn random_tables() {
    let mut rng = Rng::new(106);
    let mut tally = Tally::default();
    for _ in 0..60_000 {
        let table = random_table(&mut rng);
        check_any_table(&mut rng, &mut tally, &table);
    }
    assert_counts(file!(), "random_tables", &tally.counts());
}

/// Compares one call into a buffer of random length or, for one file in ten, all that can be done
/// with the file.
fn check_any_file(rng: &mut Rng, tally: &mut Tally, file: &[u8]) {
    if rng.one_in(10) {
        _ = check_file(rng, tally, file);
        return;
    }
    let exact = Sizes::read(file).map_or(0, |sizes| sizes.table_len());
    let table_len = random_length(rng, exact);
    tally.note(check_compile(rng, file, table_len));
}

/// As `check_any_file`, for a table.
fn check_any_table(rng: &mut Rng, tally: &mut Tally, table: &[u8]) {
    if rng.one_in(10) {
        _ = check_table(rng, tally, table);
        return;
    }
    let exact = Sizes::read(table).map_or(0, |sizes| sizes.file_len());
    let file_len = random_length(rng, exact);
    tally.note(check_decompile(rng, table, file_len));
}

/// A length of an output buffer for `exact` bytes, mostly enough.
fn random_length(rng: &mut Rng, exact: usize) -> usize {
    let longer = exact + rng.between(1, 40);
    let short = rng.below(exact + 1);
    rng.pick(&[0, short, exact.saturating_sub(1), exact, exact, longer])
}

//! Links the static library that `rt lib --cpu=x86-64` writes in crates/gurvoke, and the plain
//! executive in C.

use std::env;
use std::path::Path;
use std::process::Command;

const BOARD_SOURCE: &str = "c/board.c";

fn main() {
    println!("cargo::rerun-if-changed=build.rs");
    println!("cargo::rerun-if-changed={BOARD_SOURCE}");
    link_library();
    link_board();
}

fn link_library() {
    let package = env::var("CARGO_MANIFEST_DIR").expect("cargo sets CARGO_MANIFEST_DIR");
    let folder = Path::new(&package).join("../crates/gurvoke/out");
    let library = folder.join("libgurvoke.a");

    println!("cargo::rerun-if-changed={}", library.display());
    if !library.is_file() {
        println!(
            "cargo::error={} is missing: run `rt lib --cpu=x86-64` in crates/gurvoke",
            library.display()
        );
        return;
    }
    println!("cargo::rustc-link-search=native={}", folder.display());
    println!("cargo::rustc-link-lib=static=gurvoke");
}

fn link_board() {
    let folder = env::var("OUT_DIR").expect("cargo sets OUT_DIR");
    let object = Path::new(&folder).join("board.o");
    let archive = Path::new(&folder).join("libboard.a");

    let strict = "-std=c99 -O2 -Wall -Wextra -Wpedantic -Werror";
    let mut compiler = Command::new("gcc");
    compiler.args(strict.split(' ')).arg("-c").arg(BOARD_SOURCE);
    run(compiler.arg("-o").arg(&object));
    run(Command::new("ar").arg("crs").arg(&archive).arg(&object));
    println!("cargo::rustc-link-search=native={folder}");
    println!("cargo::rustc-link-lib=static=board");
}

/// Runs a command that must succeed. Where it does not, cargo shows what it says.
fn run(command: &mut Command) {
    match command.status() {
        Ok(status) => assert!(status.success(), "{command:?} failed"),
        Err(error) => panic!("{command:?} does not run: {error}"),
    }
}

//! A plain executive over the location table in C, `c/board.c`, called from Rust.

crate::interface::c_interface!(
    board_compile,
    board_decompile,
    board_begin,
    board_offer,
    board_settle
);

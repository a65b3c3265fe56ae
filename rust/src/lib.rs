//! The library gurvoke, called from Rust, and independent models to compare it with.

// The names and numbers of document 01.
pub mod answers;
pub mod parts;
pub mod record;
pub mod refusals;
pub mod sizes;

pub mod board;
pub mod builder;
pub mod cases;
pub mod counts;
pub mod damage;
pub mod examples;
pub mod executive;
pub mod hex;
mod interface;
pub mod lent;
pub mod model;
pub mod programs;
pub mod reference;
pub mod rehearsal;
pub mod rng;
pub mod runs;
pub mod scripts;
pub mod states;
pub mod stations;
pub mod text;
pub mod typing;
pub mod unfolding;

interface::c_interface!(
    gurvoke_compile,
    gurvoke_decompile,
    gurvoke_begin,
    gurvoke_offer,
    gurvoke_settle
);

/// The answer of a call in C: done, or a refusal.
fn answer(number: u32) -> Result<(), u32> {
    match number {
        answers::DONE => Ok(()),
        refusal => Err(refusal),
    }
}

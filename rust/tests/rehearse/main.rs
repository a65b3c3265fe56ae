//! The rehearsing program: against the paper's stations, texts worked out by hand, and the model.

mod arguments;
mod examples;
mod harness;
mod inputs;
mod lines;
mod random;
mod stations;

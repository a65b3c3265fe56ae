//! Reading program files and giving them back: every executive against the paper and the model.

mod depths;
mod examples;
mod exhaustive;
mod harness;
mod random;

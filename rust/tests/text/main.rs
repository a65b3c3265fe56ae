//! Programs typed as text: the library against the papers and the model.

mod buffers;
mod bytes;
mod examples;
mod exhaustive;
mod harness;
mod limits;
mod numbers;
mod random;

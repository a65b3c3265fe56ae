//! Beginning, offering and settling: every executive against the paper and the unfolding.

mod contested;
mod exhaustive;
mod harness;
mod mars_entry;
mod random;
mod records;
mod restarts;
mod silence;
mod stations;
mod tables;
mod tally;

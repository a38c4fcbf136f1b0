//! What the comparison and the measurements share.
pub mod bag;
pub mod batches;
pub mod calls;
pub mod damage;
pub mod digest;
pub mod drill;
pub mod mirror;
pub mod model;
pub mod ordinary;
pub mod program;
pub mod random;
pub mod record;
pub mod refusals;
#[rustfmt::skip] // It is the original, unchanged.
pub mod sequence_tree;
pub mod shrink;
pub mod sound;
pub mod trial;
pub mod workload;

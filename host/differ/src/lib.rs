//! The port beside the crate: both answer the same inputs in one process, and every field of every answer is compared.
pub mod answer;
pub mod bits;
pub mod differences;
pub mod families;
pub mod make;
pub mod ours;
pub mod packets;
pub mod playlist;
pub mod rng;
pub mod run;
pub mod say;
pub mod smallest;
pub mod theirs;
pub mod trips;

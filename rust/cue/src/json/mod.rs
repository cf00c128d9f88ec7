//! Cues as JSON. The names are those of the standard's tables; docs/cue.schema.json describes it and docs/DECISIONS.md says why it is so.
mod read;
mod write;

pub use read::{section, Fault};
pub use write::{Accepted, Refused};

#[cfg(test)]
pub mod tests;

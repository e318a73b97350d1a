//! Pseudo-random scripts and player inputs, the same for the same seed.

pub mod player;
pub mod script;

mod bytes;
mod rng;

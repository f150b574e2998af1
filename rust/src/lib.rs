//! Fluturenc for Rust: safe calls, with types, over the proved library. A module for each group of calls.
//!
//! Each module's `raw` has the exported functions themselves, behind slices and in numbers, as c/fluturenc.h tells them: for a caller
//! who keeps a state in bytes of its own, and for tests. Nothing checks their declarations against the Rattle source (crates/fluturenc*/src/lib.rt).

pub mod bus;
pub mod lists;
pub mod means;
pub mod picture;
mod refusal;
pub mod settings;
pub mod table;
pub mod two_wire;
pub mod why;

pub use bus::{Kind, Profile};
pub use refusal::Refusal;

//! Fluturenc's calls in plain Rust, written from the papers alone: an independent version to compare the proved code with, by running both. Simple
//! on purpose: a text is a vector of nibbles, and a mark is looked for at its end.
//!
//! The proved code is called through its safe wrapper (rust/), in types, and in numbers where no type lets a wrong call through. `random` and
//! `streams` make what both are run on; `check` ends a run at the first difference. `c_reader` calls a reader in C that was written for speed.

pub mod c_reader;
pub mod check;
pub mod judge;
pub mod layout;
pub mod lists;
pub mod means;
pub mod picture;
pub mod random;
pub mod reader;
pub mod reason;
pub mod settings;
pub mod streams;
pub mod table;
pub mod told;
pub mod two_wire;
pub mod writer;

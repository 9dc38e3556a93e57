//! Holds the ways into the library against each other: the header for C, the
//! crate for Rust and the module for Python. What they share for that is here.

pub mod calls;
pub mod guard;
pub mod tools;
pub mod wanted;

/// The example in Rust, whose lines the others have to print.
#[allow(dead_code)]
#[path = "../../../examples/list.rs"]
pub mod list;

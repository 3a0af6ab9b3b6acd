//! What a program needs to hold our library to the bought Rust: its exported functions, and its states as bytes.

pub mod image;
pub mod ours;

//! A swap register in plain Rust: the peer that the verified one is timed against and compared with.
#![forbid(unsafe_code)]

pub mod adopt;
pub mod file;
pub mod load;
pub mod order;
pub mod refusal;
pub mod register;
pub mod rounds;
pub mod script;
pub mod sheet;
pub mod table;

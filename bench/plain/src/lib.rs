//! Requests, their decoding and their operations in plain Rust, and numbers by chance, for all programs of the bench that are Rust.

pub mod access;
pub mod engine;
pub mod fault;
pub mod operation;
pub mod race;
pub mod random;
pub mod region;
pub mod request;
pub mod row;
pub mod script;
pub mod transcript;

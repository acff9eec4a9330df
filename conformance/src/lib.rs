//! Conformance: an engine in plain Rust, and the programs that hold the archive's engine to it, to recorded calls and to
//! demand 3.

pub mod access_point;
pub mod agreement;
pub mod air;
#[cfg(archive)]
pub mod archive;
pub mod benchmark;
pub mod delay;
pub mod differential;
pub mod faults;
pub mod forms;
pub mod history;
pub mod inputs;
pub mod interface;
pub mod lists;
pub mod mesh;
pub mod moves;
pub mod panel;
pub mod plain;
pub mod random;
pub mod replay;
pub mod report;
pub mod together;
pub mod trace;

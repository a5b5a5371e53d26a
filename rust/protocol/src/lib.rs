//! The line protocol that `port` and `oracle` both speak: one command a line, one line each back.
//!
//! `parse` reads a line's words, `op` has the operations and how they are written, `show` writes
//! the answer line, `serve` is both programs' main loop, `conversation` runs a program in a test.

pub mod conversation;
pub mod op;
pub mod parse;
pub mod serve;
pub mod show;

pub use op::Op;
pub use parse::Failure;
pub use parse::Parsed;
pub use parse::bad;

//! The Rust's side of the line protocol: the three unchanged files of underhill_mem over
//! stand-ins that note every backend operation and answer it as the line says.
//!
//! `parse` reads the words that the protocol package doesn't, `session` keeps what was built and
//! makes the calls, `show` writes the answer. What the stand-ins note is the process's, so a process holds one conversation at a
//! time.

mod parse;
mod session;
mod show;

pub use session::Session;

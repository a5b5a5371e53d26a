//! The port's side of the line protocol: the proved library behind its C boundary.
//!
//! `session` takes a line apart and keeps what holds for the next ones, `lend` has the buffers of
//! wrong length, `protector` and `registrar` the commands of each.

mod lend;
mod protector;
mod registrar;
mod session;

pub use session::Session;

//! Stand-in: the derive alone.

pub use standin_derive::Error;

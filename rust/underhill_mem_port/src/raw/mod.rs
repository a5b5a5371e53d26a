//! The library's entries as they are: slices of any length, words in and words out.
//!
//! Every entry is proved for all inputs, slices of wrong lengths and arbitrary words among them, so
//! these functions are safe. They are for those who keep the memory themselves, and for tests.

mod entries;
pub mod protector;
pub mod registrar;

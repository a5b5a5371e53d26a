//! Runs the port and the original on the same calls and compares what they give.
//!
//! `generate` makes lists of calls (`case`), `run` puts each to both programs, `predict` says what
//! document 01 gives where the original can't be asked, `shrink` shortens a list that shows a
//! difference, `coverage` counts what was met: these of the registrar's calls. `registrar_raw`
//! puts any words to its entries. `protector` has the same for the protector, and `part` joins them.

pub mod case;
pub mod coverage;
pub mod generate;
pub mod guard;
pub mod layouts;
pub mod part;
pub mod predict;
pub mod protector;
pub mod random;
pub mod registrar_raw;
pub mod run;
pub mod shrink;

//! The protector's part: `lines` puts scripts to the port, the original and the predictor; `raw`
//! puts any words in any lengths to the library's entries and compares every buffer. Both go by
//! `predict`; `change` has the calls as they are written, `generate` makes the scripts, `place` says
//! where the pages of faults and permission queries lie.

pub mod change;
pub mod generate;
pub mod lines;
pub mod place;
pub mod predict;
pub mod raw;

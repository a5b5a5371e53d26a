//! When a run counts as short.

use differential::coverage::Coverage;
use differential::coverage::ENOUGH;

#[test]
fn a_long_run_that_met_nothing_falls_short() {
    let coverage = Coverage::default();
    assert!(coverage.falls_short(ENOUGH));
    assert!(!coverage.falls_short(ENOUGH - 1));
}

//! Reads commands from standard input, one a line, and answers each with one line.

use oracle::Session;

fn main() -> std::io::Result<()> {
    std::panic::set_hook(Box::new(|_| {}));
    let mut session = Session::new(vp_count());
    protocol::serve::serve(|line| session.line(line))
}

/// The number of virtual processors that the source is told of: more than 2 makes a default change
/// run in several threads, in whatever order they get to.
fn vp_count() -> u32 {
    let given = std::env::var("ORACLE_VP_COUNT").ok();
    given.and_then(|text| text.parse().ok()).unwrap_or(2)
}

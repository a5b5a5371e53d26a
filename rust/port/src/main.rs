//! Reads commands from standard input, one a line, and answers each with one line.

use port::Session;

fn main() -> std::io::Result<()> {
    let mut session = Session::new();
    protocol::serve::serve(|line| session.line(line))
}

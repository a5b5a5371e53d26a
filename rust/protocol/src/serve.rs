//! Reads commands from standard input, one a line, and answers each with one line.

use crate::parse::Parsed;
use std::io;
use std::io::BufRead;
use std::io::Write;

/// Serves until the input ends. `answer` gives none to a line that isn't answered.
pub fn serve(mut answer: impl FnMut(&str) -> Option<String>) -> io::Result<()> {
    let mut input = io::stdin().lock();
    let mut output = io::stdout().lock();
    let mut line = Vec::new();
    while input.read_until(b'\n', &mut line)? > 0 {
        let given = match std::str::from_utf8(&line) {
            Ok(text) => answer(text),
            Err(_) => Some("bad not text".to_string()),
        };
        if let Some(given) = given {
            output.write_all(given.as_bytes())?;
            output.write_all(b"\n")?;
            output.flush()?;
        }
        line.clear();
    }
    Ok(())
}

/// The answer to a line by what `command` makes of it; none to a blank one or a comment.
pub fn line(line: &str, command: impl FnOnce(&str) -> Parsed<String>) -> Option<String> {
    if line.trim().is_empty() || line.starts_with('#') {
        return None;
    }
    Some(command(line.trim()).unwrap_or_else(|text| format!("bad {text}")))
}

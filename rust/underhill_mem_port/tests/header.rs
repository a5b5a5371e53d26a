//! The header and the library for a C program: it compiles without a warning, links with
//! nothing else, and gets what the entries give.

use std::io::ErrorKind;
use std::io::Write;
use std::path::Path;
use std::process::Command;

/// Runs a command: what it printed, and whether it did well. None where there is no such program.
fn said(command: &mut Command) -> Option<(String, bool)> {
    match command.output() {
        Ok(output) => {
            let text = [output.stdout, output.stderr].concat();
            let text = String::from_utf8_lossy(&text).into_owned();
            Some((text, output.status.success()))
        }
        Err(error) if error.kind() == ErrorKind::NotFound => None,
        Err(error) => panic!("{command:?}: {error}"),
    }
}

#[test]
fn a_c_program_calls_each_family() {
    let package = Path::new(env!("CARGO_MANIFEST_DIR"));
    let program = Path::new(env!("CARGO_TARGET_TMPDIR")).join("header");
    let mut cc = Command::new("cc");
    cc.args(["-std=c11", "-Wall", "-Wextra", "-Wpedantic", "-Werror"])
        .arg("-I")
        .arg(package.join("../../include"))
        .arg(package.join("tests/header.c"))
        .arg(env!("UNDERHILL_MEM_ARCHIVE"))
        .arg("-o")
        .arg(&program);
    let Some((text, built)) = said(&mut cc) else {
        // Not by a macro: what those print is kept back where a test does well.
        let line = "header: not run, there is no C compiler (cc)";
        writeln!(std::io::stderr(), "{line}").expect("it is written");
        return;
    };
    assert!(built, "{text}");
    let (text, well) = said(&mut Command::new(&program)).expect("it was built");
    assert!(well, "{text}");
    assert_eq!(text, "as it should\n");
}

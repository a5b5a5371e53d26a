//! For tests: runs a program on a conversation and compares every answer.

use std::io::Write;
use std::process::Command;
use std::process::Stdio;

/// Lines that begin with `> ` are sent, the others are the answers awaited. A panic's text isn't
/// compared. Panics at the first difference.
pub fn check(program: &mut Command, conversation: &str) {
    let lines = conversation
        .lines()
        .map(str::trim)
        .filter(|l| !l.is_empty());
    let (sent, awaited): (Vec<_>, Vec<_>) = lines.partition(|line| line.starts_with('>'));
    let sent: Vec<_> = sent.iter().map(|line| line[1..].trim()).collect();
    let answers = answers(program, sent.join("\n").as_bytes());
    for (i, awaited) in awaited.iter().enumerate() {
        let answer = answers.get(i).map_or("nothing", |a| a.as_str());
        assert_eq!(textless(answer), *awaited, "answer to {:?}", sent.get(i));
    }
    assert_eq!(answers.len(), awaited.len());
}

fn textless(answer: &str) -> String {
    match answer.split_once(" | ") {
        Some((result, ops)) if result.starts_with("panic ") => format!("panic | {ops}"),
        _ => answer.to_string(),
    }
}

/// What the program answers to some input. Panics if it doesn't end well.
pub fn answers(program: &mut Command, input: &[u8]) -> Vec<String> {
    let mut child = program
        .stdin(Stdio::piped())
        .stdout(Stdio::piped())
        .spawn()
        .expect("the program starts");
    let mut stdin = child.stdin.take().expect("a pipe");
    let input = input.to_vec();
    let writer = std::thread::spawn(move || stdin.write_all(&input).expect("it reads"));
    let output = child.wait_with_output().expect("the program ends");
    writer.join().expect("the writer ends");
    assert!(output.status.success());
    let text = String::from_utf8(output.stdout).expect("text");
    text.lines().map(str::to_string).collect()
}

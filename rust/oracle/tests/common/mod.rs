//! Runs the program on a conversation and compares every answer.

#![allow(dead_code)] // each test file uses its part

use protocol::conversation;
use std::process::Command;

/// Lines that begin with `> ` are sent, the others are the answers awaited. A panic's text isn't
/// compared.
pub fn check(conversation: &str) {
    conversation::check(&mut program(2), conversation);
}

/// What the program answers to some input.
pub fn answers(input: &[u8]) -> Vec<String> {
    answers_with(2, input)
}

/// The same, with that many virtual processors.
pub fn answers_with(vp_count: u32, input: &[u8]) -> Vec<String> {
    conversation::answers(&mut program(vp_count), input)
}

fn program(vp_count: u32) -> Command {
    let mut command = Command::new(env!("CARGO_BIN_EXE_oracle"));
    command.env("ORACLE_VP_COUNT", vp_count.to_string());
    command
}

//! The grammars that ship, and the command with scratch files.
#![allow(dead_code)]
use grammar::run::Token;
use std::collections::BTreeSet;
use std::io::Write;
use std::path::PathBuf;
use std::process::{Command, Output, Stdio};

pub fn shipped(name: &str) -> String {
    std::fs::read_to_string(shipped_file(name)).expect(name)
}

pub fn shipped_file(name: &str) -> String {
    format!("{}/../../grammars/{name}.grammar", env!("CARGO_MANIFEST_DIR"))
}

/// The command with these arguments and standard input.
pub fn grammar_on(args: &[&str], input: &[u8]) -> Output {
    let mut command = Command::new(env!("CARGO_BIN_EXE_grammar"));
    let piped = command.args(args).stdin(Stdio::piped()).stdout(Stdio::piped()).stderr(Stdio::piped());
    let mut child = piped.spawn().expect("the command starts");
    let mut stdin = child.stdin.take().expect("standard input");
    let input = input.to_vec();
    let writer = std::thread::spawn(move || drop(stdin.write_all(&input)));
    let output = child.wait_with_output().expect("the command ends");
    writer.join().expect("written");
    output
}

pub fn grammar(args: &[&str]) -> Output {
    grammar_on(args, b"")
}

/// A file for one test.
pub fn scratch(name: &str, content: &[u8]) -> String {
    let path = PathBuf::from(env!("CARGO_TARGET_TMPDIR")).join(name);
    std::fs::write(&path, content).expect("a scratch file");
    path.to_str().expect("a path").into()
}

pub fn assert_answer(output: Output, code: i32, stdout: &str, stderr: &str) {
    assert_eq!(String::from_utf8_lossy(&output.stdout), stdout);
    assert_eq!(String::from_utf8_lossy(&output.stderr), stderr);
    assert_eq!(output.status.code(), Some(code));
}

pub fn stdout(output: &Output) -> String {
    String::from_utf8_lossy(&output.stdout).into_owned()
}

/// Tokens of these kinds, without values.
pub fn of_kinds(kinds: &[u8]) -> Vec<Token> {
    kinds.iter().map(|&kind| Token { kind, value: 0 }).collect()
}

fn bytes(hex: &str) -> Option<Vec<u8>> {
    let digits = hex.as_bytes().chunks(2);
    digits.map(|d| u8::from_str_radix(std::str::from_utf8(d).ok()?, 16).ok()).collect()
}

/// The tables of the vectors' commands.
pub fn vectors() -> BTreeSet<Vec<u8>> {
    let root = concat!(env!("CARGO_MANIFEST_DIR"), "/../../vectors");
    let mut found = BTreeSet::new();
    for name in ["fixed", "edits", "random", "e"] {
        let text = std::fs::read_to_string(format!("{root}/{name}.in")).expect(name);
        let checks = text.lines().filter_map(|line| line.strip_prefix("check "));
        found.extend(checks.filter_map(bytes));
    }
    found
}

//! Reads lines whose second and third words are the texts of a specification and of an object, in hexadecimal behind a `=`, and writes each
//! with what the proved crate chooses behind it: `none`, `result` and its printed text, or `fault` with its clause and reason. Built and run
//! by tests/otp/run.sh.

#[path = "../answers.rs"]
mod answers;

use answers::{Answers, bytes_of, hex};
use std::io::{BufRead, BufWriter, Write, stdin, stdout};

fn text(word: &str) -> String {
    String::from_utf8(bytes_of(word.strip_prefix('=').expect("a text"))).expect("UTF-8")
}

fn call(line: &str) -> String {
    let words: Vec<&str> = line.split(' ').collect();
    format!("apply {} {}", text(words[1]), text(words[2]))
}

/// `result TEXT`, `none` or `BadSpec { clause: NUMBER, why: REASON }`.
fn shown(told: &[u8]) -> String {
    if let Some(text) = told.strip_prefix(b"result ") {
        return format!("result ={}", hex(text));
    }
    let told = String::from_utf8_lossy(told);
    let fault = told.strip_prefix("BadSpec { clause: ").and_then(|rest| rest.strip_suffix(" }")).and_then(|rest| rest.split_once(", why: "));
    match (told.as_ref(), fault) {
        ("none", _) => "none".to_string(),
        (_, Some((clause, why))) => format!("fault {clause} {why}"),
        _ => "unread".to_string(),
    }
}

fn main() {
    let lines: Vec<String> = stdin().lock().lines().map(|line| line.expect("a line")).collect();
    let calls: Vec<String> = lines.iter().map(|line| call(line)).collect();
    let mut out = BufWriter::new(stdout().lock());
    for (line, told) in lines.iter().zip(Answers::start().ask(&calls)) {
        writeln!(out, "{line} {}", shown(&told)).expect("output");
    }
}

//! Reads lines whose second word is a text in hexadecimal behind a `=`, and writes each with the proved reader's answer behind it:
//! `read`, how many bytes the term's text has and its printed text, or the fault and its place. Built and run by tests/otp/run.sh.

#[path = "../answers.rs"]
mod answers;
#[path = "../reader.rs"]
mod reader;

use answers::{Answers, bytes_of, hex};
use reader::Reading;
use std::io::{BufRead, BufWriter, Write, stdin, stdout};

fn text(line: &str) -> Vec<u8> {
    bytes_of(line.split(' ').nth(1).and_then(|word| word.strip_prefix('=')).expect("a text"))
}

fn shown(reading: &Reading) -> String {
    match reading {
        Reading::Read { length, text } => format!("read {length} ={}", hex(text)),
        Reading::Fault { name, at } => format!("{name} {at}"),
    }
}

fn main() {
    let lines: Vec<String> = stdin().lock().lines().map(|line| line.expect("a line")).collect();
    let texts: Vec<Vec<u8>> = lines.iter().map(|line| text(line)).collect();
    let texts: Vec<&[u8]> = texts.iter().map(Vec::as_slice).collect();
    let mut out = BufWriter::new(stdout().lock());
    for (line, reading) in lines.iter().zip(reader::read(&mut Answers::start(), &texts)) {
        writeln!(out, "{line} {}", shown(&reading)).expect("output");
    }
}

//! Reads pairs of codes with the order that Erlang gives their terms, and compares it with that of the order crate's terms
//! and with that of the bytes; each term's code must be written as it was. Built and run by tests/otp/run.sh.

#[path = "../answers.rs"]
mod answers;

use answers::{Answers, bytes_of};
use std::cmp::Ordering;
use std::io::{BufRead, stdin};

fn calls(line: &str) -> [String; 3] {
    let (first, second) = (line.split(' ').next().expect("a code"), line.split(' ').nth(1).expect("another code"));
    [format!("order #{first} #{second}"), format!("encode #{first}"), format!("encode #{second}")]
}

fn is_right(line: &str, told: &[Vec<u8>]) -> bool {
    let words: Vec<&str> = line.split(' ').collect();
    let wanted = match words[2] {
        "less" => Ordering::Less,
        "equal" => Ordering::Equal,
        "greater" => Ordering::Greater,
        word => panic!("{word} is no order"),
    };
    let [by_terms, first, second] = told else { panic!("three answers") };
    *by_terms == format!("{wanted:?}").into_bytes()
        && *first == words[0].as_bytes()
        && *second == words[1].as_bytes()
        && bytes_of(words[0]).cmp(&bytes_of(words[1])) == wanted
}

fn main() {
    let lines: Vec<String> = stdin().lock().lines().map(|line| line.expect("a line")).collect();
    let calls: Vec<String> = lines.iter().flat_map(|line| calls(line)).collect();
    let told = Answers::start().ask(&calls);
    let mut wrong = 0;
    for (line, told) in lines.iter().zip(told.chunks(3)) {
        if !is_right(line, told) {
            wrong += 1;
            println!("wrong: {line}");
        }
    }
    println!("{} pairs, {wrong} wrong", lines.len());
    std::process::exit(i32::from(wrong > 0 || lines.is_empty()));
}

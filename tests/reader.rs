//! The proved reader of term texts, asked in the program ca_answers.

use crate::answers::{Answers, hex};

/// What `read_term` answers.
#[derive(Debug, Clone, PartialEq, Eq)]
pub enum Reading {
    /// A text of so many bytes, and the printed text of its term.
    Read { length: usize, text: Vec<u8> },
    /// Why and where there is none: the name of the fault, and its place; `NoMemory` has none.
    Fault { name: String, at: usize },
}

/// Reads the text at the front of each of some bytes.
pub fn read(program: &mut Answers, inputs: &[&[u8]]) -> Vec<Reading> {
    let calls: Vec<String> = inputs.iter().map(|bytes| format!("read-bytes {}", hex(bytes))).collect();
    program.ask(&calls).iter().map(|told| reading(told)).collect()
}

/// `LENGTH TEXT`, or `NAME { at: PLACE }`, or `NoMemory`.
fn reading(told: &[u8]) -> Reading {
    let blank = told.iter().position(|byte| *byte == b' ').unwrap_or(told.len());
    let first = String::from_utf8_lossy(&told[..blank]);
    let rest = told.get(blank + 1..).unwrap_or(&[]);
    match first.parse() {
        Ok(length) => Reading::Read { length, text: rest.to_vec() },
        Err(_) => {
            let digits: String = rest.iter().filter(|byte| byte.is_ascii_digit()).map(|byte| char::from(*byte)).collect();
            Reading::Fault { name: first.into_owned(), at: digits.parse().unwrap_or(0) }
        }
    }
}

//! What is to be answered to some bytes, by the grammar alone: the machine of the grammar is asked about their fronts.

use crate::machine::{Limits, Machine, STANDARD};
use crate::term::Term;

#[derive(Debug, Clone, Copy, PartialEq, Eq)]
pub enum Kind {
    Syntax,
    AtomTooLong,
    TooDeep,
    TooWide,
}

#[derive(Debug, Clone, PartialEq, Eq)]
pub enum Answer {
    /// A text of so many bytes, and the printed text of its term.
    Read {
        length: usize,
        text: Vec<u8>,
    },
    Refused {
        kind: Kind,
        at: usize,
    },
}

/// How many bytes the longest front has with which some text begins, and how many the longest one that is a text.
fn fronts(bytes: &[u8], limits: Limits) -> (usize, Option<usize>) {
    let mut machine = Machine::new(limits);
    let mut text = None;
    for (at, byte) in bytes.iter().enumerate() {
        if !machine.take(*byte) {
            return (at, text);
        }
        if machine.is_text() {
            text = Some(at + 1);
        }
    }
    (bytes.len(), text)
}

fn machine_after(bytes: &[u8]) -> Machine {
    let mut machine = Machine::new(STANDARD);
    for byte in bytes {
        machine.take(*byte);
    }
    machine
}

/// The term of the text at the front, unless the byte behind it belongs to it.
fn term_of(bytes: &[u8], length: usize) -> Option<Term> {
    let machine = machine_after(&bytes[..length]);
    match bytes.get(length) {
        Some(next) if machine.takes_in(*next) => None,
        _ => machine.term(),
    }
}

/// Why no text begins with the bytes up to this place and the byte there: the one limit that, larger by one, would let it.
fn why(bytes: &[u8], at: usize) -> Kind {
    if at == bytes.len() {
        return Kind::Syntax;
    }
    let larger = [
        (Kind::AtomTooLong, Limits { characters: STANDARD.characters + 1, ..STANDARD }),
        (Kind::TooDeep, Limits { levels: STANDARD.levels + 1, ..STANDARD }),
        (Kind::TooWide, Limits { elements: STANDARD.elements + 1, ..STANDARD }),
    ];
    let kinds: Vec<Kind> = larger.iter().filter(|(_, limits)| fronts(&bytes[..=at], *limits).0 > at).map(|(kind, _)| *kind).collect();
    assert!(kinds.len() <= 1, "two limits at one byte");
    kinds.first().copied().unwrap_or(Kind::Syntax)
}

/// A text that begins with these bytes, where there is one.
pub fn completed(bytes: &[u8]) -> Option<Vec<u8>> {
    Some([bytes, &machine_after(bytes).ending()?].concat())
}

pub fn answer(bytes: &[u8]) -> Answer {
    let (at, text) = fronts(bytes, STANDARD);
    match text.and_then(|length| Some((length, term_of(bytes, length)?))) {
        Some((length, term)) => Answer::Read { length, text: term.text().into_bytes() },
        None => Answer::Refused { kind: why(bytes, at), at },
    }
}

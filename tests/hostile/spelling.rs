//! Random terms, and a random spelling of a term: each is a text of it.

use crate::random::Random;
use crate::term::{Term, is_plain};

/// Every sort of code point: those that need an escape, that have one, of one byte to four, and the edges between them.
pub const POINTS: [char; 28] = [
    'a', 'Z', '0', '_', '@', ' ', '\'', '"', '\\', '\n', '\r', '\t', '\0', '\x1f', '\x7f', '\u{80}', '\u{9f}', 'é', '\u{7ff}', '\u{800}',
    '€', '\u{d7ff}', '\u{e000}', '\u{fffe}', '\u{ffff}', '\u{10000}', '𝄞', '\u{10ffff}',
];

const NAMES: [&str; 8] = ["a", "ok", "xor", "maybe", "aB_9@", "z9", "a_", "true"];

const EDGES: [i64; 8] = [0, 1, 9, 255, 256, -1, i64::MAX, i64::MIN];

fn several<T>(random: &mut Random, most: usize, make: impl Fn(&mut Random) -> T) -> Vec<T> {
    (0..random.between(0, most)).map(|_| make(random)).collect()
}

fn point(random: &mut Random) -> char {
    random.pick(&POINTS)
}

fn leaf(random: &mut Random) -> Term {
    match random.below(7) {
        0 => Term::Integer(random.pick(&EDGES)),
        1 => Term::Integer(random.number()),
        2 => Term::Atom(random.pick(&NAMES).to_string()),
        3 => Term::Atom(several(random, 4, point).into_iter().collect()),
        4 => Term::Binary(several(random, 4, |random| random.below(256) as u8)),
        5 => Term::string(&several(random, 4, point)),
        _ => Term::Nil,
    }
}

/// A term of at most so many levels below its own.
pub fn term(random: &mut Random, levels: usize) -> Term {
    match random.below(if levels == 0 { 1 } else { 4 }) {
        1 => Term::Tuple(several(random, 3, |random| term(random, levels - 1))),
        2 => Term::list(several(random, 3, |random| term(random, levels - 1)), Term::Nil),
        3 => {
            let heads = several(random, 3, |random| term(random, levels - 1));
            Term::list(heads, term(random, levels - 1))
        }
        _ => leaf(random),
    }
}

pub fn blanks(random: &mut Random, into: &mut String) {
    while random.once_in(6) {
        into.push(random.pick(&[' ', '\t']));
    }
}

/// Writes a text of the term.
pub fn spell(random: &mut Random, term: &Term, into: &mut String) {
    match term {
        Term::Integer(number) => integer(random, *number, into),
        Term::Atom(name) if is_plain(name) && !random.once_in(3) => into.push_str(name),
        Term::Atom(name) => quoted(random, '\'', name.chars(), into),
        Term::Tuple(elements) => {
            into.push('{');
            series(random, elements, spell, into);
            into.push('}');
        }
        Term::Nil if random.once_in(2) => into.push_str("\"\""),
        Term::Nil => {
            into.push('[');
            blanks(random, into);
            into.push(']');
        }
        Term::List(heads, last) => list(random, heads, last, into),
        Term::Binary(bytes) => binary(random, bytes, into),
    }
}

fn integer(random: &mut Random, number: i64, into: &mut String) {
    if number < 0 || number == 0 && random.once_in(4) {
        into.push('-');
    }
    digits(random, number.unsigned_abs(), into);
}

fn digits(random: &mut Random, number: u64, into: &mut String) {
    while random.once_in(6) {
        into.push('0');
    }
    into.push_str(&number.to_string());
}

/// Items with commas and blanks between them, and blanks around all of them.
fn series<T>(random: &mut Random, items: &[T], write: impl Fn(&mut Random, &T, &mut String), into: &mut String) {
    blanks(random, into);
    for (at, item) in items.iter().enumerate() {
        if at > 0 {
            into.push(',');
            blanks(random, into);
        }
        write(random, item, into);
        blanks(random, into);
    }
}

fn points_of(heads: &[Term]) -> Option<Vec<char>> {
    heads.iter().map(|head| if let Term::Integer(n) = head { u32::try_from(*n).ok().and_then(char::from_u32) } else { None }).collect()
}

/// A list as a string where it can be one, or cut in two by a bar anywhere behind its first head.
fn list(random: &mut Random, heads: &[Term], last: &Term, into: &mut String) {
    if let (Some(points), Term::Nil) = (points_of(heads), last)
        && !random.once_in(3)
    {
        return quoted(random, '"', points.into_iter(), into);
    }
    let cut = if random.once_in(3) { random.between(1, heads.len()) } else { heads.len() };
    into.push('[');
    series(random, &heads[..cut], spell, into);
    if cut < heads.len() || *last != Term::Nil || random.once_in(8) {
        into.push('|');
        blanks(random, into);
        spell(random, &Term::list(heads[cut..].to_vec(), last.clone()), into);
        blanks(random, into);
    }
    into.push(']');
}

/// Bytes as numbers and as strings of those that are ASCII.
fn binary(random: &mut Random, bytes: &[u8], into: &mut String) {
    let mut parts: Vec<&[u8]> = Vec::new();
    let mut rest = bytes;
    while !rest.is_empty() || random.once_in(8) {
        let shown = random.between(0, rest.iter().take_while(|byte| byte.is_ascii()).count());
        let (part, others) = rest.split_at(if rest.is_empty() { 0 } else { shown.max(1) });
        parts.push(part);
        rest = others;
    }
    into.push_str("<<");
    series(random, &parts, segment, into);
    into.push_str(">>");
}

fn segment(random: &mut Random, part: &&[u8], into: &mut String) {
    match part {
        [byte] if !byte.is_ascii() || random.once_in(2) => digits(random, u64::from(*byte), into),
        _ => quoted(random, '"', part.iter().map(|byte| char::from(*byte)), into),
    }
}

/// A character of each form that it has.
fn quoted(random: &mut Random, close: char, points: impl Iterator<Item = char>, into: &mut String) {
    into.push(close);
    for c in points {
        let letter = match c {
            '\\' | '\'' | '"' => Some(c),
            '\n' => Some('n'),
            '\r' => Some('r'),
            '\t' => Some('t'),
            ' ' => Some('s'),
            _ => None,
        };
        match letter {
            _ if random.once_in(4) => hexadecimal(random, c, into),
            Some(letter) if random.once_in(2) => into.extend(['\\', letter]),
            Some(letter) if c == close || c == '\\' || c == '\n' => into.extend(['\\', letter]),
            _ => into.push(c),
        }
    }
    into.push(close);
}

fn hexadecimal(random: &mut Random, c: char, into: &mut String) {
    let digits = if random.once_in(2) { format!("{:x}", u32::from(c)) } else { format!("{:X}", u32::from(c)) };
    let width = random.between(digits.len(), 6);
    into.push_str(&format!("\\x{{{digits:0>width$}}}"));
}

//! Inputs of some million bytes, none of which is a text: a refusal takes time in proportion to their length at most.

use crate::answers::Answers;
use crate::definition::Kind;
use crate::reader::{Reading, read};
use std::time::{Duration, Instant};

/// How often the part stands behind its front.
const TIMES: usize = 1_000_000;

/// A quarter of a second is usual for the slowest. With a square of the length in it, the time would be hours.
const MOST: Duration = Duration::from_secs(10);

/// A front and a part. With each of these, repeated, a text could go on for good.
const ENDLESS: [(&str, &str); 8] =
    [("", "[1|"), ("[", "1,"), ("[", "[1],"), ("[", "\"\\x{41}\","), ("{", " "), ("\"", "a"), ("<<", "1,"), ("<<", "\"a\",")];

/// A front and a part, and why and where they begin no text, by the limits.
const TOO_LARGE: [(&str, &str, Kind, usize); 5] = [
    ("", "[", Kind::TooDeep, 64), ("", "a", Kind::AtomTooLong, 255), ("", "1", Kind::Syntax, 19), ("'", "a", Kind::AtomTooLong, 256),
    ("{1", ",1", Kind::TooWide, 240),
];

/// What is wrong with the answer to a front and so many parts, if anything: None as the fault is `Syntax` at the end.
fn wrong(program: &mut Answers, front: &str, part: &str, fault: Option<(Kind, usize)>) -> Option<String> {
    let bytes = [front, &part.repeat(TIMES)].concat().into_bytes();
    let (kind, at) = fault.unwrap_or((Kind::Syntax, bytes.len()));
    let start = Instant::now();
    let told = read(program, &[&bytes]).remove(0);
    let took = start.elapsed();
    let is_right = told == Reading::Fault { name: format!("{kind:?}"), at };
    (!is_right || took > MOST).then(|| format!("{front} and {TIMES} times {part}: {told:?} after {took:?}"))
}

/// The answers that are wrong or came too late.
pub fn faults(program: &mut Answers) -> Vec<String> {
    let endless = ENDLESS.map(|(front, part)| (front, part, None));
    let too_large = TOO_LARGE.map(|(front, part, kind, at)| (front, part, Some((kind, at))));
    endless.into_iter().chain(too_large).filter_map(|(front, part, fault)| wrong(program, front, part, fault)).collect()
}

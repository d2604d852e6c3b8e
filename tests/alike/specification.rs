//! Random specifications, most of which are ones, and random objects, as texts of terms.

use crate::random::Random;

/// What a head's variables are. Each head holds at least the first one.
const HELD: [[&str; 2]; 5] = [["$1", "$0"], ["$0", "$1"], ["$2", "$10"], ["$10", "$2"], ["$1", "$1"]];

const NAMES: [&str; 4] = ["a", "true", "false", "_"];

const ANY_VARIABLE: [&str; 6] = ["$0", "$1", "$2", "$10", "$99", "$100"];

/// The operators, those that give truth values more often, and how many arguments each has.
const OPERATORS: [(&str, usize); 48] = [
    ("is_atom", 1), ("is_integer", 1), ("is_number", 1), ("is_tuple", 1), ("is_list", 1), ("is_binary", 1), ("not", 1), ("and", 2), ("or", 2),
    ("xor", 2), ("andalso", 2), ("orelse", 2), (">", 2), (">=", 2), ("<", 2), ("=<", 2), ("==", 2), ("=:=", 2), ("/=", 2), ("=/=", 2),
    ("is_atom", 1), ("is_integer", 1), ("is_tuple", 1), ("is_list", 1), ("not", 1), ("andalso", 2), ("orelse", 2), (">", 2), ("=<", 2),
    ("==", 2), ("/=", 2), ("+", 2), ("-", 2), ("*", 2), ("div", 2), ("rem", 2), ("abs", 1), ("band", 2), ("bor", 2), ("bxor", 2), ("bnot", 1),
    ("element", 2), ("hd", 1), ("tl", 1), ("length", 1), ("size", 1), ("tuple_size", 1), ("byte_size", 1),
];

/// Where a term stands.
#[derive(Clone, Copy, PartialEq)]
enum Place {
    Object,
    Head,
    Guard,
    Body,
}

fn atom(name: &str) -> String {
    format!("'{name}'")
}

fn tuple(items: &[String]) -> String {
    format!("{{{}}}", items.join(","))
}

/// The list of these terms with this tail, which is the tail itself where there are none.
fn list(items: &[String], tail: &str) -> String {
    if items.is_empty() { tail.to_string() } else { format!("[{}|{tail}]", items.join(",")) }
}

/// A term without parts.
fn leaf(random: &mut Random, place: Place, held: &[&str]) -> String {
    match (place, random.below(16)) {
        (_, 0) => i64::MAX.to_string(),
        (_, 1) => "-1".to_string(),
        (_, 2) => "[]".to_string(),
        (_, number @ 3..=5) => (number - 3).to_string(),
        (Place::Object, _) | (_, 6 | 7) => atom(random.pick(&NAMES)),
        (Place::Guard | Place::Body, 8) => atom(random.pick(&["$_", "$$"])),
        (Place::Guard | Place::Body, 9) if random.once_in(8) => atom(random.pick(&ANY_VARIABLE)),
        _ => atom(random.pick(held)),
    }
}

/// A term of an object or a head.
fn part(random: &mut Random, place: Place, held: &[&str], depth: u8) -> String {
    if depth == 0 || !random.once_in(3) {
        return leaf(random, place, held);
    }
    let items: Vec<String> = (0..random.below(3)).map(|_| part(random, place, held, depth - 1)).collect();
    match random.below(4) {
        0 | 1 => tuple(&items),
        2 => list(&items, "[]"),
        _ => list(&items, &leaf(random, place, held)),
    }
}

/// An operator's name and how many arguments follow, which are a few times not as many as it has.
fn operator(random: &mut Random) -> (&'static str, usize) {
    let (name, count) = random.pick(&OPERATORS);
    match random.below(60) {
        0 => (name, random.below(4)),
        1 => ("const", random.below(3)),
        2 => (random.pick(&["foo", "is_float", "self", "$1"]), count),
        _ => (name, count),
    }
}

/// An expression of a guard or a body.
fn expression(random: &mut Random, place: Place, held: &[&str], depth: u8) -> String {
    if depth == 0 || random.once_in(4) {
        return leaf(random, place, held);
    }
    let form = random.below(10);
    let calls = (place == Place::Guard && form > 2) || random.once_in(60);
    let (name, count) = if calls { operator(random) } else { ("", random.below(3)) };
    let items: Vec<String> = (0..count).map(|_| expression(random, place, held, depth - 1)).collect();
    match form % 4 {
        _ if calls => tuple(&[vec![atom(name)], items].concat()),
        0 => tuple(&[atom("const"), tuple(&items)]),
        1 => list(&items, &leaf(random, place, held)),
        _ => tuple(&[tuple(&items)]),
    }
}

/// A tuple of two or three elements, mostly two.
pub fn object(random: &mut Random) -> String {
    let size = if random.once_in(8) { 3 } else { 2 };
    tuple(&(0..size).map(|_| part(random, Place::Object, &[], 2)).collect::<Vec<String>>())
}

/// A head: mostly a tuple of two elements, the first one a variable.
fn head(random: &mut Random, held: [&str; 2]) -> String {
    if random.once_in(12) {
        return leaf(random, Place::Head, &held);
    }
    let mut items = vec![atom(held[0])];
    if random.once_in(2) {
        items.push(atom(held[1]));
    }
    if items.len() < 2 || random.once_in(8) {
        items.push(part(random, Place::Head, &held, 2));
    }
    tuple(&items)
}

/// What ends a list: mostly nothing more, and a few times something else.
fn end(random: &mut Random) -> &'static str {
    if random.once_in(60) { "1" } else { "[]" }
}

/// A clause, or a few times a tuple of four elements. It has up to two guards and a body of one expression, a few times of two.
fn clause(random: &mut Random) -> String {
    let held = random.pick(&HELD);
    let head = head(random, held);
    let guards: Vec<String> = (0..random.below(3)).map(|_| expression(random, Place::Guard, &held, 3)).collect();
    let guards = list(&guards, end(random));
    let mut body = vec![expression(random, Place::Body, &held, 2)];
    if random.once_in(60) {
        body.push("1".to_string());
    }
    let mut items = vec![head, guards, list(&body, "[]")];
    if random.once_in(60) {
        items.push("1".to_string());
    }
    tuple(&items)
}

/// Up to three clauses in a list.
pub fn specification(random: &mut Random) -> String {
    let clauses: Vec<String> = (0..random.below(4)).map(|_| clause(random)).collect();
    list(&clauses, end(random))
}

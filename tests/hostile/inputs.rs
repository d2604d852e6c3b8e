//! What the reader is fed: every short input over a few alphabets; then random bytes and tokens, valid texts, valid texts with random
//! edits, and texts close to each limit.

use crate::random::Random;
use crate::spelling::{POINTS, blanks, spell, term};

const HOSTILE: &[u8] =
    b"{}[]<>,|\"'\\x0189 \t\n-aZ_@sn.#$%:/~\0\x01\r\x7f\x80\x8f\x90\x9f\xa0\xbf\xc0\xc1\xc2\xc3\xdf\xe0\xe2\xed\xef\xf0\xf3\xf4\xf5\xff";

const TOKENS: &[&[u8]] = &[
    b"{", b"}", b"[", b"]", b"<<", b">>", b",", b"|", b"\"", b"'", b" ", b"\t", b"-", b"1", b"00", b"255", b"256", b"a", b"aZ_@9", b"''",
    b"'a b'", b"\"\"", b"\"ab\"", b"[]", b"{}", b"<<>>", b"\\n", b"\\x{41}", b"\\x{", b"<<\"a\",1>>", b"[1|", b"{1,", b"[[", b"\n",
];

const BEGINNINGS: &[&[u8]] = &[b"{", b"[", b"\"", b"'", b"<<", b"<<\"", b"-", b"1", b"a", b"[1|", b"{1,", b"[\"", b"'\\x{", b"\"\\x{", b""];

const INTEGERS: &[&str] = &[
    "9223372036854775806", "9223372036854775807", "9223372036854775808", "9223372036854775809", "922337203685477580", "922337203685477581",
    "18446744073709551615", "18446744073709551616", "99999999999999999999", "0", "1",
];

const BYTES: &[&str] = &["0", "9", "25", "26", "127", "128", "199", "200", "249", "250", "255", "256", "260", "300", "999"];

const POINT_DIGITS: &[&str] = &[
    "0", "41", "7f", "80", "7FF", "d7ff", "D800", "d80", "d8", "dfff", "DFF", "e000", "fffe", "ffff", "10000", "10ffff", "110000", "11000",
    "1fffff", "ffffff", "",
];

/// What stands behind many opening brackets.
const INSIDES: &[&[u8]] = &[
    b"", b"1", b"a", b"''", b"\"\"", b"\"a", b"\"\\x{41}\"", b"\"\xc3\xa9\"", b"\"\xff", b"[]", b"{}", b"{ }", b"<<>>", b"<<1>>", b"-",
    b"X", b"1|[]", b"1|\"a\"", b"{1", b"\"\n", b"\xff", b"[{", b"\t",
];

/// What stands behind many characters in quotes.
const ENDS: &[&[u8]] = &[b"'", b"'", b"'", b"']", b"'}", b"\"", b"\">>", b"\n'", b"\\", b"\\q", b"\xff", b"\xc2", b"\xf0\x9f", b""];

/// Alphabets, and how long the inputs over each are of which all are tried.
const SHORT: [(&[u8], u32); 3] = [(b"{}[],|\"'<>1a\\", 5), (b"{}[],|\"'<>19a\\- xns_\xc3\xa9", 4), (b"<>\"\\x{}02d81,\n", 5)];

/// An input, and the printed text of the term that all of it spells, where that is known.
pub struct Input {
    pub bytes: Vec<u8>,
    pub text: Option<String>,
}

/// An input that is mostly no text.
fn broken(bytes: Vec<u8>) -> Input {
    Input { bytes, text: None }
}

/// Each short input, once for each alphabet.
pub fn short() -> impl Iterator<Item = Input> {
    SHORT.into_iter().flat_map(|(alphabet, most)| (0..=most).flat_map(move |length| words(alphabet, length))).map(broken)
}

/// All inputs of this length over an alphabet: the numbers of so many digits, each digit a byte.
fn words(alphabet: &'static [u8], length: u32) -> impl Iterator<Item = Vec<u8>> {
    let base = alphabet.len();
    let word = move |number: usize| (0..length).map(|place| alphabet[number / base.pow(place) % base]).collect();
    (0..base.pow(length)).map(word)
}

/// A random input.
pub fn input(random: &mut Random) -> Input {
    match random.below(16) {
        0..=2 => broken(hostile(random)),
        3..=5 => broken(tokens(random)),
        6..=7 => spelled(random),
        8..=11 => {
            let bytes = spelled(random).bytes;
            broken(edited(random, bytes))
        }
        12 => broken(numbers(random)),
        13 => broken(points(random)),
        _ => {
            let bytes = close_to_a_limit(random);
            broken(if random.once_in(2) { edited(random, bytes) } else { bytes })
        }
    }
}

fn close_to_a_limit(random: &mut Random) -> Vec<u8> {
    match random.below(4) {
        0 => deep(random),
        1 => wide(random),
        2 => long_name(random),
        _ => long_quoted(random),
    }
}

fn hostile(random: &mut Random) -> Vec<u8> {
    let mut bytes = random.pick(BEGINNINGS).to_vec();
    for _ in 0..random.below(12) {
        bytes.push(random.pick(HOSTILE));
    }
    bytes
}

fn tokens(random: &mut Random) -> Vec<u8> {
    let mut bytes = random.pick(BEGINNINGS).to_vec();
    for _ in 0..random.below(12) {
        bytes.extend_from_slice(random.pick(TOKENS));
    }
    bytes
}

fn spelled(random: &mut Random) -> Input {
    let levels = random.below(4);
    let term = term(random, levels);
    let mut text = String::new();
    spell(random, &term, &mut text);
    Input { bytes: text.into_bytes(), text: Some(term.text()) }
}

/// One to three edits at random places: a byte put in, taken out or changed, the end cut off, or a part written twice.
fn edited(random: &mut Random, bytes: Vec<u8>) -> Vec<u8> {
    let mut bytes = bytes;
    for _ in 0..random.between(1, 3) {
        let at = random.between(0, bytes.len());
        let end = random.between(at, bytes.len().min(at + 8));
        match random.below(5) {
            0 => bytes.insert(at, random.pick(HOSTILE)),
            1 if at < bytes.len() => drop(bytes.remove(at)),
            2 if at < bytes.len() => bytes[at] = random.pick(HOSTILE),
            3 => bytes.truncate(at),
            _ => {
                let part = bytes[at..end].to_vec();
                bytes.splice(at..at, part);
            }
        }
    }
    bytes
}

/// A whole number close to an edge, in a place where such a one may stand.
fn numbers(random: &mut Random) -> Vec<u8> {
    let in_binary = random.once_in(2);
    let (front, number) = match in_binary {
        true => (random.pick(&["<<", "<<1,", "{<< "]), random.pick(BYTES)),
        false => (random.pick(&["", "-", "[", "[-", "{a, -", "[1|-"]), random.pick(INTEGERS)),
    };
    let zeros = "0".repeat(random.below(4) * random.below(9));
    let end = random.pick(&["", "0", "9", ",", "]", "}", ">>", " ", "a", ".", ">>}", "]]"]);
    format!("{front}{zeros}{number}{end}").into_bytes()
}

/// A code point close to an edge between quotes, by its number or by bytes that may be no UTF-8.
fn points(random: &mut Random) -> Vec<u8> {
    let mut bytes = random.pick(&["'", "\"", "<<\"", "['a", "{\"a"]).as_bytes().to_vec();
    if random.once_in(2) {
        let zeros = "0".repeat(random.below(5));
        let end = random.pick(&["}", "}'", "}\"", "}\">>", "", "g", "0}\""]);
        bytes.extend_from_slice(format!("\\x{{{zeros}{}{end}", random.pick(POINT_DIGITS)).as_bytes());
        return bytes;
    }
    bytes.push(random.between(0xbf, 0xf8) as u8);
    for _ in 0..random.below(4) {
        bytes.push(random.pick(b"\x7f\x80\x8f\x90\x9f\xa0\xbf\xc0'\""));
    }
    bytes.extend_from_slice(random.pick(&["'", "\"", "\">>", ""]).as_bytes());
    bytes
}

/// Brackets that open 60 to 66 levels, something inside, and what closes them.
fn deep(random: &mut Random) -> Vec<u8> {
    let mut text = String::new();
    let mut ends = Vec::new();
    for _ in 0..random.between(60, 66) {
        let (front, end) = random.pick(&[("{", "}"), ("[", "]"), ("{", "}"), ("[", "]"), ("{a,", "}"), ("[1,", "|[]]"), ("[b|[", "]]")]);
        text.push_str(front);
        blanks(random, &mut text);
        ends.push(end);
    }
    let mut bytes = text.into_bytes();
    bytes.extend_from_slice(random.pick(INSIDES));
    if !random.once_in(4) {
        ends.iter().rev().for_each(|end| bytes.extend_from_slice(end.as_bytes()));
    }
    bytes
}

/// Tuples and lists of 118 to 122 terms.
fn wide(random: &mut Random) -> Vec<u8> {
    let (front, end) = random.pick(&[("{", "}"), ("{", "}"), ("[", "]"), ("[{", "}]"), ("{{", "},1}"), ("[1|{", "}]")]);
    let element = random.pick(&["1", "a", "{}", "[]", "\"ab\"", "<<1,2>>", "{1,2}", "''", "[1|2]"]);
    let mut text = front.to_string();
    for at in 0..random.between(118, 122) {
        if at > 0 {
            text.push(',');
        }
        blanks(random, &mut text);
        text.push_str(if random.once_in(20) { "{1,2,3}" } else { element });
        blanks(random, &mut text);
    }
    text.push_str(random.pick(&[end, end, end, ",", "|1]", ""]));
    text.into_bytes()
}

/// A plain atom of 253 to 258 characters, and a byte behind it.
fn long_name(random: &mut Random) -> Vec<u8> {
    let mut text = random.pick(&["", "", "[", "{1,", "[a|"]).to_string();
    text.push('z');
    for _ in 1..random.between(253, 258) {
        text.push(random.pick(&['a', 'Z', '0', '_', '@']));
    }
    text.push_str(random.pick(&["", "", " ", "]", "}", "-", "é", "'"]));
    text.into_bytes()
}

/// Between quotes 253 to 258 code points, each written in some way, and what follows them.
fn long_quoted(random: &mut Random) -> Vec<u8> {
    let mut text = random.pick(&["'", "'", "'", "['", "{1,'", "\"", "<<\""]).to_string();
    let only = random.once_in(2).then(|| random.pick(&POINTS));
    for _ in 0..random.between(253, 258) {
        let point = only.unwrap_or_else(|| random.pick(&POINTS));
        match point {
            '\'' | '"' | '\\' => text.extend(['\\', point]),
            '\n' => text.push_str("\\n"),
            _ if random.once_in(4) => text.push_str(&format!("\\x{{{:x}}}", u32::from(point))),
            _ => text.push(point),
        }
    }
    let mut bytes = text.into_bytes();
    bytes.extend_from_slice(random.pick(ENDS));
    bytes
}

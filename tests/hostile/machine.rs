//! The grammar of term texts as a machine that takes one byte after another.
//!
//! It is written from the tables of docs/FORMATS.md and apart from the reader that it judges: it looks at each byte once, reads
//! nothing ahead, and keeps what is open on a stack. After each byte it tells whether some text begins with the bytes so far
//! (`take`) and whether they are a text (`is_text`). The limits are its own numbers, so that a fault's kind is found by asking
//! whether one more of something would have helped.

mod ending;

use crate::term::{Term, is_name_character};

/// How deep, how wide and how long a text may be.
#[derive(Clone, Copy)]
pub struct Limits {
    pub levels: usize,
    pub elements: usize,
    pub characters: usize,
}

pub const STANDARD: Limits = Limits { levels: 64, elements: 120, characters: 255 };

/// What a tuple or list that isn't closed yet holds so far.
enum Open {
    Tuple(Vec<Term>),
    List(Vec<Term>),
    /// The bar was read; then the last tail, once it has ended.
    Tail(Vec<Term>, Option<Term>),
}

#[derive(Clone, Copy, PartialEq, Eq)]
enum Quote {
    Atom,
    String,
    /// A string that is a part of a binary.
    Shown,
}

/// Where in a code point between quotes the next byte stands.
enum Place {
    Before,
    Backslash,
    /// Behind `\x`.
    Brace,
    Hexadecimal {
        digits: u32,
        value: u32,
    },
    /// Inside a code point in UTF-8 of which so many bytes are missing, whose value must be `least` or more.
    Inside {
        missing: u32,
        value: u32,
        least: u32,
    },
}

enum State {
    /// Nothing was read.
    Start,
    /// Behind an opening bracket: a term or the closing bracket.
    First,
    /// Behind a comma or a bar: a term.
    Next,
    /// Behind a term inside brackets.
    After,
    Minus,
    Digits {
        negative: bool,
        value: i64,
    },
    Name(String),
    Quoted {
        quote: Quote,
        points: Vec<char>,
        place: Place,
    },
    /// Behind the first `<`.
    Less,
    FirstSegment,
    NextSegment,
    Byte(u8),
    AfterSegment,
    /// Behind the first `>`.
    Greater,
    Whole(Term),
}

/// Whether a number between these two, both included, is a code point in Unicode and no surrogate.
fn some_point(low: u32, high: u32) -> bool {
    low <= high && (low <= 0xd7ff || (low <= 0x10_ffff && 0xe000 <= high))
}

fn quoted(quote: Quote) -> Option<State> {
    Some(State::Quoted { quote, points: Vec::new(), place: Place::Before })
}

pub struct Machine {
    limits: Limits,
    open: Vec<Open>,
    /// The bytes of the binary that is read.
    binary: Vec<u8>,
    /// None once no text begins with the bytes that were taken.
    state: Option<State>,
}

impl Machine {
    pub fn new(limits: Limits) -> Machine {
        Machine { limits, open: Vec::new(), binary: Vec::new(), state: Some(State::Start) }
    }

    /// Whether some text begins with the bytes so far and this one.
    pub fn take(&mut self, byte: u8) -> bool {
        self.state = self.state.take().and_then(|state| self.after(state, byte));
        self.state.is_some()
    }

    /// Whether the bytes so far are a text.
    pub fn is_text(&self) -> bool {
        self.open.is_empty() && matches!(self.state, Some(State::Digits { .. } | State::Name(_) | State::Whole(_)))
    }

    /// Whether this byte, behind a text, belongs to it.
    pub fn takes_in(&self, byte: u8) -> bool {
        match self.state {
            Some(State::Digits { .. }) => byte.is_ascii_digit(),
            Some(State::Name(_)) => is_name_character(char::from(byte)),
            _ => false,
        }
    }

    /// The term of a text.
    pub fn term(self) -> Option<Term> {
        match self.state? {
            _ if !self.open.is_empty() => None,
            State::Digits { value, .. } => Some(Term::Integer(value)),
            State::Name(name) => Some(Term::Atom(name)),
            State::Whole(term) => Some(term),
            _ => None,
        }
    }

    fn after(&mut self, state: State, byte: u8) -> Option<State> {
        match state {
            State::First | State::Next | State::After if byte == b' ' || byte == b'\t' => Some(state),
            State::FirstSegment | State::NextSegment | State::AfterSegment if byte == b' ' || byte == b'\t' => Some(state),
            State::First if byte == b'}' || byte == b']' => self.close(byte),
            State::Start | State::First | State::Next => self.begin(byte),
            State::After => self.follow(byte),
            State::Minus => self.digit(true, 0, byte),
            State::Digits { negative, value } if byte.is_ascii_digit() => self.digit(negative, value, byte),
            State::Digits { value, .. } => self.ended(Term::Integer(value), byte),
            State::Name(name) if is_name_character(char::from(byte)) => self.letter(name, byte),
            State::Name(name) => self.ended(Term::Atom(name), byte),
            State::Quoted { quote, points, place } => self.character(quote, points, place, byte),
            State::Less => (byte == b'<').then_some(State::FirstSegment),
            State::FirstSegment if byte == b'>' => Some(State::Greater),
            State::FirstSegment | State::NextSegment => self.segment(byte),
            State::Byte(value) if byte.is_ascii_digit() => self.binary_digit(value, byte),
            State::Byte(value) => {
                self.binary.push(value);
                self.after(State::AfterSegment, byte)
            }
            State::AfterSegment => match byte {
                b',' => Some(State::NextSegment),
                b'>' => Some(State::Greater),
                _ => None,
            },
            State::Greater if byte == b'>' => {
                let bytes = std::mem::take(&mut self.binary);
                Some(self.end(Term::Binary(bytes)))
            }
            State::Greater | State::Whole(_) => None,
        }
    }

    /// The level on which a term stands that begins here: one below each open tuple and list, on the level of a list behind its bar.
    fn level(&self) -> usize {
        1 + self.open.iter().filter(|open| !matches!(open, Open::Tail(..))).count()
    }

    fn begin(&mut self, byte: u8) -> Option<State> {
        if self.level() > self.limits.levels {
            return None;
        }
        match byte {
            b'{' => {
                self.open.push(Open::Tuple(Vec::new()));
                Some(State::First)
            }
            b'[' => {
                self.open.push(Open::List(Vec::new()));
                Some(State::First)
            }
            b'"' => quoted(Quote::String),
            b'\'' => quoted(Quote::Atom),
            b'<' => Some(State::Less),
            b'-' => Some(State::Minus),
            b'0'..=b'9' => self.digit(false, 0, byte),
            b'a'..=b'z' => self.letter(String::new(), byte),
            _ => None,
        }
    }

    /// A term has ended with the byte before this one.
    fn ended(&mut self, term: Term, byte: u8) -> Option<State> {
        let state = self.end(term);
        self.after(state, byte)
    }

    fn end(&mut self, term: Term) -> State {
        match self.open.last_mut() {
            None => return State::Whole(term),
            Some(Open::Tuple(terms) | Open::List(terms)) => terms.push(term),
            Some(Open::Tail(_, last)) => *last = Some(term),
        }
        State::After
    }

    /// What stands behind a term inside brackets.
    fn follow(&mut self, byte: u8) -> Option<State> {
        match byte {
            b',' => match self.open.last()? {
                Open::Tuple(elements) if elements.len() < self.limits.elements => Some(State::Next),
                Open::List(_) => Some(State::Next),
                _ => None,
            },
            b'|' => match self.open.pop()? {
                Open::List(heads) => {
                    self.open.push(Open::Tail(heads, None));
                    Some(State::Next)
                }
                _ => None,
            },
            b'}' | b']' => self.close(byte),
            _ => None,
        }
    }

    fn close(&mut self, byte: u8) -> Option<State> {
        match (self.open.pop()?, byte) {
            (Open::Tuple(elements), b'}') => Some(self.end(Term::Tuple(elements))),
            (Open::List(heads), b']') => Some(self.end(Term::list(heads, Term::Nil))),
            (Open::Tail(heads, Some(last)), b']') => Some(self.end(Term::list(heads, last))),
            _ => None,
        }
    }

    fn digit(&self, negative: bool, value: i64, byte: u8) -> Option<State> {
        let digit = char::from(byte).to_digit(10)?;
        let tens = i128::from(value) * 10;
        let value = if negative { tens - i128::from(digit) } else { tens + i128::from(digit) };
        Some(State::Digits { negative, value: i64::try_from(value).ok()? })
    }

    fn letter(&self, name: String, byte: u8) -> Option<State> {
        let mut name = name;
        name.push(char::from(byte));
        (name.len() <= self.limits.characters).then_some(State::Name(name))
    }

    fn segment(&self, byte: u8) -> Option<State> {
        match byte {
            b'"' => quoted(Quote::Shown),
            _ => self.binary_digit(0, byte),
        }
    }

    fn binary_digit(&self, value: u8, byte: u8) -> Option<State> {
        let digit = char::from(byte).to_digit(10)?;
        u8::try_from(u32::from(value) * 10 + digit).ok().map(State::Byte)
    }

    fn character(&mut self, quote: Quote, points: Vec<char>, place: Place, byte: u8) -> Option<State> {
        let close = if quote == Quote::Atom { b'\'' } else { b'"' };
        let most = if quote == Quote::Shown { 127 } else { 0x10_ffff };
        let mut points = points;
        let place = match place {
            Place::Before if byte == close => return Some(self.end_quoted(quote, &points)),
            Place::Before if !self.has_room(quote, points.len()) => return None,
            Place::Before => before(byte)?,
            Place::Backslash => escaped(byte)?,
            Place::Brace => Found::At((byte == b'{').then_some(Place::Hexadecimal { digits: 0, value: 0 })?),
            Place::Hexadecimal { digits, value } => hexadecimal(digits, value, most, byte)?,
            Place::Inside { missing, value, least } => inside(missing, value, least, byte)?,
        };
        let place = match place {
            Found::Point(point) => {
                points.push(point);
                Place::Before
            }
            Found::At(Place::Inside { .. }) if quote == Quote::Shown => return None,
            Found::At(place) => place,
        };
        Some(State::Quoted { quote, points, place })
    }

    /// Whether a further code point may begin behind so many. Those of a string stand one level below it.
    fn has_room(&self, quote: Quote, count: usize) -> bool {
        match quote {
            Quote::Atom => count < self.limits.characters,
            Quote::String => self.level() < self.limits.levels,
            Quote::Shown => true,
        }
    }

    fn end_quoted(&mut self, quote: Quote, points: &[char]) -> State {
        match quote {
            Quote::Atom => self.end(Term::Atom(points.iter().collect())),
            Quote::String => self.end(Term::string(points)),
            Quote::Shown => {
                self.binary.extend(points.iter().map(|point| u8::try_from(*point).expect("a code point of ASCII")));
                State::AfterSegment
            }
        }
    }
}

/// What a byte between quotes comes to: a code point has ended, or the next byte stands at a place inside of one.
enum Found {
    Point(char),
    At(Place),
}

/// The first byte of a code point.
fn before(byte: u8) -> Option<Found> {
    match byte {
        b'\n' => None,
        b'\\' => Some(Found::At(Place::Backslash)),
        0x00..=0x7f => Some(Found::Point(char::from(byte))),
        0b1100_0000..=0b1101_1111 => utf8(1, u32::from(byte & 0b1_1111), 0x80),
        0b1110_0000..=0b1110_1111 => utf8(2, u32::from(byte & 0b1111), 0x800),
        0b1111_0000..=0b1111_0111 => utf8(3, u32::from(byte & 0b111), 0x1_0000),
        _ => None,
    }
}

/// Each missing byte adds six bits. With all of them the value must be able to be a code point that needs so many bytes.
fn utf8(missing: u32, value: u32, least: u32) -> Option<Found> {
    let low = value << (6 * missing);
    let high = ((value + 1) << (6 * missing)) - 1;
    if !some_point(low.max(least), high) {
        return None;
    }
    match missing {
        0 => char::from_u32(value).map(Found::Point),
        _ => Some(Found::At(Place::Inside { missing, value, least })),
    }
}

fn inside(missing: u32, value: u32, least: u32, byte: u8) -> Option<Found> {
    match byte {
        0b1000_0000..=0b1011_1111 => utf8(missing - 1, (value << 6) + u32::from(byte & 0b11_1111), least),
        _ => None,
    }
}

fn escaped(byte: u8) -> Option<Found> {
    match byte {
        b'\\' | b'\'' | b'"' => Some(Found::Point(char::from(byte))),
        b'n' => Some(Found::Point('\n')),
        b'r' => Some(Found::Point('\r')),
        b't' => Some(Found::Point('\t')),
        b's' => Some(Found::Point(' ')),
        b'x' => Some(Found::At(Place::Brace)),
        _ => None,
    }
}

/// Behind `\x{` and some digits of this value: a sixth digit is the last one, and some code point must still be possible.
fn hexadecimal(digits: u32, value: u32, most: u32, byte: u8) -> Option<Found> {
    if byte == b'}' {
        return char::from_u32(value).filter(|_| digits > 0 && value <= most).map(Found::Point);
    }
    let value = value * 16 + char::from(byte).to_digit(16)?;
    let left = 5u32.checked_sub(digits)?;
    let possible = |more: u32| some_point(value << (4 * more), (((value + 1) << (4 * more)) - 1).min(most));
    (0..=left).any(possible).then_some(Found::At(Place::Hexadecimal { digits: digits + 1, value }))
}

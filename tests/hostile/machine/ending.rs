//! What makes a text of the bytes that a machine has taken, so that the reader itself shows that some text begins with them.

use super::{Found, Machine, Open, Place, Quote, State, hexadecimal, inside};

impl Machine {
    /// Bytes behind which the bytes so far are a text; None where no text begins with them.
    pub fn ending(&self) -> Option<Vec<u8>> {
        let mut bytes = match self.state.as_ref()? {
            State::Start | State::Next | State::Minus => b"1".to_vec(),
            State::First | State::After | State::Digits { .. } | State::Name(_) | State::Whole(_) => Vec::new(),
            State::Quoted { quote, place, .. } => quoted_ending(*quote, place),
            State::Less => b"<>>".to_vec(),
            State::NextSegment => b"1>>".to_vec(),
            State::FirstSegment | State::Byte(_) | State::AfterSegment => b">>".to_vec(),
            State::Greater => b">".to_vec(),
        };
        let close = |open: &Open| if matches!(open, Open::Tuple(_)) { b'}' } else { b']' };
        bytes.extend(self.open.iter().rev().map(close));
        Some(bytes)
    }
}

fn quoted_ending(quote: Quote, place: &Place) -> Vec<u8> {
    let mut bytes = match *place {
        Place::Before => Vec::new(),
        Place::Backslash => b"\\".to_vec(),
        Place::Brace => b"{1}".to_vec(),
        Place::Hexadecimal { digits, value } => hexadecimal_ending(digits, value),
        Place::Inside { missing, value, least } => inside_ending(missing, value, least),
    };
    bytes.extend_from_slice(match quote {
        Quote::Atom => b"'",
        Quote::String => b"\"",
        Quote::Shown => b"\">>",
    });
    bytes
}

/// Zeros until the digits are a code point's, and the brace.
fn hexadecimal_ending(digits: u32, value: u32) -> Vec<u8> {
    match hexadecimal(digits, value, 0x10_ffff, b'}') {
        Some(_) => b"}".to_vec(),
        None => [b"0".to_vec(), hexadecimal_ending(digits + 1, value * 16)].concat(),
    }
}

/// The least bytes with which the code point ends.
fn inside_ending(missing: u32, value: u32, least: u32) -> Vec<u8> {
    let next = (0x80..=0xbf).find_map(|byte| Some((byte, inside(missing, value, least, byte)?)));
    match next.expect("some code point begins with these bytes") {
        (byte, Found::At(Place::Inside { missing, value, least })) => [vec![byte], inside_ending(missing, value, least)].concat(),
        (byte, _) => vec![byte],
    }
}

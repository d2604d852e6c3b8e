//! Terms, and the one printed text of each.

#[derive(Debug, Clone, PartialEq, Eq)]
pub enum Term {
    Integer(i64),
    Atom(String),
    Tuple(Vec<Term>),
    /// Heads, and a last tail that is no list.
    List(Vec<Term>, Box<Term>),
    Nil,
    Binary(Vec<u8>),
}

const RESERVED: &str = " after and andalso band begin bnot bor bsl bsr bxor case catch cond div else end fun if let maybe not of or \
                        orelse receive rem try when xor ";

impl Term {
    /// The list of these heads with this tail.
    pub fn list(heads: Vec<Term>, tail: Term) -> Term {
        let mut heads = heads;
        match tail {
            _ if heads.is_empty() => tail,
            Term::List(more, last) => {
                heads.extend(more);
                Term::List(heads, last)
            }
            _ => Term::List(heads, Box::new(tail)),
        }
    }

    /// The list of these code points.
    pub fn string(points: &[char]) -> Term {
        Term::list(points.iter().map(|point| Term::Integer(i64::from(u32::from(*point)))).collect(), Term::Nil)
    }

    pub fn text(&self) -> String {
        match self {
            Term::Integer(number) => number.to_string(),
            Term::Atom(name) => atom_text(name),
            Term::Tuple(elements) => format!("{{{}}}", series(elements)),
            Term::List(heads, last) if **last == Term::Nil => format!("[{}]", series(heads)),
            Term::List(heads, last) => format!("[{}|{}]", series(heads), last.text()),
            Term::Nil => "[]".to_string(),
            Term::Binary(bytes) => binary_text(bytes),
        }
    }
}

fn series(terms: &[Term]) -> String {
    terms.iter().map(Term::text).collect::<Vec<_>>().join(",")
}

/// Whether a character may follow the first letter of a plain atom.
pub fn is_name_character(c: char) -> bool {
    c.is_ascii_alphanumeric() || c == '_' || c == '@'
}

/// Whether an atom may be read without quotes.
pub fn is_plain(name: &str) -> bool {
    name.starts_with(|first: char| first.is_ascii_lowercase()) && name.chars().all(is_name_character)
}

fn atom_text(name: &str) -> String {
    if is_plain(name) && !RESERVED.contains(&format!(" {name} ")) {
        return name.to_string();
    }
    format!("'{}'", name.chars().map(shown).collect::<String>())
}

fn shown(c: char) -> String {
    match c {
        '\\' => r"\\".to_string(),
        '\'' => r"\'".to_string(),
        '\n' => r"\n".to_string(),
        '\r' => r"\r".to_string(),
        '\t' => r"\t".to_string(),
        '\0'..='\x1f' | '\x7f'..='\u{9f}' => format!("\\x{{{:x}}}", u32::from(c)),
        _ => c.to_string(),
    }
}

fn binary_text(bytes: &[u8]) -> String {
    if bytes.is_empty() {
        return "<<>>".to_string();
    }
    if bytes.iter().all(|byte| (32..=126).contains(byte)) {
        let text: String = bytes.iter().map(|byte| char::from(*byte)).collect();
        return format!("<<\"{}\">>", text.replace('\\', r"\\").replace('"', "\\\""));
    }
    let numbers: Vec<String> = bytes.iter().map(u8::to_string).collect();
    format!("<<{}>>", numbers.join(","))
}

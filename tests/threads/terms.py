"""Terms as Python tuples, of which the first item is the kind, so that tuples compare as the terms do. They are read and printed as
docs/FORMATS.md says, and the length of their byte code is counted."""
import re

INTEGER, ATOM, TUPLE, NIL_KIND, CELL, BINARY = range(6)
NIL = (NIL_KIND,)
MOST_BYTES = 1000
RESERVED = set("after and andalso band begin bnot bor bsl bsr bxor case catch cond div else end fun if let maybe not of or orelse receive rem try "
               "when xor".split())
PLAIN = "[a-z][A-Za-z0-9_@]*"
PIECE = re.compile(r"\\x\{([0-9A-Fa-f]{1,6})\}|\\(.)|([^\\])", re.S)
ESCAPES = {"n": "\n", "r": "\r", "t": "\t", "s": " ", "\\": "\\", "'": "'", '"': '"'}


def integer(n):
    return (INTEGER, n)


def atom(text):
    return (ATOM, text)


def tuple_of(items):
    return (TUPLE, len(items), tuple(items))


def list_of(items, tail=NIL):
    for item in reversed(items):
        tail = (CELL, item, tail)
    return tail


def items_of(term):
    """The items of a proper list, or None."""
    items = []
    while term[0] == CELL:
        items.append(term[1])
        term = term[2]
    return items if term == NIL else None


def code_length(term):
    """How many bytes the term's code has."""
    length = 0
    while term[0] == CELL:
        length += 1 + code_length(term[1])
        term = term[2]
    if term[0] == INTEGER:
        value = term[1] if term[1] >= 0 else -term[1] - 1
        return length + 1 + (value.bit_length() + 7) // 8
    if term[0] == TUPLE:
        return length + 5 + sum(map(code_length, term[2]))
    if term == NIL:
        return length + 1
    content = term[1].encode() if term[0] == ATOM else term[1]
    return length + 3 + len(content) + content.count(0)


def fits(term):
    return code_length(term) <= MOST_BYTES


# ---- reading


class NoTerm(Exception):
    """The text is no term, or no command."""


class Reader:
    """Reads a command line from left to right."""

    def __init__(self, text):
        self.text, self.at = text, 0

    def matches(self, pattern):
        """The text of this pattern that comes next, behind blanks."""
        found = re.compile(r"[ \t]*(" + pattern + ")").match(self.text, self.at)
        if found:
            self.at = found.end()
        return found and found[1]

    def takes(self, token):
        return self.matches(re.escape(token)) is not None

    def items(self, ends, one):
        """What `one` reads, parted by commas, up to one of these tokens, and that token."""
        items = []
        while True:
            for end in ends:
                if self.takes(end):
                    return items, end
            if items and not self.takes(","):
                raise NoTerm(f"byte {self.at + 1} of {self.text}")
            items.append(one())

    def quoted(self, quote):
        """The characters up to the closing quote."""
        characters = []
        while not self.text.startswith(quote, self.at):
            piece = PIECE.match(self.text, self.at)
            if not piece or (piece[2] and piece[2] not in ESCAPES):
                raise NoTerm(f"byte {self.at + 1} of {self.text}")
            characters.append(chr(int(piece[1], 16)) if piece[1] else ESCAPES[piece[2]] if piece[2] else piece[3])
            self.at = piece.end()
        self.at += 1
        return "".join(characters)

    def part(self):
        """A part of a binary."""
        return self.quoted('"').encode() if self.takes('"') else bytes([int(self.matches("[0-9]+"))])

    def term(self):
        if self.takes("{"):
            return tuple_of(self.items(["}"], self.term)[0])
        if self.takes("["):
            items, end = self.items(["]", "|"], self.term)
            return list_of(items, self.items(["]"], self.term)[0][0]) if end == "|" else list_of(items)
        if self.takes("<<"):
            return (BINARY, b"".join(self.items([">>"], self.part)[0]))
        if self.takes('"'):
            return list_of([integer(ord(character)) for character in self.quoted('"')])
        if self.takes("'"):
            return atom(self.quoted("'"))
        number = self.matches("-?[0-9]+")
        if number:
            return integer(int(number))
        name = self.matches(PLAIN)
        if name:
            return atom(name)
        raise NoTerm(f"byte {self.at + 1} of {self.text}")


# ---- printing


def escaped(text, quote):
    def piece(character):
        if character in quote + "\\":
            return "\\" + character
        for letter, meant in ("n", "\n"), ("r", "\r"), ("t", "\t"):
            if character == meant:
                return "\\" + letter
        code = ord(character)
        return f"\\x{{{code:x}}}" if code < 32 or 127 <= code < 160 else character
    return quote + "".join(map(piece, text)) + quote


def text_of(term):
    kind = term[0]
    if kind == INTEGER:
        return str(term[1])
    if kind == ATOM:
        return term[1] if re.fullmatch(PLAIN, term[1]) and term[1] not in RESERVED else escaped(term[1], "'")
    if kind == TUPLE:
        return "{" + ",".join(map(text_of, term[2])) + "}"
    if kind == BINARY:
        plain = term[1] and all(32 <= byte < 127 for byte in term[1])
        return "<<" + (escaped(term[1].decode(), '"') if plain else ",".join(map(str, term[1]))) + ">>"
    texts = []
    while term[0] == CELL:
        texts.append(text_of(term[1]))
        term = term[2]
    return "[" + ",".join(texts) + ("" if term == NIL else "|" + text_of(term)) + "]"

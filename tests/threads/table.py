"""An ordered_set of one thread, as docs/FORMATS.md and Erlang's ets manual tell the sixteen commands. A table is a tuple of rows in key order: a
change makes another tuple, and a command that changes nothing gives the same one back."""
from bisect import bisect_left, bisect_right

from matching import is_specification, is_whole, result_of
from terms import INTEGER, TUPLE, NoTerm, Reader, fits, integer, items_of, text_of, tuple_of

END = "'$end_of_table'"
BADARG, RANGE, SIZE = "error badarg", "error range", "error size"
ARGUMENTS = {"insert": 1, "insert_new": 1, "lookup": 1, "member": 1, "delete": 1, "take": 1, "update_counter": 2, "update_element": 2, "first": 0,
             "last": 0, "next": 1, "prev": 1, "select": 1, "select_range": 3, "batch": 2, "more": 0}


class Row:
    """An object, with its key and its text. There is one row of each object, so that tables are soon compared."""

    made = {}

    def __new__(cls, keypos, term):
        row = cls.made.get((keypos, term))
        if row is None:
            row = cls.made[keypos, term] = super().__new__(cls)
            row.term, row.key, row.text = term, term[2][keypos - 1], text_of(term)
        return row


class Refused(Exception):
    """An error is the answer."""


def check(holds, error):
    if not holds:
        raise Refused(error)


def list_text(rows):
    return "[" + ",".join(row.text for row in rows) + "]"


class Command:
    """A command of a client's line. A continuation is None before the first batch, END at the end, and else the batch with the key behind which
    it goes on."""

    def __init__(self, text, keypos=1):
        reader = Reader(text)
        self.text, self.keypos, self.name = text, keypos, reader.matches("[a-z_]+")
        if self.name not in ARGUMENTS:
            raise NoTerm(text)
        self.terms = [reader.term() for _ in range(ARGUMENTS[self.name])]
        if text[reader.at:].strip(" \t"):
            raise NoTerm(text)

    def step(self, table, continuation):
        """The table and the continuation behind it, and the answer's text."""
        try:
            return getattr(self, self.name)(table, continuation, *self.terms)
        except Refused as refused:
            return table, continuation, refused.args[0]

    # ---- objects of one key

    def place(self, table, key):
        """Where the key's row stands or would stand, and the row."""
        check(fits(key), SIZE)
        at = bisect_left([row.key for row in table], key)
        return at, table[at] if at < len(table) and table[at].key == key else None

    def put(self, table, term):
        row = Row(self.keypos, term)
        at, old = self.place(table, row.key)
        return table if old is row else table[:at] + (row,) + table[at + (old is not None):]

    def row_in(self, term):
        check(term[0] == TUPLE and term[1] >= self.keypos, BADARG)
        check(fits(term), SIZE)
        return Row(self.keypos, term)

    def insert(self, table, continuation, term):
        self.row_in(term)
        return self.put(table, term), continuation, "true"

    def insert_new(self, table, continuation, term):
        _, old = self.place(table, self.row_in(term).key)
        return (table, continuation, "false") if old else (self.put(table, term), continuation, "true")

    def lookup(self, table, continuation, key):
        _, row = self.place(table, key)
        return table, continuation, list_text([row] if row else [])

    def member(self, table, continuation, key):
        _, row = self.place(table, key)
        return table, continuation, "true" if row else "false"

    def take(self, table, continuation, key):
        at, row = self.place(table, key)
        return table[:at] + table[at + 1:] if row else table, continuation, list_text([row] if row else [])

    def delete(self, table, continuation, key):
        return self.take(table, continuation, key)[:2] + ("true",)

    # ---- changes of an object's elements

    def operation(self, term):
        """The integers of one operation, of which the first is a position."""
        if term[0] == INTEGER:
            return [self.keypos + 1, term[1]]
        check(term[0] == TUPLE and term[1] in (2, 4) and all(part[0] == INTEGER for part in term[2]), BADARG)
        return [part[1] for part in term[2]]

    def counted(self, elements, position, increment, threshold=None, value=None):
        """Carries an operation out on the elements, and gives the new value."""
        check(1 <= position <= len(elements) and position != self.keypos and elements[position - 1][0] == INTEGER, BADARG)
        new = elements[position - 1][1] + increment
        if threshold is not None and (new > threshold if increment >= 0 else new < threshold):
            new = value
        check(-2 ** 63 <= new < 2 ** 63, RANGE)
        elements[position - 1] = integer(new)
        return str(new)

    def update_counter(self, table, continuation, key, term):
        several = items_of(term)
        check(several is None or all(part[0] == TUPLE for part in several), BADARG)
        operations = [self.operation(part) for part in ([term] if several is None else several)]
        _, row = self.place(table, key)
        check(row, BADARG)
        elements = list(row.term[2])
        values = [self.counted(elements, *operation) for operation in operations]
        new = tuple_of(elements)
        check(fits(new), SIZE)
        return self.put(table, new), continuation, values[0] if several is None else "[" + ",".join(values) + "]"

    def update_element(self, table, continuation, key, term):
        check(term[0] == TUPLE and term[1] == 2 and term[2][0][0] == INTEGER, BADARG)
        position = term[2][0][1]
        check(position >= 1 and position != self.keypos, BADARG)
        _, row = self.place(table, key)
        if not row:
            return table, continuation, "false"
        check(position <= row.term[1], BADARG)
        new = tuple_of(row.term[2][:position - 1] + (term[2][1],) + row.term[2][position:])
        check(fits(new), SIZE)
        return self.put(table, new), continuation, "true"

    # ---- walks by key

    def first(self, table, continuation):
        return table, continuation, text_of(table[0].key) if table else END

    def last(self, table, continuation):
        return table, continuation, text_of(table[-1].key) if table else END

    def next(self, table, continuation, key):
        return table, continuation, self.first(self.behind(table, key), None)[2]

    def prev(self, table, continuation, key):
        at, _ = self.place(table, key)
        return table, continuation, self.last(table[:at], None)[2]

    def behind(self, table, key):
        check(fits(key), SIZE)
        return table[bisect_right([row.key for row in table], key):]

    # ---- selections

    def results(self, rows, specification):
        """The rows of which the specification makes something, each with what it makes."""
        check(is_specification(specification), BADARG)
        made = ((row, result_of(specification, row.term)) for row in rows)
        return [(row, result) for row, result in made if result is not None]

    def select(self, table, continuation, specification):
        return table, continuation, results_text(self.results(table, specification))

    def select_range(self, table, continuation, least, most, specification):
        self.results((), specification)
        check(fits(least) and fits(most), SIZE)
        return table, continuation, results_text(self.results([row for row in table if least <= row.key <= most], specification))

    # ---- batches

    def batch(self, table, continuation, specification, limit):
        check(limit[0] == INTEGER and limit[1] >= 1, BADARG)
        return self.batch_of(table, table)

    def batch_of(self, table, rows):
        """The next batch out of these rows, of the specification and the limit of this command."""
        specification, limit = self.terms[0], self.terms[1][1]
        found = self.results(rows, specification)
        if len(found) >= limit:
            return table, (self, found[limit - 1][0].key), "{" + results_text(found[:limit]) + ",more}"
        return table, END, "{" + results_text(found) + "," + END + "}" if found else END

    def more(self, table, continuation):
        check(continuation, BADARG)
        if continuation == END:
            return table, END, END
        begun, key = continuation
        return begun.batch_of(table, self.behind(table, key))


def results_text(found):
    return "[" + ",".join(text_of(result) for _, result in found) + "]"


def is_told(continuation):
    """Whether the answer that left this continuation tells it: the results are the objects themselves, of which the last one's key is known."""
    return continuation in (None, END) or is_whole(continuation[0].terms[0])

"""Match specifications as docs/FORMATS.md says: whether a term is one, and what it makes of an object."""
import re

from terms import ATOM, BINARY, CELL, INTEGER, NIL, TUPLE, atom, integer, items_of, list_of, tuple_of

TRUE, FALSE = atom("true"), atom("false")


class Fails(Exception):
    """An operator isn't defined on its arguments."""


# ---- variables


def variable_of(term):
    """The number of the variable that the term is, or None."""
    found = term[0] == ATOM and re.fullmatch(r"\$(0|[1-9][0-9]?)", term[1])
    return int(found[1]) if found else None


def bound_in(head):
    """The numbers of the variables in a head."""
    if head[0] == TUPLE:
        return set().union(*map(bound_in, head[2]))
    if head[0] == CELL:
        return bound_in(head[1]) | bound_in(head[2])
    number = variable_of(head)
    return set() if number is None else {number}


# ---- operators: how many arguments each has, and its value


def truth(value):
    return TRUE if value else FALSE


def is_true(term):
    if term not in (TRUE, FALSE):
        raise Fails
    return term == TRUE


def number_in(term):
    if term[0] != INTEGER:
        raise Fails
    return term[1]


def number_of(value):
    if not -2 ** 63 <= value < 2 ** 63:
        raise Fails
    return integer(value)


def of_kind(*kinds):
    return 1, lambda a: truth(a[0] in kinds or a == NIL and CELL in kinds)


def compares(test):
    return 2, lambda a, b: truth(test(a, b))


def on_truth(count, test):
    return count, lambda *terms: truth(test(*map(is_true, terms)))


def on_numbers(count, makes):
    return count, lambda *terms: number_of(makes(*map(number_in, terms)))


def quotient(a, b):
    if b == 0:
        raise Fails
    return abs(a) // abs(b) * (1 if (a < 0) == (b < 0) else -1)


def part_of(kind, take):
    def part(term):
        if term[0] not in kind:
            raise Fails
        return take(term)
    return 1, part


def element(at, term):
    if term[0] != TUPLE or not 1 <= number_in(at) <= term[1]:
        raise Fails
    return term[2][at[1] - 1]


def length(term):
    items = items_of(term)
    if items is None:
        raise Fails
    return integer(len(items))


def size(term):
    return integer(term[1] if term[0] == TUPLE else len(term[1]))


OPERATORS = {
    "is_atom": of_kind(ATOM), "is_integer": of_kind(INTEGER), "is_number": of_kind(INTEGER), "is_tuple": of_kind(TUPLE), "is_list": of_kind(CELL),
    "is_binary": of_kind(BINARY),
    "not": on_truth(1, lambda a: not a), "and": on_truth(2, lambda a, b: a and b), "or": on_truth(2, lambda a, b: a or b),
    "xor": on_truth(2, lambda a, b: a != b),
    ">": compares(lambda a, b: a > b), ">=": compares(lambda a, b: a >= b), "<": compares(lambda a, b: a < b), "=<": compares(lambda a, b: a <= b),
    "==": compares(lambda a, b: a == b), "=:=": compares(lambda a, b: a == b), "/=": compares(lambda a, b: a != b), "=/=": compares(lambda a, b: a != b),
    "+": on_numbers(2, lambda a, b: a + b), "-": on_numbers(2, lambda a, b: a - b), "*": on_numbers(2, lambda a, b: a * b),
    "div": on_numbers(2, quotient), "rem": on_numbers(2, lambda a, b: a - b * quotient(a, b)),
    "abs": on_numbers(1, abs), "bnot": on_numbers(1, lambda a: ~a),
    "band": on_numbers(2, lambda a, b: a & b), "bor": on_numbers(2, lambda a, b: a | b), "bxor": on_numbers(2, lambda a, b: a ^ b),
    "element": (2, element), "hd": part_of([CELL], lambda t: t[1]), "tl": part_of([CELL], lambda t: t[2]), "length": (1, length),
    "size": part_of([TUPLE, BINARY], size), "tuple_size": part_of([TUPLE], size), "byte_size": part_of([BINARY], size),
    "andalso": (2, None), "orelse": (2, None),
}


# ---- what is a specification


def is_expression(term, bound, in_guard):
    if term[0] == CELL:
        return is_expression(term[1], bound, in_guard) and is_expression(term[2], bound, in_guard)
    number = variable_of(term)
    if number is not None:
        return number in bound
    if term[0] != TUPLE:
        return True
    parts = term[2]
    if len(parts) == 1 and parts[0][0] == TUPLE:
        return all(is_expression(part, bound, in_guard) for part in parts[0][2])
    if len(parts) < 2 or parts[0][0] != ATOM:
        return False
    if parts[0][1] == "const":
        return len(parts) == 2
    known = in_guard and OPERATORS.get(parts[0][1])
    return bool(known) and known[0] == len(parts) - 1 and all(is_expression(part, bound, in_guard) for part in parts[1:])


def is_clause(term):
    guards = items_of(term[2][1]) if term[0] == TUPLE and term[1] == 3 else None
    if guards is None:
        return False
    head, body = term[2][0], items_of(term[2][2])
    bound = bound_in(head)
    return ((head[0] == TUPLE or head == atom("_") or variable_of(head) is not None) and all(is_expression(guard, bound, True) for guard in guards)
            and body is not None and len(body) == 1 and is_expression(body[0], bound, False))


def is_specification(term):
    clauses = items_of(term)
    return clauses is not None and all(map(is_clause, clauses))


def is_whole(term):
    """Whether each result is the object itself."""
    return all(items_of(clause[2][2]) == [atom("$_")] for clause in items_of(term))


# ---- what it makes of an object


def fits_head(head, term, values):
    """Whether the term fits the head; it adds what variables are bound to."""
    number = variable_of(head)
    if number is not None:
        return values.setdefault(number, term) == term
    if head == atom("_"):
        return True
    if head[0] == TUPLE and term[0] == TUPLE:
        return head[1] == term[1] and all(fits_head(h, t, values) for h, t in zip(head[2], term[2]))
    if head[0] == CELL and term[0] == CELL:
        return fits_head(head[1], term[1], values) and fits_head(head[2], term[2], values)
    return head == term


def call(name, arguments, values, term):
    if name in ("andalso", "orelse"):
        first = is_true(value_of(arguments[0], values, term))
        return truth(first) if first == (name == "orelse") else truth(is_true(value_of(arguments[1], values, term)))
    return OPERATORS[name][1](*[value_of(argument, values, term) for argument in arguments])


def value_of(expression, values, term):
    if expression[0] == CELL:
        return (CELL, value_of(expression[1], values, term), value_of(expression[2], values, term))
    if expression[0] == TUPLE:
        first = expression[2][0]
        if first[0] == TUPLE:
            return tuple_of([value_of(part, values, term) for part in first[2]])
        return expression[2][1] if first[1] == "const" else call(first[1], expression[2][1:], values, term)
    if expression == atom("$_"):
        return term
    if expression == atom("$$"):
        return list_of([values[number] for number in sorted(values)])
    number = variable_of(expression)
    return expression if number is None else values[number]


def passes(guard, values, term):
    try:
        return value_of(guard, values, term) == TRUE
    except Fails:
        return False


def result_of(specification, term):
    """What the first clause that holds makes of the object, or None."""
    for clause in items_of(specification):
        head, guards, body = clause[2]
        values = {}
        if fits_head(head, term, values) and all(passes(guard, values, term) for guard in items_of(guards)):
            return value_of(body[1], values, term)
    return None

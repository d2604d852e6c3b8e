"""The search for a merge of the clients' commands that gives what was printed. It goes depth first over which client's next command is done next.

A read whose answer is right now is done at once: each merge that does it later could as well do it now. For each key there is a search of its own,
over the commands that speak of the key or whose answers tell of it; where that can't go on, no merge of all commands can. What was found to lead
nowhere isn't tried again. A search that has looked at many states is begun anew with the clients in another order, which may lead past what held it up; one
of a key is given up then, and the merge is looked for without it."""
import random

from table import END, is_told
from terms import Reader, items_of, text_of

READS = {"lookup", "member", "first", "last", "next", "prev", "select", "select_range", "batch", "more"}
OF_ONE_KEY = {"lookup", "member", "delete", "take", "update_counter", "update_element"}
ALL = Reader("[{'_',[],['$_']}]").term()
MOST_STATES = 400_000  # how many states are looked at in one order of the clients
ORDERS, ORDERS_OF_KEY = 12, 3  # in how many orders of the clients a merge is looked for, of all commands and of those of one key
ABSENT, PRESENT = "", None


class TooLong(Exception):
    """There are more states than are looked at."""


def is_read(line):
    """Whether the command changes nothing wherever it is given this answer."""
    return line.command.name in READS or line.said in ("false", "[]") or line.said.startswith("error ")


# ---- what a line tells of each key


def key_of(command):
    """The one key that the command speaks of, or None."""
    if command.name in OF_ONE_KEY:
        return command.terms[0]
    if command.name not in ("insert", "insert_new") or command.terms[0][0] != 2 or command.terms[0][1] < command.keypos:
        return None
    return command.terms[0][2][command.keypos - 1]


def told_by_walk(line, keys):
    """Of the keys that were passed that they are absent, and of the one that was found that it is there."""
    command, found = line.command, None if line.said == END else Reader(line.said).term()
    start = command.terms[0] if command.terms else None
    if command.name in ("first", "next"):
        passed = [key for key in keys if (start is None or key > start) and (found is None or key < found)]
    else:
        passed = [key for key in keys if (start is None or key < start) and (found is None or key > found)]
    return {**dict.fromkeys(passed, ABSENT), **({} if found is None else {found: PRESENT})}


def told_by_objects(line, keys):
    """Of the keys of a selection of all objects, or of a first batch of them, their objects."""
    command = line.command
    reply = None if line.said == END else Reader(line.said).term()
    objects = [] if reply is None else items_of(reply[2][0] if command.name == "batch" else reply)
    found = {item[2][command.keypos - 1]: text_of(item) for item in objects}
    least, most = command.terms[:2] if command.name == "select_range" else (min(keys), max(keys))
    if line.said.endswith(",more}"):
        most = max(found)
    return {**dict.fromkeys([key for key in keys if least <= key <= most], ABSENT), **found}


def told(line, keys):
    """What the answer tells of keys: the text of a key's object, ABSENT or PRESENT."""
    command = line.command
    if line.said.startswith("error "):
        return {}
    if command.name in ("first", "last", "next", "prev"):
        return told_by_walk(line, keys)
    if command.name in ("select", "select_range", "batch") and command.terms[2 if command.name == "select_range" else 0] == ALL:
        return told_by_objects(line, keys)
    return {}


# ---- the part of one key


def by_command(line):
    """What the command makes of the key's row, with whether its answer is right there."""
    made = {}

    def makes(row):
        if row not in made:
            table, _, said = line.command.step((row,) if row else (), None)
            made[row] = said == line.said, table[0] if table else None
        return made[row]
    return makes


def by_what_is_told(text):
    return lambda row: ((row is not None) if text is PRESENT else (row.text if row else ABSENT) == text, row)


class Part:
    """The search over one key's row. A step is whether the line is a read, and what it makes of the row."""

    def __init__(self, key, clients, tells, text):
        self.key, self.text, self.known = key, text, {}
        self.steps, self.places = [], []
        self.first, self.most, self.chance = list(range(len(clients))), MOST_STATES, random.Random(0)
        for lines in clients:
            steps, places = [], [0]
            for line in lines:
                if key_of(line.command) == key:
                    steps.append((is_read(line), by_command(line)))
                elif key in tells[line]:
                    steps.append((True, by_what_is_told(tells[line][key])))
                places.append(len(steps))
            self.steps.append(steps)
            self.places.append(places)

    def goes_on(self, places, table):
        """Whether what is left of the key's part may have a merge, where the clients are at these places among all their commands."""
        row = next((row for row in table if row.key == self.key), None)
        while self.most <= ORDERS_OF_KEY * MOST_STATES:
            try:
                return self.ends(tuple(mine[place] for mine, place in zip(self.places, places)), row)
            except TooLong:
                self.most += MOST_STATES
                self.chance.shuffle(self.first)
        return True

    def ends(self, places, row):
        """The same, where the clients are at these places in the part."""
        known = self.known.get((places, row))
        if known is None:
            if len(self.known) > self.most:
                raise TooLong
            known = self.known[places, row] = self.tries(places, row)
        return known

    def tries(self, places, row):
        places = list(places)
        for number, steps in enumerate(self.steps):
            while places[number] < len(steps) and steps[places[number]][0] and steps[places[number]][1](row)[0]:
                places[number] += 1
        left = [number for number in self.first if places[number] < len(self.steps[number])]
        if not left:
            return (row.text if row else ABSENT) == self.text
        for number in left:
            is_right, after = self.steps[number][places[number]][1](row)
            if is_right and self.ends(tuple(place + (other == number) for other, place in enumerate(places)), after):
                return True
        return False


# ---- the whole


class Search:
    def __init__(self, clients, objects):
        """The clients' lines, and the texts of the objects of the last table."""
        self.clients = [[line for line in client if not line.said.startswith("refused ")] for client in clients]
        self.objects, self.dead, self.order = objects, set(), []
        self.first, self.most = list(range(len(clients))), 0  # which client is tried first, and how many states may lead nowhere
        lines = [line for client in self.clients for line in client]
        keys = sorted({key_of(line.command) for line in lines} - {None})
        tells = {line: told(line, keys) if keys else {} for line in lines}
        keypos = lines[0].command.keypos if lines else 1
        texts = {Reader(text).term()[2][keypos - 1]: text for text in objects}
        self.parts = {key: Part(key, self.clients, tells, texts.get(key, ABSENT)) for key in keys}

    def merge(self):
        """The numbers of the clients, counted from 0, in an order that explains the run; None where there is none."""
        begin = [0] * len(self.clients)
        if not all(part.goes_on(begin, ()) for part in self.parts.values()):
            return None
        chance = random.Random(0)
        for _ in range(ORDERS):
            self.order, self.most = [], len(self.dead) + MOST_STATES
            try:
                return self.order if self.goes_on(list(begin), [None] * len(self.clients), ()) else None
            except TooLong:
                chance.shuffle(self.first)
        raise TooLong

    def goes_on(self, places, continuations, table):
        begun = len(self.order)
        for number in range(len(self.clients)):
            self.settle(number, places, continuations, table)
        left = [number for number in self.first if places[number] < len(self.clients[number])]
        if not left and [row.text for row in table] == self.objects:
            return True
        state = tuple(places), tuple(continuations), table
        if state not in self.dead:
            if any(self.tries(number, places, continuations, table) for number in left):
                return True
            self.dead.add(state)
        if len(self.dead) > self.most:
            raise TooLong
        del self.order[begun:]
        return False

    def settle(self, number, places, continuations, table):
        """Does the client's next commands that are reads, as long as their answers are right and tell where the client's batches stand."""
        for line in self.clients[number][places[number]:]:
            if not is_read(line):
                return
            _, continuation, said = line.command.step(table, continuations[number])
            if said != line.said or not (continuation == continuations[number] or is_told(continuation)):
                return
            continuations[number] = continuation
            places[number] += 1
            self.order.append(number)

    def tries(self, number, places, continuations, table):
        """Does the client's next command, where its answer is right, and goes on where the part of the key that it changes can."""
        line = self.clients[number][places[number]]
        after, continuation, said = line.command.step(table, continuations[number])
        if said != line.said:
            return False
        places, continuations = list(places), list(continuations)
        places[number] += 1
        continuations[number] = continuation
        key = key_of(line.command)
        if key in self.parts and not self.parts[key].goes_on(places, after):
            return False
        self.order.append(number)
        if self.goes_on(places, continuations, after):
            return True
        self.order.pop()
        return False


def is_explained_by(clients, objects, merge):
    """Whether this merge gives the answers and the table: one command after the other, with no search."""
    left = [iter([line for line in client if not line.said.startswith("refused ")]) for client in clients]
    table, continuations = (), [None] * len(clients)
    for number in merge:
        line = next(left[number], None)
        if line is None:
            return False
        table, continuations[number], said = line.command.step(table, continuations[number])
        if said != line.said:
            return False
    return all(next(rest, None) is None for rest in left) and [row.text for row in table] == objects


def merge_of(clients, objects):
    """A merge that explains the run, the clients' numbers in order, or None. It is played again before it is told."""
    merge = Search(clients, objects).merge()
    if merge is not None and not is_explained_by(clients, objects, merge):
        raise AssertionError("the merge that was found explains nothing")
    return merge

"""Random command files of a few clients that meet at few keys, what lines from a seed are made of, and runs by the one-thread model of table.py."""
from runs import Line
from table import Command

ALL = "[{'_',[],['$_']}]"
CHOSEN = ["[{{'$1','$2','_'},[{'>','$2',1}],['$1']}]", "[{{'_','$2','$3'},[{'<','$3',20}],[{{'$2','$3'}}]},{{1,'_','_'},[],[one]}]",
          "[{{2,'_','_'},[],['$_']}]"]
KEYS = ["1", "2", "3", "a", "b", "{1}", "[2]", "<<3>>"] + [str(number) for number in range(-300, 300, 30)]
WEIGHTS = {"insert": 18, "insert_new": 9, "lookup": 12, "member": 5, "delete": 7, "take": 7, "update_counter": 14, "update_element": 6, "first": 2, "last": 2,
           "next": 3, "prev": 3, "select": 4, "select_range": 4, "batch": 3, "more": 4}


def arguments(chance, name, keys, mark):
    """The arguments of a command; the mark stands in no other command."""
    key = chance.choice(keys)
    if name.startswith("insert"):
        return f"{{{key},{chance.choice([0, 0, 0, 5])},{mark}}}"
    if name in ("first", "last", "more"):
        return ""
    if name == "update_counter":
        return f"{key} " + chance.choice(["1", "1", "{2,1}", "{2,2,4,0}", "[{2,1},{2,-3}]", "[]"])
    if name == "update_element":
        return f"{key} {{3,{mark}}}"
    if name == "select":
        return chance.choice([ALL, ALL] + CHOSEN)
    if name == "select_range":
        return f"{key} {chance.choice(keys)} {chance.choice([ALL, ALL] + CHOSEN)}"
    if name == "batch":
        return f"{chance.choice([ALL, ALL] + CHOSEN)} {chance.choice([1, 2, 3])}"
    return key


def files_of(chance, most_lines=60):
    """The texts of the lines of two to four clients."""
    keys = chance.sample(KEYS, chance.choice([1, 2, 3, 4, 4, 6, 8, 12, 24]))
    names = chance.choices(list(WEIGHTS), list(WEIGHTS.values()), k=4 * most_lines)
    clients, mark = [], 0
    for _ in range(chance.randint(2, 4)):
        lines = []
        for _ in range(chance.randint(20, most_lines)):
            mark += 1
            name = names.pop()
            lines.append(f"{name} {arguments(chance, name, keys, mark)}".strip())
        clients.append(lines)
    return clients


def draws(seed, client, count):
    """The draws of a client's lines from a seed: of each line its number, and which command, key and value it has."""
    x = (seed + 1000 * (client - 1)) % 2**31
    for line in range(1, count + 1):
        drawn = []
        for most in (8, 500, 1000):
            x = (x * 1103515245 + 12345) % 2**31
            drawn.append((x >> 16) % most)
        yield line, *drawn


def commands_of(texts):
    return [[Line(number, Command(text)) for number, text in enumerate(client, 1)] for client in texts]


def play(chance, clients, refused=0.02):
    """Gives the clients' commands to one table in a random order, a few of them refused, and returns the texts of the table's objects."""
    order = [number for number, client in enumerate(clients) for _ in client]
    chance.shuffle(order)
    table, places, continuations = (), [0] * len(clients), [None] * len(clients)
    for number in order:
        line = clients[number][places[number]]
        places[number] += 1
        if chance.random() < refused:
            line.said = chance.choice(["refused full", "refused deep", "refused worn"])
        else:
            table, continuations[number], line.said = line.command.step(table, continuations[number])
    return [row.text for row in table]

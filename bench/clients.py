#!/usr/bin/env python3
"""clients.py FOLDER LINES: writes command files for bench/clients.sh, FOLDER/WORK/CLIENTS/1 and so on: for each kind of work and for 1, 2 and 4 clients,
LINES lines a client on 10,000 keys (counters: on four). Each client puts its share of the keys first, so no line waits for another client's."""
import random
import sys
from pathlib import Path

KEYS = 10_000
ALL = "[{'_',[],['$_']}]"


def user(key):
    return f'<<"user{key}">>'


def put(key, number):
    return f'insert {{{user(key)},{number},[{{ip,<<"10.0.0.7">>}}]}}'


def lookups(chance, _):
    return f"lookup {user(chance.randrange(KEYS))}"


def mixes(chance, number):
    key = chance.randrange(KEYS)
    return [f"lookup {user(key)}", f"lookup {user(key)}", put(key, number), f"delete {user(key)}"][chance.randrange(4)]


def sessions(chance, number):
    return [put(chance.randrange(KEYS), number), "update_counter hits 1"][number % 2]


def counters(chance, _):
    return f"update_counter {chance.choice(['hits', 'misses', 'puts', 'ends'])} 1"


def batches(_, number):
    return f"batch {ALL} 100" if number % 50 == 0 else "more"


WORKS = {"lookups": (lookups, 1), "mixes": (mixes, 1), "sessions": (sessions, 1), "counters": (counters, 1), "batches": (batches, 20)}


def main(folder, lines):
    for name, (line, parts) in WORKS.items():
        for clients in (1, 2, 4):
            for client in range(clients):
                chance = random.Random(f"{name} {clients} {client}")
                first = [f"insert_new {{{key},0}}" for key in ("hits", "misses", "puts", "ends")]
                first += [put(key, 0) for key in range(client, KEYS if name != "counters" else 0, clients)]
                file = folder / name / str(clients) / str(client + 1)
                file.parent.mkdir(parents=True, exist_ok=True)
                file.write_text("\n".join(first + [line(chance, number) for number in range(lines // parts)]) + "\n")


main(Path(sys.argv[1]), int(sys.argv[2]))

"""Runs of the program on random command files of a few clients, of each of which a merge must explain what was printed."""
import os
import random
import shutil
import subprocess
import tempfile
from collections import Counter
from itertools import permutations
from pathlib import Path

from making import files_of
from runs import BadOutput, lines_of, read_output
from search import TooLong, is_explained_by, merge_of

CA = os.environ.get("CA") or str(Path(__file__).resolve().parents[2] / "ca")
ANY = {"leaf": [2, 3, 4, 8], "levels": range(2, 13), "rows": range(384, 501), "high": [0, 1, 100, 1000], "low": [0, 1, 100, 1000],
       "calm": [0, 1, 300, 1_000_000], "heat": [0, 1, 300, 1_000_000]}
JOINING = {"leaf": [2, 3, 4, 8], "levels": range(4, 13), "rows": range(384, 501), "high": [0, 100], "low": [0, 1, 2], "calm": [1, 2, 300]}
RANGES = {"first", "last", "next", "prev", "select", "select_range", "batch", "more"}
LIMIT = 60  # seconds that a run may take, where nothing else is said


class Unexplained(Exception):
    """Why a run isn't as it must be."""


def options_of(chance):
    """Few rows in all: so many are soon made. In every second run an update makes a join due, and one that loses an exchange a split; in the others there
    is each option in two of three."""
    joining = chance.random() < 1 / 2
    bounds = JOINING if joining else ANY
    given = [(name, chance.choice(values)) for name, values in bounds.items() if joining or name == "rows" or chance.random() < 2 / 3]
    return [f"--{name}={value}" for name, value in given] + ["--shape"]


def call(words, limit=LIMIT):
    """What the program printed for these words, and how many megabytes it held at most."""
    with tempfile.TemporaryFile() as printed:
        process = subprocess.Popen(["timeout", str(limit), CA, "run", *words], stdout=printed, stderr=subprocess.DEVNULL)
        _, status, used = os.wait4(process.pid, 0)
        process.returncode = os.waitstatus_to_exitcode(status)
        printed.seek(0)
        if process.returncode != 0:
            raise Unexplained(f"exit code {process.returncode}")
        return printed.read().decode(), used.ru_maxrss / 1024


def shape_of(printed):
    """How many times bases were split and joined."""
    return dict(zip(("splits", "joins"), map(int, printed.split()[-2:])))


def is_in_turn(clients, objects):
    """Whether some order of whole clients explains the run."""
    left = [[line for line in client if not line.said.startswith("refused ")] for client in clients]
    return any(is_explained_by(clients, objects, [number for number in order for _ in left[number]]) for order in permutations(range(len(clients))))


def look_at(printed, clients):
    """What is counted of a run."""
    try:
        objects = read_output(printed, clients)
        merge = merge_of(clients, objects)
    except (BadOutput, TooLong) as bad:
        raise Unexplained(f"{type(bad).__name__}: {bad}") from None
    if merge is None:
        raise Unexplained("no merge explains it")
    lines = [line for client in clients for line in client]
    shape = shape_of(printed)
    return Counter(explained=1, met=int(not is_in_turn(clients, objects)), lines=len(lines), ranges=sum(line.command.name in RANGES for line in lines),
                   refused=sum(line.said.startswith("refused ") for line in lines), split=int(shape["splits"] > 0), joined=int(shape["joins"] > 0), **shape)


def play_files(texts, options, look, seed, limit=LIMIT):
    """Plays files with these lines, and gives what `look` counts of what was printed, and the megabytes; nothing where it isn't as it must be. The files
    of such a run are kept."""
    folder, printed = Path(tempfile.mkdtemp(prefix="ca-threads-")), ""
    names = [str(folder / f"{client}.ca") for client in range(1, len(texts) + 1)]
    for name, text in zip(names, texts):
        Path(name).write_text("\n".join(text) + "\n")
    try:
        printed, megabytes = call([*options, *names], limit)
        told = look(printed, [lines_of(name, 1) for name in names])
    except Unexplained as why:
        (folder / "output").write_text(printed)
        print(f"threads: FAILED: seed {seed}: {' '.join([CA, 'run', *options, *names])}: {why}; {folder}/output is what was printed", flush=True)
        return Counter(), 0
    shutil.rmtree(folder)
    return told, megabytes


def play(number):
    """Makes and plays the files of a seed, and counts what is counted of the run, with the megabytes that it held."""
    chance = random.Random(number)
    texts = files_of(chance)
    return play_files(texts, options_of(chance), look_at, number)

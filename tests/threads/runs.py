"""Runs of the program: the commands of its files, and what it printed for them."""
from pathlib import Path

from table import Command


class BadOutput(Exception):
    """The output is none for these files."""


class Line:
    """A command with the number of its line, and what was printed for it."""

    def __init__(self, number, command):
        self.number, self.command, self.said = number, command, None


def lines_of(path, keypos):
    """The lines of a command file that hold commands."""
    texts = [text.strip(" \t\r") for text in Path(path).read_bytes().decode().split("\n")]
    return [Line(number, Command(text, keypos)) for number, text in enumerate(texts, 1) if text and not text.startswith("%")]


def read_output(text, clients):
    """Gives each line of the clients its answer, and returns the texts of the table's objects."""
    printed = iter(text.split("\n"))

    def expect(holds, line):
        if not holds:
            raise BadOutput(line)

    for number, client in enumerate(clients, 1):
        said = next(printed, "")
        expect(said == f"client {number}", said)
        for line in client:
            said = next(printed, "")
            place, _, line.said = said.partition(" ")
            expect(place == str(line.number) and line.said, said)
    said = next(printed, "")
    expect(said == "table", said)
    table = []
    for said in printed:
        if said.startswith("end "):
            expect(said == f"end {len(table)}", said)
            break
        expect(said.endswith("."), said)
        table.append(said[:-1])
    rest = [said for said in printed if not said.startswith("shape ")]
    expect(rest == [""], "\n".join(rest))
    return table

"""Rows of command-line cases: many small files that differ by a text, each with what has to come out. tests/cli/README.md has
the form."""
from __future__ import annotations

import re
from typing import NamedTuple

PLACE = "ROW"
FORM = re.compile(r"(\d+)((?: `[^`]*`){2,3})((?: ! `[^`]*`)*)")
FIELD = re.compile(r"`([^`]*)`")
TIMES = re.compile(r"\{([^{}]+) x (\d+)\}")


class Row(NamedTuple):
    """A row: its place in the file and its words there, the wanted status, the text that is replaced, by what, the wanted
    output, and the lines that are wanted on standard error."""

    name: str
    status: int
    old: str
    new: str
    output: str
    errors: list[str]

    def changed(self, text: str) -> str:
        """The text after the row's change of its first place."""
        if self.old not in text:
            raise ValueError(f"{self.name}: {self.old!r} is not in the file")
        return text.replace(self.old, self.new, 1)


def text_of(field: str) -> str:
    """The text that a field stands for: `{TEXT x N}` is the text N times, then `\\n` and `\\r` are the ends of lines, and `\\g` is
    a grave accent."""
    repeated = TIMES.sub(lambda it: it[1] * int(it[2]), field)
    return repeated.replace("\\n", "\n").replace("\\r", "\r").replace("\\g", "`")


def row_of(number: int, line: str) -> Row:
    """The row that a line says."""
    name = f"line {number} ({line[:100]})"
    found = FORM.fullmatch(line)
    if not found:
        raise ValueError(f"{name}: it is no row")
    *change, output = map(text_of, FIELD.findall(found[2]))
    old, new = change if len(change) == 2 else (PLACE, change[0])
    errors = [text_of(it) for it in FIELD.findall(found[3])]
    return Row(name, int(found[1]), old, new, f"{output}\n" if output else "", errors)


def rows_of(lines: list[str]) -> list[Row]:
    """The rows of a file. Lines that are empty or begin with `#` say none."""
    found = [row_of(number, line) for number, line in enumerate(lines, 1) if line and not line.startswith("#")]
    if not found:
        raise ValueError("it has no rows")
    return found

"""What the pages of docs/operating/ have for machines: their blocks, and the names of their tables."""
from __future__ import annotations

import glob
import itertools
import re
import textwrap

from expecting import expect
from tree import TOP, read

PAGES = f"{TOP}/docs/operating"
OPERATE = f"{TOP}/operate"


def block_of(first: str) -> str:
    """The block that begins with this line, on whatever page, without what all its lines are indented by."""
    found = [read(it).split("\n") for it in sorted(glob.glob(f"{PAGES}/*.md")) if f"\n    {first}\n" in read(it)]
    expect(len(found) == 1, f"{len(found)} pages of docs/operating have a block {first!r}")
    lines = found[0]
    block = itertools.takewhile(lambda it: not it or it.startswith("    "), lines[lines.index(f"    {first}"):])
    return textwrap.dedent("\n".join(block)).strip("\n") + "\n"


def names_in_tables(text: str) -> set[str]:
    """The names between backticks in the first cells of tables whose heading is `name`."""
    found, is_inside = set(), False
    for line in text.split("\n"):
        cell = line.split("|")[1].strip() if line.startswith("|") else ""
        is_inside = bool(cell) and (is_inside or cell == "name")
        found |= set(re.findall(r"`([^`]+)`", cell)) if is_inside else set()
    return found

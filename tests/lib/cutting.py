"""A crate without its tests, in a copy: what `rt ci` gets of a crate whose tests were proved before at the same content.

`rt ci` proves the tests of each crate that has some, and refuses files that no check reads. So the items, the files that they name
and the proofs of the functions in these go together. Nothing but tests goes: if anything of a crate hinders it, the crate stays
whole."""
from __future__ import annotations

import os
import re
import shutil
from typing import NamedTuple

import copying
from tree import files_of, read, write

TEST = re.compile(r"(?m)^\s*#\[test\]")
ONLY_FOR_TESTS = re.compile(r"\s*#\[cfg\(test\)\]$")
MODULE = re.compile(r"\s*(?:pub(?:\([a-z]+\))? )?mod (\w+)(;| \{)$")
ATTRIBUTE = re.compile(r"\s*(?:#\[|///)")


class Cut(NamedTuple):
    """What was cut off a crate: the files of its sources and proofs that are gone, by their paths below its folder."""

    gone: list[str]


class CannotCut(Exception):
    """Why a crate's tests can't be cut off."""


def has_tests(folder: str) -> bool:
    """Whether the crate in this folder has a test."""
    return any(TEST.search(read(it)) for it in files_of(folder, ["src"]) if it.endswith(".rt"))


def module_of(path: str) -> str:
    """The folder below src/ and proofs/ with the modules of a source, such as `running` for src/running.rt; empty at the top."""
    inside = path.removeprefix("src/").removesuffix(".rt")
    return "" if inside in ("lib", "main") else inside.removesuffix("/mod")


def end_of_item(lines: list[str], first: int) -> int:
    """The last line of the item with braces that begins in this line, in the layout of `rt fmt`."""
    indent = re.match(r" *", lines[first])
    assert indent
    for at in range(first, len(lines)):
        if lines[at] == f"{indent[0]}}}" or at == first and lines[at].endswith("}"):
            return at
    raise CannotCut("an item of its tests has no end")


def without(lines: list[str], first: int, last: int) -> list[str]:
    """The lines without these, and without the blank line that would then be one too many."""
    above, below = lines[:first], lines[last + 1 :]
    if above and not above[-1].strip() and (not below or not below[0].strip()):
        above.pop()
    return above + below


def top_of_item(lines: list[str], first: int) -> int:
    """The first line of what stands above an item and belongs to it: attributes and doc comments."""
    while first and ATTRIBUTE.match(lines[first - 1]):
        first -= 1
    return first


def cut_source(folder: str, path: str) -> list[str]:
    """Cuts the modules and functions that are only for tests out of one source, and returns what they name: paths of sources and of
    proofs, with no ending where a file and a folder are meant."""
    lines, named = read(f"{folder}/{path}").split("\n"), []
    inside = module_of(path)
    place = f"{inside}/" if inside else ""
    at = 0
    while at < len(lines):
        module = MODULE.match(lines[at + 1]) if ONLY_FOR_TESTS.match(lines[at]) and at + 1 < len(lines) else None
        if module:
            last = at + 1 if module[2] == ";" else end_of_item(lines, at + 1)
            named += [f"src/{place}{module[1]}"] * (module[2] == ";") + [f"proofs/{place}{module[1]}"]
        elif lines[at].strip() == "#[test]":
            head = next(it for it in range(at, len(lines)) if copying.FUNCTION.match(lines[it]))
            function = copying.FUNCTION.match(lines[head])
            assert function
            last = end_of_item(lines, head)
            named.append(f"proofs/{place}{function[2]}")
        else:
            at += 1
            continue
        at = top_of_item(lines, at)
        lines = without(lines, at, last)
    if named:
        write(f"{folder}/{path}", "\n".join(lines).rstrip("\n") + "\n")
    return named


def remove(folder: str, named: str) -> list[str]:
    """Removes a source or the proofs of this name, file and folder, and returns the files that are gone."""
    gone = []
    for ending in (".rt", ".antt"):
        if os.path.isfile(f"{folder}/{named}{ending}"):
            os.remove(f"{folder}/{named}{ending}")
            gone.append(f"{named}{ending}")
    if os.path.isdir(f"{folder}/{named}"):
        gone += [os.path.relpath(it, folder) for it in files_of(f"{folder}/{named}", [""])]
        shutil.rmtree(f"{folder}/{named}")
    return gone


def edits_within(folder: str, gone: list[str]) -> list[str]:
    """The edits of must-fail/ that change a file that is gone."""
    inside = f"{folder}/must-fail"
    edits = sorted(it for it in os.listdir(inside) if it.endswith(".edit")) if os.path.isdir(inside) else []
    return [it for it in edits if any(change.path in gone for change in copying.changes_of(f"{inside}/{it}"))]


def cut(folder: str) -> Cut:
    """Cuts the tests off the crate in this folder, which is a copy. Raises CannotCut if something of it stands in the way; then the
    copy is of no use."""
    gone: list[str] = []
    sources = [os.path.relpath(it, folder) for it in files_of(folder, ["src"]) if it.endswith(".rt")]
    for path in sources:
        if path not in gone:
            for named in cut_source(folder, path):
                found = remove(folder, named)
                if named.startswith("src/") and not found:
                    raise CannotCut(f"{path} names tests in {named}.rt, which isn't there")
                gone += found
    if has_tests(folder):
        raise CannotCut("it has tests that stand in no module of their own")
    edits = edits_within(folder, gone)
    if edits:
        raise CannotCut(f"{edits[0]} changes its tests")
    return Cut(gone)


def cut_or_leave(folder: str) -> str:
    """Cuts the tests off the crate in this folder, or leaves it as it was. Returns why it was left, or an empty text."""
    whole = f"{folder}.whole"
    shutil.copytree(folder, whole)
    try:
        cut(folder)
    except CannotCut as why:
        shutil.rmtree(folder)
        os.rename(whole, folder)
        return str(why)
    shutil.rmtree(whole)
    return ""

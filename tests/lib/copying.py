"""Wrong bodies beside the real ones: a copy of each edited function, under a new name, with the edit and with the function's proofs.

Nothing calls a copy, so the prover judges each alone, and one run of it judges many. What a copy can show is said by its
control, a copy with nothing changed, which must be proved: else the copying itself is what is refused."""
from __future__ import annotations

import glob
import os
import re
import shutil
from typing import NamedTuple

from tree import read, write

FUNCTION = re.compile(r"( *)(?:pub(?:\([a-z]+\))? )?(?:const )?(?:unsafe )?fn (\w+)")
IMPL = re.compile(r"(?:unsafe )?impl\b")
GOALS = r"(\.(?:Goals|Given|Statement|Code|Met)\b)"


class Change(NamedTuple):
    """One change of an edit: in the file `path` of the crate `old` becomes `new`, a part of one line each."""

    path: str
    old: str
    new: str


class Function(NamedTuple):
    """A function of a crate: its file, the type whose method it is (empty if it is free), its name, and its lines, from the first
    attribute to the last brace."""

    path: str
    owner: str
    name: str
    top: int
    last: int


class Copy(NamedTuple):
    """A copy to be put behind a function: its name, its text, and the edit's name, or nothing in a control."""

    of: Function
    name: str
    text: str
    edit: str


class CannotCopy(Exception):
    """Why an edit can't be tried by a copy."""


def changes_of(edit: str) -> list[Change]:
    """The changes of an edit's file, in order."""
    found, path, old = [], "", ""
    for line in read(edit).split("\n"):
        if line.startswith("file: "):
            path = line[6:].strip()
        elif line.startswith("old: "):
            old = line[5:]
        elif line.startswith("new:"):
            found.append(Change(path, old, line[4:].removeprefix(" ")))
    return found


def what_hinders(folder: str, edit: str) -> str:
    """Why an edit can't be applied to the crate in this folder, or an empty text. Its changes are made one after the other."""
    texts: dict[str, str] = {}
    for it in changes_of(edit):
        if it.path not in texts:
            if not os.path.isfile(f"{folder}/{it.path}"):
                return f"there is no file {it.path}"
            texts[it.path] = read(f"{folder}/{it.path}")
        if texts[it.path].count(it.old) != 1:
            return f"its text {it.old!r} doesn't stand exactly once in {it.path}"
        texts[it.path] = texts[it.path].replace(it.old, it.new)
    unknown = [name for it in changes_of(edit) for name in names_of_none(folder, it)]
    if unknown:
        return f"the crate has no {unknown[0]}"
    return "" if texts else "it has no old text"


def names_of_none(folder: str, change: Change) -> list[str]:
    """The functions and constants that the new text of a change of code names and that stand nowhere in the crate's sources."""
    if not change.path.endswith(".rt"):
        return []
    plain = re.sub(r'"[^"]*"', "", change.new)
    names = re.findall(r"(?<![\w.:])([a-z_]\w*)\s*\(", plain) + re.findall(r"\b[A-Z][A-Z_0-9]{3,}\b", plain)
    sources = "\n".join(read(it) for it in glob.glob(f"{folder}/src/**/*.rt", recursive=True))
    return [it for it in names if not re.search(rf"\b{it}\b", sources)]


def head_at(lines: list[str], at: int) -> str:
    """The head of the `impl` block that begins in this line, in one line."""
    last = next((end for end in range(at, len(lines)) if lines[end].endswith(("{", "}"))), at)
    return " ".join(line.strip() for line in lines[at : last + 1])


def owner_of(lines: list[str], first: int) -> str:
    """The type whose method begins in this line, or nothing for a free function."""
    if not lines[first].startswith(" "):
        return ""
    head = next((head_at(lines, at) for at in range(first, -1, -1) if IMPL.match(lines[at])), "")
    if " for " in head:
        raise CannotCopy("it changes a trait's method")
    return re.sub(r"^(?:unsafe )?impl(?:<[^{]*?>)? ", "", head).split("<")[0].split(" ")[0]


def function_at(path: str, lines: list[str], at: int) -> Function:
    """The function in which line `at` stands, in the layout of `rt fmt`."""
    first = at
    while first >= 0 and not FUNCTION.match(lines[first]):
        first -= 1
    found = FUNCTION.match(lines[first]) if first >= 0 else None
    if not found:
        raise CannotCopy("it stands in no function")
    last = first
    # An empty body behind a contract has a line of its own.
    while lines[last] not in (f"{found[1]}}}", f"{found[1]}{{}}") and not (last == first and lines[last].endswith("}")):
        last += 1
        if last == len(lines):
            raise CannotCopy("it stands in no function")
    top = first
    while lines[top - 1].startswith(f"{found[1]}#["):
        top -= 1
    if not top <= at <= last:
        raise CannotCopy("it stands in no function")
    return Function(path, owner_of(lines, first), found[2], top, last)


def edited_function(folder: str, changes: list[Change]) -> Function:
    """The one function that the changes are made in."""
    path = changes[0].path if changes else ""
    if not path.endswith(".rt"):
        raise CannotCopy("it changes a definition or a law")
    if any(it.path != path for it in changes):
        raise CannotCopy("it changes several files")
    text = read(f"{folder}/{path}")
    if any(text.count(it.old) != 1 for it in changes):
        raise CannotCopy("its changes are made in steps")
    lines = text.split("\n")
    found = {function_at(path, lines, text.count("\n", 0, text.index(it.old))) for it in changes}
    if len(found) > 1:
        raise CannotCopy("it changes several functions")
    return found.pop()


def copy_of(folder: str, it: Function, name: str, changes: list[Change], edit: str = "") -> Copy:
    """A copy of the function under this name, with these changes."""
    body = "\n".join(read(f"{folder}/{it.path}").split("\n")[it.top : it.last + 1])
    for change in changes:
        body = body.replace(change.old, change.new)
    return Copy(it, name, re.sub(rf"\bfn {it.name}\b", f"fn {name}", body, count=1), edit)


def copies_of(folder: str, edits: list[str]) -> tuple[list[Copy], dict[str, str]]:
    """A copy for each edit that one can be made of, and why none can be made of the others, by the edits' paths."""
    copies, alone = [], {}
    for number, edit in enumerate(edits):
        try:
            changes = changes_of(edit)
            found = edited_function(folder, changes)
            copies.append(copy_of(folder, found, f"{found.name}_wrong{number}", changes, os.path.basename(edit)))
        except CannotCopy as why:
            alone[edit] = str(why)
    return copies, alone


def controls_of(folder: str, copies: list[Copy]) -> list[Copy]:
    """A copy with nothing changed of each function that has copies."""
    functions = dict.fromkeys(it.of for it in copies)
    return [copy_of(folder, it, f"{it.name}_same{number}", []) for number, it in enumerate(functions)]


def add_bodies(room: str, copies: list[Copy]) -> None:
    """Puts the copies behind their functions, in the crate in the folder `room`."""
    for path in {it.of.path for it in copies}:
        lines = read(f"{room}/{path}").split("\n")
        for it in sorted((it for it in copies if it.of.path == path), key=lambda it: -it.of.last):
            lines[it.of.last + 1 : it.of.last + 1] = ["", *it.text.split("\n")]
        write(f"{room}/{path}", "\n".join(lines))


def add_proofs(room: str, copy: Copy) -> None:
    """Copies the function's proof files, with the paths to its own goals replaced."""
    file = os.path.basename(copy.of.path).removesuffix(".rt")
    parent = copy.of.owner or ("proofs" if file in ("lib", "main") else file)
    own = re.compile(rf"(\.){copy.of.name}{GOALS}")
    for folder in glob.glob(f"{room}/proofs/**/{copy.of.name}", recursive=True):
        above = os.path.dirname(folder)
        if os.path.basename(above) != parent:
            continue
        shutil.copytree(folder, f"{above}/{copy.name}")
        for answers in glob.glob(f"{above}/{copy.name}/*.antt"):
            write(answers, own.sub(rf"\1{copy.name}\2", read(answers)))

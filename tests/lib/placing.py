"""Wrong bodies in the places of the real ones, where no copy can stand beside these: methods of traits, and definitions that laws
are about.

No function's proof looks into the body of another one, so that one run of the prover judges an edit of each of many methods. A
changed definition may change any proof: one run judges one, and proves only the law that the edit names. What stands in its place
is proved with its crate without the edit, and needs no control."""
from __future__ import annotations

import os
import re
from typing import NamedTuple

import copying
from copying import CannotCopy, Change, Function
from tree import read, write

# The head of a trait's `impl` block: the trait and the type, without their parameters.
HEAD = re.compile(r"(?:unsafe )?impl(?:<[^{]*?>)? (?:\w+::)*(\w+)(?:<[^{]*?>)? for (?:\w+::)*(\w+)")


class Placed(NamedTuple):
    """An edit in its place: its name, the function that it is judged by, that function's path below the crate as the prover tells it,
    and the changes. A definition has no text of a function."""

    edit: str
    of: Function
    name: str
    changes: tuple[Change, ...]
    text: str = ""

    @property
    def is_law(self) -> bool:
        return not self.text

    @property
    def proofs(self) -> str:
        """The end of the folder with the function's proofs."""
        return "/".join(self.name.split("::")[-2:])


def law_of(edit: str) -> str:
    """The law that an edit of a definition breaks, a function of laws.rt, or nothing if the edit names none."""
    return next((line[5:].strip() for line in read(edit).split("\n") if line.startswith("law: ")), "")


def of_law(folder: str, edit: str, changes: list[Change]) -> Placed:
    """The law that an edit of definitions names, over the changed definitions."""
    name, laws = law_of(edit), f"{folder}/src/laws.rt"
    if not name:
        raise CannotCopy("it changes a definition, and names no law that is about it")
    if not os.path.isfile(laws) or not re.search(rf"^pub fn {re.escape(name)}(?:<[^>]*>)?\(\)", read(laws), re.MULTILINE):
        raise CannotCopy(f"there is no law {name} in laws.rt")
    law = Function("src/laws.rt", "", name, 0, 0)
    return Placed(os.path.basename(edit), law, f"laws::{name}", tuple(changes))


def of_method(folder: str, edit: str, changes: list[Change]) -> Placed:
    """The one method of a trait that the changes are made in."""
    path = changes[0].path
    text = read(f"{folder}/{path}")
    if any(it.path != path or text.count(it.old) != 1 for it in changes):
        raise CannotCopy("it changes several files, or in steps")
    lines = text.split("\n")
    blocks = (at for at, line in enumerate(lines) if copying.IMPL.match(line))
    heads = {at: found for at in blocks if (found := HEAD.match(copying.head_at(lines, at)))}
    # with its type alone in the head, the block is one whose methods can be found
    plain = [f"impl {heads[at][2]} {{" if at in heads else line for at, line in enumerate(lines)]
    places = [text.count("\n", 0, text.index(it.old)) for it in changes]
    found = {copying.function_at(path, plain, at) for at in places}
    if len(found) > 1:
        raise CannotCopy("it changes several functions")
    function = found.pop()
    head = heads[max(at for at in heads if at <= function.top)]
    module = path.removeprefix("src/").removesuffix(".rt").replace("/", "::")
    name = "::".join([*([] if module in ("lib", "main") else [module]), f"{head[2]}{head[1]}", function.name])
    body = "\n".join(lines[function.top : function.last + 1])
    for change in changes:
        body = body.replace(change.old, change.new)
    return Placed(os.path.basename(edit), function, name, tuple(changes), body)


def placed_of(folder: str, edits: dict[str, str]) -> tuple[list[Placed], dict[str, str]]:
    """Those of these edits that can be judged in their places, and why the others can't, by the edits' paths. Why no copy can be
    made of each is given."""
    placed, alone = [], {}
    for edit, why in edits.items():
        changes = copying.changes_of(edit)
        try:
            if changes and all(it.path.endswith(".antt") for it in changes):
                placed.append(of_law(folder, edit, changes))
            elif "trait's method" in why:
                placed.append(of_method(folder, edit, changes))
            else:
                alone[edit] = why
        except CannotCopy as hinders:
            alone[edit] = str(hinders)
    return placed, alone


def put(room: str, placed: list[Placed]) -> None:
    """Makes these edits in the crate in the folder `room`."""
    for it in sorted(placed, key=lambda it: -it.of.top):
        if it.is_law:
            for change in it.changes:
                write(f"{room}/{change.path}", read(f"{room}/{change.path}").replace(change.old, change.new))
        else:
            lines = read(f"{room}/{it.of.path}").split("\n")
            lines[it.of.top : it.of.last + 1] = it.text.split("\n")
            write(f"{room}/{it.of.path}", "\n".join(lines))

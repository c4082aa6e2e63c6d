"""The repository: where things stand, its crates and what they use, and copies of them."""
from __future__ import annotations

import hashlib
import os
import shutil
import subprocess
from typing import Iterable, NamedTuple

TOP = os.path.dirname(os.path.dirname(os.path.dirname(os.path.realpath(__file__))))
PROGRAM = os.environ.get("SRTGW", f"{TOP}/crates/srtgw/out/srtgw")
SOURCES = ("src", "specs", "proofs")


class Crate(NamedTuple):
    """A crate: its name, the crates of the repository that it uses, and its line of crates.txt."""

    name: str
    uses: tuple[str, ...]
    line: str

    @property
    def folder(self) -> str:
        return f"{TOP}/crates/{self.name}"


def machine_folder() -> str:
    """The folder for what is kept on this machine, in whatever clone. A relative XDG_CACHE_HOME doesn't count."""
    cache = os.environ.get("XDG_CACHE_HOME", "")
    return f"{cache if os.path.isabs(cache) else os.path.expanduser('~/.cache')}/srtgw"


def read(path: str) -> str:
    with open(path, encoding="utf-8") as file:
        return file.read()


def write(path: str, text: str) -> None:
    with open(path, "w", encoding="utf-8") as file:
        file.write(text)


def crates(top: str = TOP) -> dict[str, Crate]:
    """The crates of crates.txt by their names, each after those that it uses."""
    rows = [line for line in read(f"{top}/crates.txt").splitlines() if ":" in line.split("#")[0]]
    named = {line.split(":")[0].split()[0]: line for line in rows}
    uses = {name: tuple(word for word in line.split(":")[1].split() if word in named) for name, line in named.items()}
    found: dict[str, Crate] = {}

    def visit(name: str) -> None:
        for other in uses[name]:
            visit(other)
        found.setdefault(name, Crate(name, uses[name], named[name]))

    for name in named:
        visit(name)
    return found


def below(names: Iterable[str]) -> list[Crate]:
    """These crates and all that they use, each after those that it uses. Names of libraries from outside are passed over."""
    every = crates()
    wanted: set[str] = set()

    def visit(name: str) -> None:
        if name in every and name not in wanted:
            wanted.add(name)
            for other in every[name].uses:
                visit(other)

    for name in names:
        visit(name)
    return [crate for crate in every.values() if crate.name in wanted]


def above(names: Iterable[str]) -> list[Crate]:
    """These crates and all that use them, each after those that it uses."""
    wanted = set(names)
    for crate in crates().values():
        if wanted.intersection(crate.uses):
            wanted.add(crate.name)
    return [crate for crate in crates().values() if crate.name in wanted]


def files_of(folder: str, parts: Iterable[str] = SOURCES) -> list[str]:
    """The files in these parts of a crate's folder, in order."""
    found = [f"{at}/{name}" for part in parts for at, _, names in os.walk(f"{folder}/{part}") for name in names]
    return sorted(found)


def sum_of(paths: Iterable[str], more: str = "", top: str = TOP) -> str:
    """One checksum of these files of the repository, or of a copy of it, with their places, and of a text."""
    total = hashlib.sha256(more.encode())
    for path in paths:
        with open(path, "rb") as file:
            total.update(f"{os.path.relpath(path, top)}\0".encode() + file.read() + b"\0")
    return total.hexdigest()


def make_room(room: str, names: Iterable[str] | None = None, parts: Iterable[str] = SOURCES, more: str = "") -> None:
    """Makes the folder `room` the top of a repository with copies of these parts of the crates of these names and of those below
    them (of all, if no names are given). `more` is added to its crates.txt."""
    wanted = list(crates().values()) if names is None else below(names)
    for crate in wanted:
        for part in parts:
            if os.path.isdir(f"{crate.folder}/{part}"):
                shutil.copytree(f"{crate.folder}/{part}", f"{room}/crates/{crate.name}/{part}", symlinks=True)
    write(f"{room}/crates.txt", "".join(f"{crate.line}\n" for crate in wanted) + more)
    shutil.copyfile(f"{TOP}/HANDLES", f"{room}/HANDLES")
    subprocess.run(["git", "init", "--quiet"], cwd=room, check=True)

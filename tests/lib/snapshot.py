"""Copies of the repository's tree as it stands when the gate begins: the gate judges these, whatever changes meanwhile.

There are two, side by side in one folder. `whole` is the tree as it is: parts play there, and edits are tried there, once the program
and the libraries are built. `bare` is for `rt ci`, which builds them: without the tests that needn't be proved (`cutting`)."""
from __future__ import annotations

import os
import re
import shutil
import subprocess
import tempfile
from typing import NamedTuple

from tree import TOP, files_of, sum_of

# What a tree's copy doesn't have: what was built, and what belongs to git.
LEFT_OUT = shutil.ignore_patterns(".git", "out", "target", "__pycache__")
PREFIX = "srtgw-gate-"
# What the gate needs of a disk, in bytes: the libraries and the prover's own folders.
WANTED = 6_000_000_000


class Snapshot(NamedTuple):
    """A folder with both copies."""

    folder: str

    @property
    def whole(self) -> str:
        return f"{self.folder}/whole"

    @property
    def bare(self) -> str:
        return f"{self.folder}/bare"


def free_bytes(folder: str) -> int:
    return shutil.disk_usage(folder).free


def place() -> str:
    """Where copies stand: among the temporary files, or beside git's own if only that disk has enough room."""
    temporary, git = tempfile.gettempdir(), f"{TOP}/.git"
    if free_bytes(temporary) >= WANTED or not os.path.isdir(git) or not os.access(git, os.W_OK):
        return temporary
    return git if free_bytes(git) > free_bytes(temporary) else temporary


def sweep(folder: str) -> None:
    """Removes the copies that a gate left which was killed."""
    for name in os.listdir(folder):
        found = re.match(rf"{PREFIX}(\d+)-", name)
        if found and not os.path.exists(f"/proc/{found[1]}"):
            shutil.rmtree(f"{folder}/{name}", ignore_errors=True)


def copy_tree(top: str, to: str) -> None:
    """Copies a tree to a new folder, and makes that the top of a repository."""
    shutil.copytree(top, to, symlinks=True, ignore=LEFT_OUT)
    subprocess.run(["git", "init", "--quiet"], cwd=to, check=True)


def take() -> Snapshot:
    """Copies the tree as it stands."""
    folder = place()
    sweep(folder)
    if free_bytes(folder) < WANTED:
        print(f"note: {folder} has {free_bytes(folder) / 1e9:.0f} GB left, and the gate wants some {WANTED / 1e9:.0f}", flush=True)
    room = Snapshot(tempfile.mkdtemp(prefix=f"{PREFIX}{os.getpid()}-", dir=folder))
    # Some programs run as another user.
    os.chmod(room.folder, 0o755)
    copy_tree(TOP, room.whole)
    # The second is a copy of the first, so that both have the content that the gate looks at.
    copy_tree(room.whole, room.bare)
    return room


def take_libraries(room: Snapshot) -> None:
    """Moves the libraries that `rt ci` built to the copy of the whole tree, over which edits are tried."""
    for crate in os.listdir(f"{room.bare}/crates"):
        built = f"{room.bare}/crates/{crate}/out/rlib"
        if os.path.isdir(built):
            os.makedirs(f"{room.whole}/crates/{crate}/out", exist_ok=True)
            shutil.move(built, f"{room.whole}/crates/{crate}/out/rlib")


def take_program(room: Snapshot, crate: str) -> None:
    """Copies a program that `rt ci` built to the copy of the whole tree, which is played against it."""
    put_program(f"{room.bare}/crates/{crate}/out/{crate}", f"{room.whole}/crates/{crate}/out", crate)


def put_program(built: str, folder: str, name: str) -> None:
    """Puts a program into a folder, in place of one that may run."""
    os.makedirs(folder, exist_ok=True)
    shutil.copy2(built, f"{folder}/{name}.new")
    os.utime(f"{folder}/{name}.new")
    os.replace(f"{folder}/{name}.new", f"{folder}/{name}")


def content(top: str = TOP) -> str:
    """A checksum of the tree without what was built, also of a copy of it."""
    files = []
    for at, folders, names in os.walk(top):
        left_out = LEFT_OUT(at, [*folders, *names])
        folders[:] = sorted(set(folders) - left_out)
        files += [f"{at}/{it}" for it in sorted(set(names) - left_out)]
    return sum_of([it for it in files if os.path.isfile(it)], top=top)

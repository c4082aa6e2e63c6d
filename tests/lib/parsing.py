"""Whether the files that edits change still parse. One of them that doesn't takes the verdicts of all that are tried beside it."""
from __future__ import annotations

import os
import re
import subprocess
import tempfile
from concurrent.futures import ThreadPoolExecutor
from typing import NamedTuple

import copying
import trying
from tree import Crate, read, write

# The most files that one run of the prover parses.
MOST = 40
# What is said of a file, code or definitions, that isn't only laid out in another way.
FAULT = re.compile(r"(?m)^(\d+)\.\w+: (?!is not in the layout$)(?:it does not parse: at )?(.*)$")


class Edited(NamedTuple):
    """A file as an edit of a crate leaves it: the edit's path, the file's below the crate, and its text."""

    edit: str
    path: str
    text: str


def edited_by(crate: Crate, edit: str) -> list[Edited]:
    """The files that an edit changes, after its changes, which are made one after the other."""
    changes = copying.changes_of(edit)
    texts = {it.path: read(f"{crate.folder}/{it.path}") for it in changes}
    for it in changes:
        texts[it.path] = texts[it.path].replace(it.old, it.new)
    return [Edited(edit, path, text) for path, text in texts.items()]


def faults_of(files: list[Edited]) -> dict[str, str]:
    """Where files don't parse, and why, by the paths of their edits."""
    with tempfile.TemporaryDirectory(prefix="srtgw-edited-") as room:
        names = [f"{number}{os.path.splitext(it.path)[1]}" for number, it in enumerate(files)]
        for name, it in zip(names, files):
            write(f"{room}/{name}", it.text)
        ran = subprocess.run([trying.toolchain().RATTLE, "fmt", "--check", *names], cwd=room, capture_output=True, text=True, errors="replace")
    if ran.returncode > 1:
        raise RuntimeError(f"the files of edits could not be read: {ran.stderr.strip()[-300:]}")
    told = ((files[int(number)], why) for number, why in FAULT.findall(ran.stdout + ran.stderr))
    return {it.edit: f"{it.path} doesn't parse then: at {why}" for it, why in told}


def faults_by_crate(edits: dict[Crate, list[str]]) -> dict[Crate, dict[str, str]]:
    """The faults of the edits of each crate, by their paths. All can be applied."""
    with ThreadPoolExecutor(len(os.sched_getaffinity(0))) as pool:
        begun = {}
        for crate, those in edits.items():
            files = [it for edit in those for it in edited_by(crate, edit)]
            begun[crate] = [pool.submit(faults_of, files[at : at + MOST]) for at in range(0, len(files), MOST)]
        return {crate: {edit: why for part in parts for edit, why in part.result().items()} for crate, parts in begun.items()}

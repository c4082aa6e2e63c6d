"""The licences of the libraries that the program contains: those of the Rattle kit's crates that crates.txt names for it, and of the
crates that these use."""
from __future__ import annotations

import os
import re
import subprocess

from tree import below, crates, read

# The texts that a library is under, of which one is enough.
TEXTS = ("LICENSE-MIT", "LICENSE", "LICENSE-APACHE", "LICENSE-UNICODE")
USE = re.compile(r"(?m)^(?:pub )?use (?:::)?(\w+)")


def libraries_of_kit() -> str | None:
    """The kit's folder of crates, if the toolchain is here."""
    try:
        page = subprocess.run(["rt", "doc"], stdin=subprocess.DEVNULL, capture_output=True, text=True).stdout.strip()
    except OSError:
        return None
    folder = f"{os.path.dirname(page)}/rattle"
    return folder if os.path.isdir(folder) else None


def named(library: str) -> set[str]:
    """What the sources of a library use."""
    return {name for at, _, files in os.walk(f"{library}/src") for it in files if it.endswith(".rt") for name in USE.findall(read(f"{at}/{it}"))}


def contained(kit: str, program: str) -> list[str]:
    """The libraries of the kit that a program of the repository contains, in order."""
    found: set[str] = set()
    left = [word for crate in below([program]) for word in crate.line.split(":")[1].split("#")[0].split() if word not in crates()]
    while left:
        name = left.pop()
        if name not in found and os.path.isdir(f"{kit}/{name}/src"):
            found.add(name)
            left += named(f"{kit}/{name}")
    return sorted(found)


def notices(program: str) -> str:
    """The licences, each after the names of its libraries; without the toolchain, a sentence that says where they are."""
    kit = libraries_of_kit()
    if not kit:
        return "The program contains libraries of the Rattle toolchain, whose kit has their licences.\n"
    texts: dict[str, list[str]] = {}
    for name in contained(kit, program):
        text = next((read(f"{kit}/{name}/{it}") for it in TEXTS if os.path.isfile(f"{kit}/{name}/{it}")), None)
        if text:
            texts.setdefault(text.strip("\n"), []).append(name)
    parts = [f"{'-' * 72}\n{', '.join(names)}:\n\n{text}\n" for text, names in texts.items()]
    return "The program contains these libraries of the Rattle toolchain's kit:\n\n" + "\n".join(parts)

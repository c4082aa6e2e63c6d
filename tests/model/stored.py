"""The tapes of tests/cli and examples/ with their stored outputs."""
from __future__ import annotations

import os
from typing import NamedTuple

from command_lines import CASES, EXAMPLES, bytes_of, names_of_cases, names_of_examples, path_of, words_of
from rules import files

# Files of cases that say more than what is replayed and what comes out.
MORE = ("sizes", "repeats", "memory", "full")


class Stored(NamedTuple):
    """The paths of a configuration and a tape, and the output that is stored for them."""

    name: str
    config: str
    tape: str
    wanted: bytes


def is_plain(folder: str) -> bool:
    """Whether a case replays files of its folder, and has its whole output."""
    has = {it for it in ("stdout", *MORE) if os.path.isfile(f"{folder}/{it}")}
    return words_of(folder)[:1] == ["replay"] and len(words_of(folder)) == 3 and has == {"stdout"}


def of_case(name: str) -> Stored:
    folder = f"{CASES}/{name}"
    _, config, tape = words_of(folder)
    return Stored(name, path_of(folder, config), path_of(folder, tape), bytes_of(f"{folder}/stdout"))


def of_example(tape: str) -> Stored:
    name = tape.removesuffix(".tape")
    return Stored(name, f"{EXAMPLES}/tapes.toml", f"{EXAMPLES}/{tape}", bytes_of(f"{EXAMPLES}/{name}.out"))


def of_file(folder: str, tape: str) -> Stored:
    start = f"{folder}/{tape.removesuffix('.tape')}"
    return Stored(tape, f"{start}.toml", f"{start}.tape", bytes_of(f"{start}.want"))


def subjects_of_folder(folder: str) -> dict[str, list[Stored]]:
    """Each tape of a folder."""
    return {it: [of_file(folder, it)] for it in sorted(os.listdir(folder)) if it.endswith(".tape")}


def subjects() -> dict[str, list[Stored]]:
    """What is stored, by the subjects under which it is told."""
    cases = [of_case(it) for it in names_of_cases() if is_plain(f"{CASES}/{it}")]
    return {"cases": cases, "examples": [of_example(it) for it in names_of_examples()]}


def answered(it: Stored) -> bytes:
    """What the model prints for a tape."""
    return "".join(f"{line}\n" for line in files.replayed(it.config, it.tape)).encode()

"""The list of cases, and what plays them. Each raises Wrong if it fails, and Skipped if it can't be played here."""
from __future__ import annotations

import os
import time
from types import ModuleType
from typing import Callable, NamedTuple, Sequence

import tools
from running import Skipped
from tree import PROGRAM


class Case(NamedTuple):
    """A case: its name, the programs that it needs, and what plays it."""

    name: str
    needs: Sequence[str]
    play: Callable[[], None]


CASES: list[Case] = []


def case(name, needs=()):
    """Adds a case to the list."""
    def adding(play):
        CASES.append(Case(name, needs, play))
        return play
    return adding


def play_all(kind: str, modules: Sequence[ModuleType], words: Sequence[str], play: Callable[[Case], str]) -> int:
    """Plays the cases of these modules, in their order: those whose names have one of the words, or all if there are none. `play`
    returns what is wrong, or an empty text. Prints a line for each, and at last how many passed; returns the status of the program."""
    began = time.monotonic()
    if not os.access(PROGRAM, os.X_OK):
        print(f"{kind}: {PROGRAM} isn't built; bin/srtgw builds it")
        return 1
    order = [it.__name__ for it in modules]
    ours = sorted((it for it in CASES if it.play.__module__ in order), key=lambda it: order.index(it.play.__module__))
    passed = failed = skipped = 0
    for it in (it for it in ours if not words or any(word in it.name for word in words)):
        start = time.monotonic()
        try:
            missing = [tool for tool in it.needs if not tools.has(tool)]
            if missing:
                raise Skipped(f"without {', '.join(missing)}")
            wrong = play(it)
            print(f"case {it.name}: {wrong or 'ok'} ({time.monotonic() - start:.1f} s)", flush=True)
            passed, failed = passed + (not wrong), failed + bool(wrong)
        except Skipped as why:
            print(f"case {it.name}: skipped, {why}", flush=True)
            skipped += 1
    print(f"The cases took {time.monotonic() - began:.0f} s")
    print(f"{kind}: {passed} passed, {failed} failed, {skipped} skipped")
    return 1 if failed else 0


def wrong_of(it: Case) -> str:
    """Plays a case once, and returns what is wrong, or an empty text."""
    try:
        it.play()
        return ""
    except Skipped:
        raise
    except Exception as error:
        return f"{type(error).__name__}: {error}" if str(error) else type(error).__name__

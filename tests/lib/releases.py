"""The page that `bin/test --all` writes: at which content, when and where everything was tried anew, and what it took."""
from __future__ import annotations

import os
import time

from machine import description
from parts import Count
from steps import Ended
from tree import TOP, files_of, sum_of, write

PAGE = f"{TOP}/tests/RELEASE.md"
# What the tests write themselves is no part of what they judge.
WRITTEN = ("tests/RELEASE.md", "tests/verdicts")
JUDGED = ("crates", "tests", "bin", "examples", "operate")


def checksum(top: str = TOP) -> str:
    """A checksum of what a release's test judges: crates, tests, commands, examples and what is installed, also in a copy of the tree."""
    parts = [path for part in JUDGED for path in files_of(f"{top}/{part}", [""])]
    built = [f"{top}/crates/{it}/out/" for it in os.listdir(f"{top}/crates")]
    kept = [it for it in parts if not it.startswith(tuple(built)) and "/__pycache__/" not in it and not it.endswith(tuple(WRITTEN))]
    return sum_of([*kept, f"{top}/crates.txt", f"{top}/HANDLES"], top=top)


def rows(ended: list[Ended]) -> str:
    return "".join(f"| {it.step.name} | {it.count.passed} | {it.minutes:.1f} | {it.processor_minutes:.1f} |\n" for it in ended)


def page(content: str, commit: str, count: Count, ended: list[Ended], minutes: float) -> str:
    """The page's text."""
    return f"""# The last test of everything

`bin/test --all` writes this page if nothing failed: every crate and its tests proved from nothing, each edit refused beside unchanged
copies that are proved, each allocation refused, all parts played. `bin/test --content` prints the checksum of the tree as it stands.

| | |
|---|---|
| date | {time.strftime("%Y-%m-%d")} |
| commit | {commit} |
| checksum | {content} |
| machine | {description()} |
| passed | {count.passed} |
| minutes | {minutes:.0f}, and {sum(it.processor_minutes for it in ended):.0f} of processors |

| part | passed | minutes | of processors |
|---|---|---|---|
{rows(ended)}"""


def write_page(content: str, commit: str, count: Count, ended: list[Ended], minutes: float) -> None:
    write(PAGE, page(content, commit, count, ended, minutes))

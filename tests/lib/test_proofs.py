"""Which tests a gate proves: those of the crates with new content, the cheapest first, as far as its time allows."""
from __future__ import annotations

from typing import NamedTuple

from tree import TOP, Crate, read

# Processor seconds that the proof of a crate's tests takes over the crate's own, measured.
SHIPPED = f"{TOP}/tests/lib/test_seconds.txt"
# What is reckoned with for a crate that isn't in the file: so it comes last.
UNKNOWN = 300.0


class Chosen(NamedTuple):
    """The crates whose tests are proved, and those for which the time doesn't suffice."""

    proved: list[Crate]
    left_out: list[Crate]


def seconds() -> dict[str, float]:
    """The processor seconds of each crate's tests."""
    rows = [line.split() for line in read(SHIPPED).splitlines() if line and not line.startswith("#")]
    return {name: float(it) for name, it in rows}


def within(new: list[Crate], minutes: float) -> Chosen:
    """Chooses among the crates with tests that weren't proved at their content, for so many processor minutes."""
    known = seconds()
    rest = 60 * minutes
    chosen: list[Crate] = []
    for crate in sorted(new, key=lambda it: known.get(it.name, UNKNOWN)):
        rest -= known.get(crate.name, UNKNOWN)
        if rest >= 0:
            chosen.append(crate)
    return Chosen([it for it in new if it in chosen], [it for it in new if it not in chosen])

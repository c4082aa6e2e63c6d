"""What is printed for a configuration and a tape that lie in files."""
from __future__ import annotations

import os
from typing import Iterator

from . import configuration, tapes

LONGEST_CONFIG = 65_536
LONGEST_TAPE = 67_108_864
FILE_FAULT = "file fault"
FAULTS = ("config fault", FILE_FAULT, "tape fault")


class FileFault(Exception):
    """A file that can't be read, or has too many bytes."""


def content_of(path: str, longest: int) -> bytes:
    try:
        if os.path.getsize(path) > longest:
            raise FileFault
        with open(path, "rb") as file:
            return file.read()
    except OSError:
        raise FileFault from None


def checked(config: str) -> Iterator[str]:
    """The line of a check: how many routes there are, or a fault."""
    try:
        yield f"routes {len(configuration.read(content_of(config, LONGEST_CONFIG)).entries)}"
    except configuration.ConfigFault as fault:
        yield str(fault)
    except FileFault:
        yield FILE_FAULT


def replayed(config: str, tape: str) -> Iterator[str]:
    """The lines of a replay. The configuration's faults come before those of the tape."""
    try:
        read = configuration.read(content_of(config, LONGEST_CONFIG))
        yield from tapes.replay(read, content_of(tape, LONGEST_TAPE))
    except configuration.ConfigFault as fault:
        yield str(fault)
    except FileFault:
        yield FILE_FAULT

"""What the proofs and edits of each crate took last on this machine, in minutes of a processor."""
from __future__ import annotations

import json
import os

from tree import machine_folder, read, write

# A crate of which nothing had to be proved again takes less than this, and keeps the figure that it had.
LEAST = 0.1


def of_machine() -> str:
    return f"{machine_folder()}/minutes"


def last() -> dict[str, float]:
    """The minutes of each crate, as far as they are known."""
    try:
        return {str(crate): float(spent) for crate, spent in json.loads(read(of_machine())).items()}
    except (OSError, ValueError, AttributeError):
        return {}


def keep(new: dict[str, float]) -> None:
    """Keeps what crates took just now."""
    try:
        os.makedirs(os.path.dirname(of_machine()), exist_ok=True)
        write(of_machine(), json.dumps({**last(), **{crate: round(it, 2) for crate, it in new.items() if it >= LEAST}}, indent=1))
    except OSError:
        pass

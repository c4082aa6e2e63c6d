"""A command line whose faults are told in one line."""
from __future__ import annotations

import argparse
import sys
from typing import NoReturn


class Parser(argparse.ArgumentParser):
    """The parser of bin/NAME, whose help begins with `doc`. It takes whole words alone."""

    def __init__(self, name: str, doc: str | None) -> None:
        super().__init__(prog=f"bin/{name}", description=doc, formatter_class=argparse.RawDescriptionHelpFormatter, allow_abbrev=False)
        self.name = name

    def error(self, message: str) -> NoReturn:
        print(f"{self.name}: {message}; bin/{self.name} --help says more", file=sys.stderr)
        sys.exit(2)

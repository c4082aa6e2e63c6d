"""Whether crates stand as `rt fmt` writes them: the gate refuses one that doesn't only after an hour of proofs."""
from __future__ import annotations

import os
import shutil
import subprocess
import tempfile

from tree import SOURCES, Crate, files_of, read


def wrong_files(crate: Crate) -> list[str]:
    """The files of a crate that `rt fmt` would change, in a copy; or what it says if it fails."""
    with tempfile.TemporaryDirectory(prefix="layout-") as room:
        copy = f"{room}/{crate.name}"
        for part in SOURCES:
            if os.path.isdir(f"{crate.folder}/{part}"):
                shutil.copytree(f"{crate.folder}/{part}", f"{copy}/{part}")
        ran = subprocess.run(["rt", "fmt"], cwd=copy, stdin=subprocess.DEVNULL, stdout=subprocess.PIPE, stderr=subprocess.STDOUT, text=True, errors="replace")
        if ran.returncode:
            return [f"rt fmt ended with {ran.returncode}: {ran.stdout.strip()[-300:]}"]
        pairs = ((path, path.replace(crate.folder, copy, 1)) for path in files_of(crate.folder))
        return [f"{os.path.relpath(path, crate.folder)} isn't as rt fmt writes it" for path, other in pairs if read(path) != read(other)]

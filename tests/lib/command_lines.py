"""Command-line cases (tests/cli) and the tapes of examples/, played against the built program. tests/cli/README.md has the form."""
from __future__ import annotations

import os
import resource
import shutil
import subprocess
import tempfile
from typing import Callable, NamedTuple

from rows import Row, rows_of
from tree import PROGRAM, TOP

CASES = f"{TOP}/tests/cli"
EXAMPLES = f"{TOP}/examples"
CONFIG = "config.toml"
OWN_FILES = {"args", "stdout", "status", "stderr", "sizes", "repeats", "modes", "memory", "full", "rows", "steps"}
PRIVATE = 0o600
SECONDS = 60
EXPLAIN = "--explain"


class Wanted(NamedTuple):
    """What a run has to end with: its status, standard output to the byte, and lines that standard error contains."""

    status: int
    output: bytes
    errors: list[str]


def bytes_of(path: str, usual: bytes = b"") -> bytes:
    """The bytes of a file, or `usual` if there is none."""
    if not os.path.isfile(path):
        return usual
    with open(path, "rb") as file:
        return file.read()


def lines_of(path: str) -> list[str]:
    return bytes_of(path).decode().splitlines()


def limited(kilobytes: int) -> Callable[[], None] | None:
    """A function for a process to call before it runs the program: it sets the limit of memory. None if there is no limit."""
    if not kilobytes:
        return None
    return lambda: resource.setrlimit(resource.RLIMIT_AS, (1024 * kilobytes, 1024 * kilobytes))


def path_of(folder: str, name: str) -> str:
    """The path of a case's file: that of tests/cli, if it is a configuration that the case hasn't of its own."""
    own = f"{folder}/{name}"
    return f"{CASES}/{CONFIG}" if name == CONFIG and not os.path.isfile(own) else own


def set_modes(folder: str, room: str) -> None:
    """Lets their owner alone use the files in the room, but for those whose mode the case has."""
    for name in os.listdir(room):
        os.chmod(f"{room}/{name}", PRIVATE)
    for line in lines_of(f"{folder}/modes"):
        name, mode = line.split()
        os.chmod(f"{room}/{name}", int(mode, 8))


def lay_out(folder: str, room: str) -> bytes:
    """Puts the case's files and its configuration into the room, with their modes, and returns the lines that `repeats` puts before the
    wanted output."""
    shutil.copyfile(path_of(folder, CONFIG), f"{room}/{CONFIG}")
    for name in os.listdir(folder):
        if name not in OWN_FILES:
            shutil.copyfile(f"{folder}/{name}", f"{room}/{name}")
    for line in lines_of(f"{folder}/sizes"):
        name, size = line.split()
        with open(f"{room}/{name}", "wb") as file:
            file.truncate(int(size))
    front = b""
    for line in lines_of(f"{folder}/repeats"):
        name, count, text = line.split(" ", 2)
        repeated = f"{text}\n".encode() * int(count)
        if name == "stdout":
            front = repeated
        else:
            more = bytes_of(f"{room}/{name}")
            with open(f"{room}/{name}", "wb") as file:
                file.write(repeated + more)
    set_modes(folder, room)
    return front


def words_of(folder: str) -> list[str]:
    """The command line of a case."""
    return bytes_of(f"{folder}/args").decode().split("\n")[:-1]


def ran(folder: str, room: str, left_out: str = "") -> subprocess.CompletedProcess[bytes]:
    """The program's run in the room, with the case's words but one, limit of memory and ends that take nothing."""
    words = [it for it in words_of(folder) if it != left_out]
    limit = limited(int(bytes_of(f"{folder}/memory", b"0")))
    with open("/dev/full", "wb") as full:
        ends = {"stdout": subprocess.PIPE, "stderr": subprocess.PIPE, **{name: full for name in bytes_of(f"{folder}/full").decode().split()}}
        return subprocess.run([PROGRAM, *words], cwd=room, stdin=subprocess.DEVNULL, timeout=SECONDS, preexec_fn=limit, **ends)  # type: ignore[call-overload]


def wrong_of(wanted: Wanted, it: subprocess.CompletedProcess[bytes]) -> list[str]:
    """What of the run isn't as it is wanted."""
    said, heard = it.stdout or b"", (it.stderr or b"").decode(errors="replace")
    wrong = []
    if said != wanted.output:
        wrong.append(f"standard output is {said[-300:]!r}")
    if it.returncode != wanted.status:
        wrong.append(f"the status is {it.returncode}, and not {wanted.status}")
    wrong += [f"standard error lacks {line!r}" for line in wanted.errors if line not in heard]
    if not wanted.errors and heard:
        wrong.append(f"standard error is {heard[-300:]!r}")
    return wrong


def wrong_of_row(row: Row, folder: str, room: str) -> list[str]:
    """What is wrong with the runs of a row, whose file lies in the room. With the word `--explain` standard error has just the
    row's lines; without it there are none, and nothing else is another."""
    words = words_of(folder)
    wanted = Wanted(row.status, row.output.encode(), [])
    if EXPLAIN not in words:
        return wrong_of(wanted, ran(folder, room))
    lines = "".join(f"srtgw: {words[-1]}: {it}\n" for it in row.errors)
    it = ran(folder, room)
    heard, it.stderr = it.stderr.decode(errors="replace"), b""
    wrong = [f"standard error is {heard!r}"] if heard != lines else []
    return wrong + wrong_of(wanted, it) + [f"without {EXPLAIN}: {it}" for it in wrong_of(wanted, ran(folder, room, EXPLAIN))]


def play_rows(folder: str, room: str, kind: str) -> list[str]:
    """Plays each row of the case: its change is made in the file that the last word of the command line names, of the case's text
    (`rows`), or of what the row before it left (`steps`)."""
    path = f"{room}/{words_of(folder)[-1]}"
    text, wrong = bytes_of(path).decode(), []
    for row in rows_of(lines_of(f"{folder}/{kind}")):
        changed = row.changed(text)
        with open(path, "wb") as file:
            file.write(changed.encode())
        wrong += [f"{row.name}: {it}" for it in wrong_of_row(row, folder, room)]
        text = changed if kind == "steps" else text
    return wrong


def play_in(folder: str, room: str, kind: str) -> list[str]:
    """Plays the case in this room. `kind` is the file that has what is wanted."""
    front = lay_out(folder, room)
    if kind != "stdout":
        return play_rows(folder, room, kind)
    wanted = Wanted(int(bytes_of(f"{folder}/status", b"0")), front + bytes_of(f"{folder}/stdout"), lines_of(f"{folder}/stderr"))
    return wrong_of(wanted, ran(folder, room))


def play(case: str) -> list[str]:
    """Plays one case, and returns what is wrong."""
    folder = f"{CASES}/{case}"
    kinds = [it for it in ("stdout", "rows", "steps") if os.path.isfile(f"{folder}/{it}")]
    if not os.path.isfile(f"{folder}/args") or len(kinds) != 1:
        return ["it lacks `args`, or one of `stdout`, `rows` and `steps`"]
    with tempfile.TemporaryDirectory(prefix="srtgw-case-") as room:
        try:
            return play_in(folder, room, kinds[0])
        except (OSError, ValueError, subprocess.TimeoutExpired) as why:
            return [str(why)]


def play_example(tape: str) -> list[str]:
    """Plays one tape of examples/, and returns what is wrong."""
    words = [PROGRAM, "replay", f"{EXAMPLES}/tapes.toml", f"{EXAMPLES}/{tape}"]
    try:
        it = subprocess.run(words, stdin=subprocess.DEVNULL, stdout=subprocess.PIPE, timeout=SECONDS)
    except (OSError, subprocess.TimeoutExpired) as why:
        return [str(why)]
    wanted = bytes_of(f"{EXAMPLES}/{tape.removesuffix('.tape')}.out")
    return [] if it.returncode == 0 and it.stdout == wanted else [f"status {it.returncode}, standard output {it.stdout[-300:]!r}"]


def names_of_cases(word: str = "") -> list[str]:
    return sorted(it for it in os.listdir(CASES) if word in it and os.path.isdir(f"{CASES}/{it}"))


def names_of_examples() -> list[str]:
    return sorted(it for it in os.listdir(EXAMPLES) if it.endswith(".tape"))

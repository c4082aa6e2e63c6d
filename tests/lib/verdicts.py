"""What is known of crates at the content that they have: that their tests were proved, that the unchanged copies of functions were
proved, and that each of their edits was refused. Which edits and which refusals of memory the gate tries again follows from it.

Each is a fact about content, and comments are none of it. A mutant is one by the contracts that it breaks, and a test calls what
contracts describe; so of the crates below count `src` and `specs`, and not the proofs. The toolchain counts where tests are proved and
memory is refused, and not for copies and edits, whose verdicts stay over a change of it.

A verdict is a line of `tests/verdicts`, which git keeps, and of a file of this machine, where it counts in every clone."""
from __future__ import annotations

import fcntl
import functools
import hashlib
import os
import re
import subprocess
from typing import Iterable, NamedTuple

import copying
import placing
import trying
from trying import Batch, Plan
from tree import TOP, Crate, below, crates, files_of, machine_folder, read, sum_of

KEPT = f"{TOP}/tests/verdicts"
HEAD = """\
# What was shown of a crate at which content, by a checksum of all that it rests on: that its tests were proved, that its unchanged
# copies were proved (controls), that each of its edits was refused (edits), and each allocation of the run (refusals). The tests
# write these lines (tests/edits/README.md). Lines of both sides of a merge stay; one of another content says nothing, and does no harm.
"""
TESTS, CONTROLS, EDITS, REFUSALS = "tests", "controls", "edits", "refusals"
# The most lines that the machine's file keeps, the newest ones.
MOST_LINES = 4000
# How many edits of the crates with nothing new the gate tries again.
SAMPLE = 60


class Verdict(NamedTuple):
    """A line of a file of verdicts: what kind of thing was shown of a crate, and the checksum of what it rests on."""

    crate: str
    kind: str
    checksum: str


class Checksums(NamedTuple):
    """The checksums of what a crate's unchanged copies rest on, the verdicts over its edits, and the proofs of its tests."""

    controls: str
    edits: str
    tests: str


# What begins a line that is a comment, by the end of a file's name.
COMMENTS = {".rt": b"//", ".antt": b"--"}
# What counts in a line of code: an escaped character, a quote as a character, a quote, and a comment's beginning.
MARKS = re.compile(rb"""\\.|'"'|"|//""")
# A text in which a quote can stand as it is.
RAW_TEXT = re.compile(rb'\br#+"')


def ends_inside(line: bytes, inside: bool) -> bool:
    """Whether a text between quotes goes on after this line of code, if one did before it (`inside`) or not."""
    for mark in MARKS.findall(line):
        if mark == b"//" and not inside:
            return False
        inside ^= mark == b'"'
    return inside


@functools.cache
def without_comments(ending: str, text: bytes) -> bytes:
    """The text of a file with this ending without the lines that are comments; all of it for other files."""
    mark = COMMENTS.get(ending)
    if mark is None or (ending == ".rt" and RAW_TEXT.search(text)):
        return text
    kept: list[bytes] = []
    inside = False
    for line in text.split(b"\n"):
        if not inside and line.lstrip().startswith(mark):
            continue
        kept.append(line)
        inside = ending == ".rt" and ends_inside(line, inside)
    return text if inside else b"\n".join(kept)


def sum_of_content(paths: Iterable[str], more: str = "", top: str = TOP) -> str:
    """One checksum of these files of the repository, or of a copy of it, with their places, and of a text. Comments don't count."""
    total = hashlib.sha256(more.encode())
    for path in paths:
        with open(path, "rb") as file:
            text = without_comments(os.path.splitext(path)[1], file.read())
        total.update(f"{os.path.relpath(path, top)}\0".encode() + text + b"\0")
    return total.hexdigest()


def is_test(path: str) -> bool:
    """Whether a file below src/ holds tests alone."""
    return path.endswith("tests.rt") or "/tests/" in path


def said_below(crate: Crate) -> list[str]:
    """The files of all crates below this one that hold their code, definitions and contracts."""
    return [path for it in below([crate.name]) if it != crate for path in files_of(it.folder, ["src", "specs"]) if not is_test(path)]


@functools.cache
def toolchain() -> str:
    """The line by which the toolchain tells its version, or an empty text where there is none."""
    try:
        return subprocess.run(["rt", "version"], stdout=subprocess.PIPE, stderr=subprocess.DEVNULL, text=True, check=True).stdout.strip()
    except (OSError, subprocess.CalledProcessError):
        return ""


def checksums_of(crate: Crate) -> Checksums:
    """The checksums of a crate as it stands."""
    copies, _ = copying.copies_of(crate.folder, trying.edits_of(crate.name))
    functions = sorted({f"{it.of.path} {it.of.owner} {it.of.name}" for it in copies})
    own, edits, said = files_of(crate.folder), trying.edits_of(crate.name, outside_only=True), said_below(crate)
    judging = [it.__file__ for it in (copying, placing, trying)]
    return Checksums(
        sum_of_content([*own, copying.__file__], "\n".join(functions)),
        sum_of_content([*own, *edits, *said, *judging], crate.line),
        sum_of_content([*own, *said], f"{crate.line}\n{toolchain()}"),
    )


def of_machine() -> str:
    """The file with what was learned on this machine, in whatever clone."""
    return f"{machine_folder()}/verdicts"


def verdicts_in(text: str) -> list[Verdict]:
    """The verdicts of a file's text, each once, in order."""
    rows = [line.split() for line in text.splitlines() if not line.startswith("#")]
    return list(dict.fromkeys(Verdict(*row) for row in rows if len(row) == 3))


def kept_in(path: str) -> list[Verdict]:
    """The verdicts that a file keeps; none if it can't be read."""
    try:
        return verdicts_in(read(path))
    except (OSError, UnicodeDecodeError):
        return []


def known() -> set[Verdict]:
    """All verdicts that the repository and this machine keep."""
    return {*kept_in(KEPT), *kept_in(of_machine())}


def is_known(crate: str, kind: str, checksum: str) -> bool:
    return Verdict(crate, kind, checksum) in known()


def text_of(verdicts: Iterable[Verdict], head: str = "") -> str:
    return head + "".join(f"{' '.join(it)}\n" for it in verdicts)


def rewrite(path: str, new: list[Verdict], is_ours: bool) -> None:
    """Adds verdicts to a file. The repository's own (`is_ours`) keeps one for each crate and kind of those that are written, and none
    of a crate that is gone; the machine's keeps those of other contents too, since its clones have others."""
    with open(path, "a+", encoding="utf-8") as file:
        fcntl.flock(file, fcntl.LOCK_EX)
        file.seek(0)
        before = file.read()
        old = verdicts_in(before)
        if is_ours:
            written = {(it.crate, it.kind) for it in new}
            stay = [it for it in old if (it.crate, it.kind) not in written and (it.crate in crates() or it.kind == REFUSALS)]
            after = text_of(sorted({*stay, *new}), HEAD)
        else:
            after = text_of([*(it for it in old if it not in new), *new][-MOST_LINES:])
        if after != before:
            file.seek(0)
            file.truncate()
            file.write(after)


def learn(new: Iterable[Verdict]) -> None:
    """Keeps what was shown just now, in the repository's file and in the machine's."""
    verdicts = list(new)
    for path, is_ours in ((KEPT, True), (of_machine(), False)) if verdicts else ():
        try:
            os.makedirs(os.path.dirname(path), exist_ok=True)
            rewrite(path, verdicts, is_ours)
        except OSError as why:
            print(f"note: {path} can't be written ({why.strerror}), so what was learned is tried again", flush=True)


def needs_controls(crate: Crate) -> bool:
    """Whether a crate's unchanged copies weren't proved yet as they stand."""
    return not is_known(crate.name, CONTROLS, checksums_of(crate).controls)


def are_known(crate: Crate) -> bool:
    """Whether a crate's copies were proved, and its edits refused, at the content as it stands."""
    now = checksums_of(crate)
    return {Verdict(crate.name, CONTROLS, now.controls), Verdict(crate.name, EDITS, now.edits)} <= known()


def tests_are_known(crate: Crate) -> bool:
    """Whether a crate's tests were proved at the content as it stands."""
    return is_known(crate.name, TESTS, checksums_of(crate).tests)


def why_not_all(result: trying.Result) -> str:
    """Why a result doesn't show that each edit of the crate's folder in tests/edits is refused for its meaning, or an empty text."""
    if result.wrong():
        return "not all is as it must be"
    by_name = [it.copy.edit for it in result.outcomes if it.by_name]
    if by_name:
        return f"{by_name[0]} is refused only by a name that is gone"
    edits = {os.path.basename(it) for it in trying.edits_of(result.crate, outside_only=True)}
    untried = sorted(edits - set(result.edits(trying.REFUSED)))
    return f"{untried[0]} wasn't tried" if untried else ""


def commit() -> str:
    """The name of the commit that the tree stands at, or a checksum of all sources where git can't tell."""
    words = ["git", "-C", TOP, "rev-parse", "HEAD"]
    try:
        return subprocess.run(words, stdout=subprocess.PIPE, stderr=subprocess.DEVNULL, text=True, check=True).stdout.strip()
    except (OSError, subprocess.CalledProcessError):
        return sum_of([path for it in crates().values() for path in files_of(it.folder)])


def edits_in(batch: Batch) -> list[str]:
    return [it.edit for it in [*batch.copies, *batch.placed]]


def sample_of(plans: list[Plan], seed: str) -> list[Plan]:
    """Of these plans whole batches with at most SAMPLE edits together, others for another seed; each batch can be the first."""
    every = [(plan.crate, it) for plan in plans for it in plan.batches]
    every.sort(key=lambda it: hashlib.sha256(" ".join([seed, it[0], *edits_in(it[1])]).encode()).digest())
    room = SAMPLE
    chosen: list[tuple[str, Batch]] = []
    for crate, batch in every:
        if len(edits_in(batch)) <= room:
            room -= len(edits_in(batch))
            chosen.append((crate, batch))
    return [plan._replace(batches=[batch for crate, batch in chosen if crate == plan.crate]) for plan in plans]


def plans_of_gate(wanted: Iterable[Crate], seed: str) -> list[Plan]:
    """What the gate tries of the edits of tests/edits: all of each crate with something new, and a sample of those of the others."""
    found: dict[str, Plan] = {}
    refused: list[Plan] = []
    for crate in wanted:
        edits, is_refused = trying.edits_of(crate.name, outside_only=True), are_known(crate)
        plan = trying.plan_of(crate, edits, with_controls=not is_refused and needs_controls(crate))
        found[crate.name] = plan._replace(known=len(edits) if is_refused else 0)
        refused += [found[crate.name]] if is_refused else []
    found.update({it.crate: it for it in sample_of(refused, seed)})
    return list(found.values())

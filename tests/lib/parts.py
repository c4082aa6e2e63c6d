"""The parts of the tests that need no proof: each plays against the built program or looks at files, prints a line for each of its
subjects, and returns how many passed and failed."""
from __future__ import annotations

import re
import subprocess
from typing import Callable, NamedTuple

import command_lines
import layout
from tree import TOP, crates


class Count(NamedTuple):
    """How many subjects passed, and how many failed."""

    passed: int = 0
    failed: int = 0

    def and_also(self, other: "Count") -> "Count":
        return Count(self.passed + other.passed, self.failed + other.failed)


# What failed so far, a line each: `bin/test` prints them again at its end.
FAILED: list[str] = []
# What was left out for want of time, a line each: `bin/test` prints them again, too.
LEFT_OUT: list[str] = []
LONGEST = 400
MOST_SUSPECTS = 40


def note_failed(line: str) -> None:
    FAILED.append(line.strip()[:LONGEST])


def told(kind: str, name: str, wrong: list[str]) -> Count:
    """Prints the line of a subject, and counts it."""
    line = f"{kind} {name}: {'; '.join(wrong) or 'ok'}"
    print(line, flush=True)
    if wrong:
        note_failed(line)
    return Count(int(not wrong), int(bool(wrong)))


def all_of(counts: "list[Count]") -> Count:
    return Count(sum(it.passed for it in counts), sum(it.failed for it in counts))


def subjects(name: str, *words: str) -> Count:
    """Runs tests/NAME/run, which prints a line `NAME of SUBJECT: ok` or `NAME SUBJECT: wrong` for each of its subjects."""
    passed = failed = 0
    with subprocess.Popen([f"{TOP}/tests/{name}/run", *words], stdout=subprocess.PIPE, stderr=subprocess.STDOUT, text=True, errors="replace") as it:
        assert it.stdout
        for line in it.stdout:
            print(line, end="", flush=True)
            found = re.match(rf"{name} (?:of )?[\w.]+: (ok|wrong)", line)
            passed += bool(found) and found[1] == "ok"
            if found and found[1] == "wrong":
                failed += 1
                note_failed(line)
    if it.returncode and not failed:
        note_failed(f"tests/{name}/run ended with {it.returncode}")
    return Count(passed, failed or int(it.returncode != 0))


# A line of `rt ci` or of a case that says of something that it failed.
SAYS_FAILED = re.compile(r"FAILED|not as it should be|: error|^case (?!.*(?:: ok$|: ok \(|: skipped, |; again, ))")


def counted(words: list[str], last_line: str) -> Count:
    """Runs a program, prints what it says, and returns what its last line counts: one failure if that has another form."""
    last = ""
    suspects: list[str] = []
    with subprocess.Popen(words, cwd=TOP, stdout=subprocess.PIPE, stderr=subprocess.STDOUT, text=True, errors="replace") as it:
        assert it.stdout
        for line in it.stdout:
            print(line, end="", flush=True)
            last = line.strip() or last
            if SAYS_FAILED.search(line):
                suspects.append(line)
    found = re.fullmatch(last_line, last)
    passed, failed = map(int, found.groups()) if found else (0, 1)
    if failed or it.returncode:
        for line in suspects[:MOST_SUSPECTS] or [f"{' '.join(words)} ended with {it.returncode}: {last}"]:
            note_failed(line)
    return Count(passed, failed or int(it.returncode != 0))


def callers() -> Count:
    """Plays the callers of tests/callers, whose last line counts them."""
    return counted([f"{TOP}/tests/callers/run"], r"callers: (\d+) passed, (\d+) failed, \d+ skipped")


def operate() -> Count:
    """Plays the operator's day of tests/operate, whose last line counts its cases."""
    return counted([f"{TOP}/tests/operate/run"], r"operate: (\d+) passed, (\d+) failed, \d+ skipped")


def package() -> Count:
    """Installs the program into folders and makes packages of it, by tests/package, whose last line counts its cases."""
    return counted([f"{TOP}/tests/package/run"], r"package: (\d+) passed, (\d+) failed, \d+ skipped")


def cases(word: str = "") -> Count:
    """The command-line cases whose name has the word."""
    return all_of([told("case", it, command_lines.play(it)) for it in command_lines.names_of_cases(word)])


def layouts() -> Count:
    """Whether each crate stands as `rt fmt` writes it."""
    return all_of([told("layout of", it.name, layout.wrong_files(it)) for it in crates().values()])


def examples() -> Count:
    return all_of([told("example", it, command_lines.play_example(it)) for it in command_lines.names_of_examples()])


# By their words on the command line, in the order in which the gate runs them.
PARTS: dict[str, Callable[[], Count]] = {
    "layout": layouts,
    "docs": lambda: subjects("docs"),
    "edits": lambda: subjects("edits"),
    "programs": lambda: subjects("programs"),
    "explain": lambda: subjects("explain"),
    "cases": cases,
    "model": lambda: subjects("model"),
    "examples": examples,
    "hostile": lambda: subjects("hostile"),
    "callers": callers,
    "operate": operate,
    "package": package,
    "refusals": lambda: subjects("refusals"),
}
# Those that read files alone (programs are compiled too where the libraries are built), and those that play for a short while against
# the built program.
OF_FILES = ("layout", "docs", "edits", "programs")
QUICK = ("layout", "docs", "edits", "programs", "explain", "cases", "examples")

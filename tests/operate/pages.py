"""What documents show, beside the program: each key, limit and default of docs/CONFIGURATION.md, each configuration, and each command
line of the program."""
from __future__ import annotations

import glob
import os
import re
import shlex
import string
import subprocess
import sys
import tempfile
from concurrent.futures import ThreadPoolExecutor
from typing import Iterator, NamedTuple

from cases import case
from documents import PAGES
from expecting import Wrong, expect
from installing import commands, help_of, options
from running import SECRET, Run, live
from running import Shown as ShownRun
from tree import PROGRAM, TOP, read

sys.path.append(f"{TOP}/tests/docs")
from texts import Document, parsed, ticked  # The readers of documents that tests/docs has.

KEYS = f"{TOP}/docs/CONFIGURATION.md"
ADDRESSES = ("0.0.0.0:0", "255.255.255.255:65535", "127.0.0.1:9001", "[::]:9000", "[2001:db8::7]:65535")
NO_ADDRESSES = (
    "127.0.0.1", "127.0.0.1:", "127.0.0.1:65536", "256.0.0.1:1", "127.0.0:1", "01.0.0.1:1", "127.0.0.1:01",
    "localhost:1", "[::1]", "::1:1", "[::1%lo]:1", "[::ffff:127.0.0.1]:1", "",
)
NETWORKS = ("192.0.2.7", "0.0.0.0/0", "255.255.255.255/32", "198.51.100.0/24", "10.0.0.0/8", "::/0", "2001:db8::7", "2001:db8::/32", "::1/128")
NO_NETWORKS = (
    "192.0.2.7/33", "192.0.2.1/24", "192.0.2.7/", "192.0.2.07", "::1/129", "2001:db8::1/32", "::ffff:192.0.2.7", "192.0.2", "192.0.2.7/-1", "192.0.2.7/024",
)
FULL = {
    "secret": f'"{SECRET}"', "bind": '"127.0.0.1:0"', "workers": "1", "status": '"127.0.0.1:0"', "defaults": "{}", "name": '"studio"', "mode": '"live"',
    "latency_ms": "120", "buffer": "1024", "sessions": "5", "inbox": "16", "outbox": "334", "open_round": "0", "close_round": "5",
    "callers": '"libsrt"', "publish_from": '["192.0.2.7"]', "request_from": '["192.0.2.7"]', "publish_key": '"a"', "request_key": '"b"',
    "reserved": "1", "sessions_per_address": "2", "takeover_ms": "500", "resend_percent": "50", "expect": "true",
    "publish_passphrase": '"correct horse battery"', "request_passphrase": '"hold the line please"', "pbkeylen": "16",
}
REQUIRED = ("secret", "bind", "workers", "name", "mode", "latency_ms", "buffer", "sessions", "inbox", "outbox")
WRONG_KINDS = {
    "text": ("5", "[]"), "number": ('"5"', "1.5", "true"), "list": ('"192.0.2.7"', "5", '["192.0.2.7", 5]'), "table": ("5", "[]"), "tables": ("5", "[5]"),
    "boolean": ("1", '"true"', "[]"),
}


def documents() -> list[str]:
    """The documents of the tree, but for the lab's, which are of their days, and for the old versions of the changes."""
    found = glob.glob(f"{TOP}/*.md") + glob.glob(f"{TOP}/**/*.md", recursive=True)
    skipped = ("docs/lab/", "CHANGELOG.md")
    return sorted({it for it in found if "/out/" not in it and not os.path.relpath(it, TOP).startswith(skipped)})


# ---- the table of keys ----


class Key(NamedTuple):
    """A row of the table."""

    name: str
    of: str
    kind: str
    limits: str
    default: str

    def is_required(self) -> bool:
        return self.default == "required"


def keys_in(text: str) -> list[Key]:
    rows = (it.cells for it in parsed("", text).pieces if it.is_row() and it.head[:5] == ["key", "of", "kind", "limits", "default"])
    return [Key(name, *cells[1:5]) for cells in rows for name in ticked(cells[0])]


def text_of(keys: list[Key], values: dict[str, str]) -> str:
    """A configuration with these values."""
    file, route = ("".join(f"{it.name} = {values[it.name]}\n" for it in keys if it.of == of and it.name in values) for of in ("file", "route"))
    return f"{file}[[route]]\n{route}" if route else file


def checked(text: str) -> str:
    """The line that `srtgw check` prints of a configuration."""
    with tempfile.NamedTemporaryFile("w", prefix="srtgw-key-", suffix=".toml") as it:
        it.write(text)
        it.flush()
        return subprocess.run([PROGRAM, "check", it.name], capture_output=True, text=True).stdout.strip()


class Try(NamedTuple):
    """A configuration, what it shows, and the line that `check` has to print."""

    what: str
    text: str
    wanted: str


def between(key: Key) -> tuple[int, int]:
    """The limits at the front of a row."""
    found = re.match(r"(\d+) to (\d+)\b", key.limits)
    if not found:
        raise Wrong(f"docs/CONFIGURATION.md: {key.name} has no limits: {key.limits!r}")
    return int(found[1]), int(found[2])


def values_of(key: Key) -> Iterator[tuple[str, int]]:
    """Values at the limits of a row, each with 0, and values beyond them, each with the number of its fault."""
    if key.kind == "number":
        low, high = between(key)
        yield from ((str(low), 0), (str(high), 0), (str(low - 1), 5), (str(high + 1), 5))
    elif key.kind == "boolean":
        yield from ((it, 0) for it in ticked(key.limits))
    elif key.kind == "table":
        yield from (("{}", 0), ("{ sessions = 5, inbox = 16 }", 0))
    elif "Address and port" in key.limits:
        yield from ((f'"{it}"', 0) for it in ADDRESSES)
        yield from ((f'"{it}"', 9) for it in NO_ADDRESSES)
    elif key.kind == "list":
        low, high = between(key)
        one = '"192.0.2.7"'
        yield from ((f"[{', '.join([one] * low)}]", 0), (f"[{', '.join([one] * high)}]", 0), (f"[{', '.join([one] * (low - 1))}]", 5))
        yield from ((f"[{', '.join([one] * (high + 1))}]", 5), *((f'["{it}"]', 0) for it in NETWORKS), *((f'["{it}"]', 9) for it in NO_NETWORKS))
    elif " or " in key.limits and ticked(key.limits):
        yield from ((f'"{it}"', 0) for it in ticked(key.limits))
        yield from (('"other"', 5), ('""', 5))
    elif "hexadecimal digits" in key.limits:
        count = int(key.limits.split()[0])
        yield from ((f'"{"aF" * (count // 2)}"', 0), (f'"{"a" * (count - 1)}"', 8), (f'"{"a" * (count + 1)}"', 8), (f'"{"a" * (count - 1)}g"', 8))
    elif "any characters" in key.limits:
        low, high = between(key)
        yield from ((f'"{"a" * low}"', 0), (f'"{"Z" * high}"', 0), (f'"{"a" * (low - 1)}"', 5), (f'"{"a" * (high + 1)}"', 5))
        yield from ((f'"{"é" * (low // 2)}"', 0), (f'"{"é" * (high // 2 + 1)}"', 5), (f"'{string.punctuation.replace(chr(39), '')}'", 0))
    else:
        low, high = between(key)
        fault = 6 if key.name == "name" else 5
        marks = ticked(key.limits)
        yield from ((f'"{"a" * low}"', 0), (f'"{"Z" * high}"', 0), ('"09azAZ"', 0), (f'"{"a" * (low - 1)}"', fault), (f'"{"a" * (high + 1)}"', fault))
        yield from ((f"'{it}'", 0 if it in marks else fault) for it in string.punctuation + " " if it != "'")


def tries_of(keys: list[Key], only: set[Key]) -> Iterator[Try]:
    """A configuration for each value of these keys at a limit and beyond it, of a wrong kind, and without the key."""
    for key in (it for it in keys if it in only):
        others = {it: value for it, value in FULL.items() if it != key.name and not (key.name == "open_round" and it == "close_round")}
        if key.name == "sessions":
            others.pop("reserved")
        right = "routes 1"
        if key.kind == "tables":
            low, high = between(key)
            for count in (low, high, high + 1):
                text = text_of([it for it in keys if it.of == "file"], FULL) + routes(keys, count)
                yield Try(f"{count} routes", text, f"routes {count}" if count <= high else f"config fault 5 {key.name}")
            yield Try("no route", text_of([it for it in keys if it.of == "file"], FULL), f"config fault 3 {key.name}")
            continue
        for value, fault in values_of(key):
            yield Try(f"{key.name} = {value}", text_of(keys, {**others, key.name: value}), f"config fault {fault} {key.name}" if fault else right)
        for value in WRONG_KINDS[key.kind]:
            yield Try(f"{key.name} = {value}", text_of(keys, {**others, key.name: value}), f"config fault 4 {key.name}")
        missing = f"config fault 3 {key.name}" if key.is_required() else right
        yield Try(f"without {key.name}", text_of(keys, others), missing)


def tries_of_pairs(keys: list[Key]) -> Iterator[Try]:
    """What the limits say of two keys together."""
    yield Try("reserved as many as sessions", text_of(keys, {**FULL, "sessions": "2", "reserved": "2"}), "config fault 5 reserved")
    yield Try("reserved below sessions", text_of(keys, {**FULL, "sessions": "3", "reserved": "2"}), "routes 1")
    yield Try("close_round at open_round", text_of(keys, {**FULL, "open_round": "5", "close_round": "5"}), "config fault 5 close_round")
    yield Try("close_round after open_round", text_of(keys, {**FULL, "open_round": "5", "close_round": "6"}), "routes 1")
    yield from (Try(f"pbkeylen = {it}", text_of(keys, {**FULL, "pbkeylen": str(it)}), "routes 1" if it == 24 else "config fault 5 pbkeylen") for it in (20, 24, 28))
    for role in ("publish_passphrase", "request_passphrase", None):
        some = {it: value for it, value in FULL.items() if not it.endswith("_passphrase") or it == role}
        yield Try(f"pbkeylen with {role}", text_of(keys, some), "routes 1" if role else "config fault 5 pbkeylen")
    yield Try("a name twice", text_of(keys, FULL) + "[[route]]\n" + text_of([it for it in keys if it.of == "route"], FULL).partition("\n")[2], "config fault 7 name")


def routes(keys: list[Key], count: int) -> str:
    """So many routes, with the keys that are required."""
    of_route = [it for it in keys if it.of == "route"]
    required = {it: FULL[it] for it in REQUIRED}
    return "".join(text_of(of_route, {**required, "name": f'"r{number}"'}) for number in range(count))


def wrong_tries(tries: list[Try]) -> list[str]:
    with ThreadPoolExecutor(2) as pool:
        said = list(pool.map(lambda it: checked(it.text), tries))
    return [f"{one.what}: check prints {line!r}, and by the table {one.wanted!r}" for one, line in zip(tries, said) if line != one.wanted]


@case("CONFIGURATION has each key, limit and kind as the program checks them")
def keys_are_right():
    keys = keys_in(read(KEYS))
    names = sorted(it.name for it in keys)
    expect(names == sorted({*FULL, "route"}), f"the table has the keys {names}")
    wrong = wrong_tries([*tries_of(keys, set(keys)), *tries_of_pairs(keys)])
    expect(not wrong, f"{len(wrong)} wrong: {'; '.join(wrong[:3])}")


@case("CONFIGURATION has the keys that the program names")
def keys_are_named():
    keys = keys_in(read(KEYS))
    for of, front, back in (("file", "zzzz = 1\n", ""), ("route", "", "zzzz = 1\n")):
        with tempfile.NamedTemporaryFile("w", suffix=".toml") as it:
            it.write(front + text_of(keys, FULL) + back)
            it.flush()
            said = subprocess.run([PROGRAM, "check", it.name, "--explain"], capture_output=True, text=True).stderr
        found = re.search(r"the keys here are (.*)", said)
        named = found[1].split(", ") if found else []
        expect(named == [it.name for it in keys if it.of == of], f"the keys of a {of} are {named} by the program")


# Limits that no text has: a table with one of them has to be found wrong.
PLANTED = (("20 to 8000", "20 to 8001"), ("32 to 8192", "16 to 8192"), ("1 to 17 | required", "1 to 16 | required"), ("`draft` or `libsrt`", "`draft` or `live`"),
           ("1 to 64 ASCII letters, digits, `-`, `_`, `.`, `~`", "1 to 64 ASCII letters, digits, `-`, `_`, `.`"), ("64 hexadecimal", "62 hexadecimal"),
           ("1 to 511 | required", "1 to 512 | required"), ("1 to 16 | required", "1 to 16 | 2"), ("| 5 to 1000 | no limit", "| 5 to 1000 | required"))


@case("a wrong limit, choice or default in the table is found")
def wrong_keys_are_found():
    text = read(KEYS)
    for old, new in PLANTED:
        expect(old in text, f"the table has no {old!r}")
        keys = keys_in(text.replace(old, new))
        changed = set(keys) - set(keys_in(text))
        expect(changed and wrong_tries(list(tries_of(keys, changed))), f"{new!r} in place of {old!r} isn't found")


# ---- defaults ----


def given(key: Key) -> str | None:
    """The value that a default says, as a configuration has it; None if it says that there is none."""
    if re.fullmatch(r"\d+", key.default):
        return key.default
    words = ticked(key.default)
    return None if not words else words[0] if key.kind == "boolean" else f'"{words[0]}"'


@case("a default that CONFIGURATION has is what a route without the key does")
def defaults_are_right():
    """A route without the key stays the same if the default is written; with any other value it changes, but for `expect`, of which the
    page tells."""
    keys = {it.name: it for it in keys_in(read(KEYS)) if it.of == "route" and given(it) and not it.name.endswith("_round")}
    expect(sorted(keys) == ["callers", "expect", "reserved"], f"the defaults with a value are those of {sorted(keys)}")
    small = dict(buffer=190, sessions=4, inbox=16)
    with ShownRun([live(name, **small) for name in keys], "--no-time") as run:
        run.is_up()
        first = read(run.file)
        for values, changed in (({name: given(key) for name, key in keys.items()}, 0), ({"callers": '"libsrt"', "expect": "true", "reserved": "1"}, 2)):
            text = first
            for name, value in values.items():
                text = text.replace(f'name = "{name}"\n', f'name = "{name}"\n{name} = {value}\n')
            before = len(run.lines)
            with open(f"{run.file}.new", "w") as it:
                it.write(text + live(f"more{changed}", **small))
            os.replace(f"{run.file}.new", run.file)
            run.line(rf"configuration changed: {len(keys) - changed} routes? stays?, 1 open, {1 if changed else 0} close, {changed} change", 5, before)
            expected = [labels["route"] for labels, _ in run.page.metrics().found("srtgw_route_expected")]
            expect(expected == (["expect"] if changed else []), f"after {values} the routes that are expected are {expected}")
        run.stop()


# ---- explanations and warnings ----


@case("CONFIGURATION shows explanations that the program prints")
def explanations_are_right():
    shown = re.findall(r"(?m)^    (srtgw: gateway\.toml: .*)$", read(KEYS))
    keys = keys_in(read(KEYS))
    right = {it: FULL[it] for it in REQUIRED}
    whole, front = text_of(keys, right), text_of([it for it in keys if it.of == "file"], right)
    tried = (front + routes(keys, 1) + text_of([it for it in keys if it.of == "route"], {**right, "sessions": "40"}),
             re.sub(r"(?m)^buffer = .*\n", "", whole.replace("latency_ms", "latency")), front + "[defaults]\nsessions = 40\n" + routes(keys, 1),
             whole.replace("workers = 1\n", "").replace("bind = \"127.0.0.1:0\"", "bind = \"0.0\nworkers = 1"))
    printed = []
    with tempfile.TemporaryDirectory(prefix="srtgw-shown-") as room:
        for text in tried:
            with open(f"{room}/gateway.toml", "w") as it:
                it.write(text)
            printed += subprocess.run([PROGRAM, "check", "gateway.toml", "--explain"], cwd=room, capture_output=True, text=True).stderr.splitlines()
    # Where a text that isn't TOML has its fault differs by the text.
    place = r"srtgw: gateway\.toml: line \d+, column \d+: \S.*"
    fits = len(shown) == len(printed) == 5 and shown[:4] == printed[:4] and all(re.fullmatch(place, it[4]) for it in (shown, printed))
    expect(fits, f"the page shows {shown}, and the program prints {printed}")




def warning_of(values: dict[str, str]) -> list[str]:
    """The warnings that `check --explain` prints of a configuration with these values."""
    with tempfile.NamedTemporaryFile("w", suffix=".toml") as it:
        it.write(text_of(keys_in(read(KEYS)), values))
        it.flush()
        said = subprocess.run([PROGRAM, "check", it.name, "--explain"], capture_output=True, text=True)
    expect(said.stdout == "routes 1\n", f"it prints {said.stdout!r}")
    return [it.partition("warning: ")[2] for it in said.stderr.splitlines()]


# Without one of these keys a route is warned of, too.
ADVISED = dict(callers='"libsrt"', reserved="2", takeover_ms="500", resend_percent="50")
# What is risky, in the order of the page's table; None for a key that is left out.
RISKS: list[tuple[str, dict[str, str | None]]] = [
    ("secret", dict(secret='"000102030405060708090a0b0c0d0e0f101112131415161718191a1b1c1d1e1f"')), ("status", dict(status='"0.0.0.0:1"')),
    ("outbox", dict(outbox="333")), ("buffer", dict(buffer="189")), ("sessions", dict(sessions="1", outbox="70", reserved="0")),
    ("publish_key", dict(publish_key='"a"')), ("request_key", dict(request_key='"a"')),
    ("publish_passphrase", dict(publish_passphrase='"0123456789abcde"', request_passphrase='"hold the line please"')),
    ("request_passphrase", dict(request_passphrase='"0123456789abcde"')),
    ("request_passphrase", dict(publish_passphrase='"correct horse battery"', request_passphrase='"correct horse battery"')),
    ("publish_passphrase", dict(publish_passphrase='"correct horse battery"')), ("takeover_ms", dict(mode='"buffer"')),
    ("sessions_per_address", dict(sessions_per_address="5")), ("reserved", dict(sessions="3")),
    *((key, {key: None}) for key in ADVISED),
]


@case("CONFIGURATION has the warnings of `check --explain`")
def warnings_are_right():
    rows = [it.cells for it in parsed("", read(KEYS)).pieces if it.is_row() and it.head[:2] == ["key", "warning"]]
    said = [(key, re.findall('"([^"]+)"', cells[1])) for cells in rows for key in ticked(cells[0])]
    expect([key for key, _ in said] == [key for key, _ in RISKS], f"the table has {said}")
    calm = {**{it: FULL[it] for it in REQUIRED}, **ADVISED}
    expect(warning_of(calm) == [], f"without a risk it warns: {warning_of(calm)}")
    for (key, values), (_, words) in zip(RISKS, said):
        lines = warning_of({it: value for it, value in {**calm, **values}.items() if value is not None})
        fits = len(lines) == 1 and re.match(rf"(?:route 1 \(studio\): )?{key}\b", lines[0]) and words and all(it in lines[0] for it in words)
        expect(fits, f"{key}: it warns {lines}, and the table has {words}")


# ---- sizes and durations ----


def number_in(path: str, pattern: str) -> tuple[str, ...]:
    """What a page says where it has this form."""
    found = re.search(pattern, read(path))
    if not found:
        raise Wrong(f"{os.path.relpath(path, TOP)} has no {pattern!r}")
    return tuple(it.replace(",", "") for it in found.groups())


def status_of(*words: str) -> int:
    """The status of a command whose file isn't there: 1 if its line is right, 2 if it is wrong."""
    return subprocess.run([PROGRAM, *words], cwd="/", stdin=subprocess.DEVNULL, capture_output=True, timeout=20).returncode


@case("the greatest configuration, duration and number of rounds are those that the pages name")
def sizes_are_right():
    keys = keys_in(read(KEYS))
    whole, plain = text_of(keys, FULL), text_of(keys, {name: value for name, value in FULL.items() if name != "defaults"})
    most, most_of_all = map(int, number_in(KEYS, r"TOML file of at most ([\d,]+) bytes, or ([\d,]+) if it has a table `\[defaults\]`"))
    tried = ((plain, most, "routes 1"), (plain, most + 1, "file fault"), (whole, most_of_all, "routes 1"), (whole, most_of_all + 1, "file fault"))
    for text, size, wanted in tried:
        said = checked(text + "#" * (size - len(text)))
        expect(said == wanted, f"a configuration of {size} bytes: {said}")
    low, first, high, last = number_in(f"{PAGES}/start.md", r"; (\d+) (\w) to (\d+) (\w)\)")
    durations = ((f"{low}{first}", 1), (f"{high}{last}", 1), (f"{int(low) - 1}{first}", 2), (f"{int(high) + 1}{last}", 2))
    wrong = [it for it, status in durations if status_of("run", "nowhere.toml", "--for", it) != status]
    rounds = int(number_in(f"{PAGES}/configuration.md", r"So ([\d,]+) rounds, the most")[0])
    wrong += [str(it) for it, status in ((rounds, 1), (rounds + 1, 2)) if status_of("serve", "nowhere.toml", "--rounds", str(it)) != status]
    expect(not wrong, f"not as the pages say: {', '.join(wrong)}")


# ---- configurations and command lines ----

SETTING = re.compile(r"(\w+) = (\d+|\"[^\"]*\"|\[.*\])")


def read_documents() -> list[Document]:
    return [parsed(os.path.relpath(it, TOP), read(it)) for it in documents()]


def shown_configurations() -> list[tuple[str, str]]:
    """The configurations that documents show, each with its place, and with what it lacks; and the files of the tree."""
    keys = keys_in(read(KEYS))
    found = []
    for document in read_documents():
        for block in document.blocks:
            lines = [it for it in block.lines if it.strip() and it != "[[route]]" and not it.startswith("#")]
            values = [SETTING.fullmatch(it) for it in lines]
            if values and all(values):
                shown = {it[1]: it[2] for it in values}
                whole = text_of(keys, {**{it: FULL[it] for it in REQUIRED}, **shown})
                # A key that the program doesn't know stays in, to be found.
                strange = "".join(f"{it} = {value}\n" for it, value in shown.items() if it not in FULL)
                found.append((f"{document.path}:{block.line}", whole + strange))
    files = glob.glob(f"{TOP}/examples/*.toml") + glob.glob(f"{TOP}/crates/*/data/*.toml")
    return found + [(os.path.relpath(it, TOP), read(it)) for it in sorted(files)]


@case("each configuration that documents and examples show is right")
def configurations_are_right():
    found = shown_configurations()
    wrong = [f"{place}: {said}" for place, text in found if not re.fullmatch(r"routes \d+", said := checked(text))]
    expect(len(found) >= 8 and not wrong, f"of {len(found)}: {'; '.join(wrong)}")


class Shown(NamedTuple):
    """A command line of the program: the document and line that show it, its words after the program's name, and whether a sentence
    mentions it, perhaps without its files."""

    place: str
    folder: str
    words: list[str]
    is_mention: bool = False


def shown_commands() -> list[Shown]:
    found = []
    for document in read_documents():
        lines = [(block.line + at, it, False) for block in document.blocks for at, it in enumerate(block.lines)]
        lines += [(piece.line, it, True) for piece in document.pieces for it in ticked(piece.text())]
        for number, line, is_mention in lines:
            call = re.match(r"(?:Exec\w+=)?(?:\S+=\S+ |\S*env (?:--\S+ )*)?(?:\S*/)?srtgw ((?:check|replay|serve|run|explain)\b [^|<>&;]*)", line)
            if call:
                found.append(Shown(f"{document.path}:{number}", os.path.dirname(document.path), shlex.split(call[1], comments=True), is_mention))
    return found


def file_of(word: str, command: str, folder: str) -> str:
    """The file of the tree that a word of a command line names; for a name that stands for any file, an example."""
    for path in (f"{TOP}/{word}", f"{TOP}/{folder}/{word}"):
        if os.path.isfile(path):
            return path
    if word.endswith("TAPE") or word.endswith(".tape"):
        return f"{TOP}/examples/opening.tape"
    return f"{TOP}/examples/{'tapes' if command == 'replay' else 'gateway'}.toml"


def wrong_of_command(one: Shown) -> str:
    """What is wrong with a command line, or an empty text. Those that serve callers are given a file that isn't there, which they tell
    only if the line is right."""
    command, *rest = one.words
    if command not in commands():
        return f"there is no command {command}"
    valued = set(re.findall(r"(--[\w-]+) <", help_of(command)))
    files = [at for at, it in enumerate(rest) if not it.startswith("--") and (at == 0 or rest[at - 1] not in valued)]
    if one.is_mention and not files:
        unknown = [it for it in rest if it.startswith("--") and it not in [*options(command), "--help"]]
        return f"{command} has no {unknown[0]}" if unknown else ""
    serves = command in ("run", "serve")
    words = [command, *(("nowhere.toml" if serves else file_of(it, command, one.folder)) if at in files else it for at, it in enumerate(rest))]
    words = [{"N": "1", "DURATION": "1s"}.get(it, it) for it in words]
    words = [f"{TOP}/examples/opening.out" if words[at - 1] == "--output" else it for at, it in enumerate(words)]
    said = subprocess.run([PROGRAM, *words], cwd="/", stdin=subprocess.DEVNULL, capture_output=True, text=True, timeout=60)
    wanted = (1, "file fault\n") if serves else (0, said.stdout)
    return "" if (said.returncode, said.stdout) == wanted else f"{' '.join(words)} ends with {said.returncode}, {said.stdout[:80]!r}, {said.stderr[:160]!r}"


@case("each command line that documents show is taken by the program")
def commands_are_right():
    found = shown_commands()
    wrong = [f"{it.place}: {why}" for it in found if (why := wrong_of_command(it))]
    expect(len(found) >= 8 and not wrong, f"of {len(found)}: {'; '.join(wrong)}")


@case("a wrong command line is found")
def wrong_commands_are_found():
    for line in ("run gateway.toml --hurry", "serve gateway.toml", "serve gateway.toml --rounds 1000000001", "run gateway.toml --for 8x", "play a b",
                 "check", "check a b", "check a --hurry", "replay examples/tapes.toml", "run", "run --rounds 5 gateway.toml", "explain", "explain a.tape b.tape", "explain a.tape --output"):
        expect(wrong_of_command(Shown("here", "", line.split())), f"{line!r} isn't found")
    expect(wrong_of_command(Shown("here", "", ["check", "--hurry"], True)), "a mention of a flag that isn't there isn't found")

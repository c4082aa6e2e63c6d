"""The manuals, compared with --help and with docs/CONFIGURATION.md."""
import re
import subprocess
import sys

from cases import case
from documents import OPERATE
from expecting import expect
from installing import commands, options
from tree import PROGRAM, TOP, read

sys.path[1:1] = [OPERATE, f"{TOP}/tests/docs"]
from keys_manual import KEYS, manual
from texts import parsed, ticked


def version():
    return subprocess.run([PROGRAM, "--version"], capture_output=True, text=True).stdout.strip()


def shown(text):
    """A manual as a reader sees it, in one line, and what groff says of it."""
    it = subprocess.run(["groff", "-t", "-man", "-ww", "-Tutf8", "-rLL=2000n"], input=text, capture_output=True, text=True)
    expect(it.returncode == 0 and not it.stderr, f"groff says {it.stderr!r}")
    return re.sub(r"\s+", " ", re.sub(".\b|\x1b\\[[0-9;]*m", "", it.stdout).replace("‐", "-"))


@case("srtgw(1) has the commands and options that --help names")
def of_commands():
    text = read(f"{OPERATE}/srtgw.1").replace("\\-", "-")
    every = set(commands())
    named = set(re.findall(r"\.B srtgw (\w+)", text)) | {"help"} & set(re.findall(r"\[ (\w+)", text))
    expect(named == every, f"it has the commands {sorted(named)}, and --help {sorted(every)}")
    wanted = {it for command in sorted(every - {"help"}) for it in options(command)} | {*options(), "--help"}
    found = set(re.findall(r"--[a-z-]+", text))
    expect(found == wanted, f"it has the options {sorted(found)}, and --help {sorted(wanted)}")
    expect(f'"{version()}"' in text, f"it isn't of {version()}")


@case("srtgw.toml(5) has each key of docs/CONFIGURATION.md, with its limits, default and advice", needs=["groff"])
def of_keys():
    text = shown(manual("/opt/gateway"))
    expect(version() in text and "/opt/gateway/share/srtgw/gateway.toml" in text, f"it isn't of {version()} and its prefix")
    rows = [it for it in parsed(KEYS, read(KEYS)).pieces if it.is_row() and it.head[:2] == ["key", "of"]]
    names = {name for row in rows for name in ticked(row.cells[0])}
    expect({"secret", "bind", "name", "mode", "latency_ms", "publish_key"} <= names, f"the document has the keys {sorted(names)}")
    for row in rows:
        key, _, kind, limits, default, advice = (plain(it) for it in row.cells)
        entry = f"{key} {kind.capitalize()}: {limits}{'' if limits.endswith('.') else '.'} {'Required.' if default == 'required' else f'Default: {default}.'} "
        expect(entry in text, f"no entry {entry!r}")
        first = re.split(r"[.(]", advice)[0].strip()
        expect(first in text, f"{key}: no advice {first!r}")
    for word in re.findall(r"\| \"([^\"]+)\"", read(KEYS)):
        expect(word in text, f"no warning {word!r}")


def plain(cell):
    """A cell without the marks of its form."""
    return re.sub(r"\[([^\]]+)\]\([^)]*\)", r"\1", cell).replace("`", "")


@case("groff takes the manual of commands without a warning", needs=["groff"])
def is_right():
    text = shown(read(f"{OPERATE}/srtgw.1"))
    expect("EXIT STATUS" in text and "srtgw.toml(5)" in text, "it prints no manual")

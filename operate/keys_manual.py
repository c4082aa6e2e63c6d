#!/usr/bin/env python3
"""Prints the manual srtgw.toml(5), made of docs/CONFIGURATION.md, whose table has each key of a configuration.

    operate/keys_manual.py [PREFIX] | man -l -

PREFIX is where the gateway is installed, /usr/local if it isn't given."""
from __future__ import annotations

import os
import re
import sys

TOP = os.path.dirname(os.path.dirname(os.path.realpath(__file__)))
sys.dont_write_bytecode = True
sys.path.append(f"{TOP}/tests/docs")

from texts import TICKED, Block, Document, Piece, parsed

KEYS = f"{TOP}/docs/CONFIGURATION.md"
HEADINGS = {"file": "KEYS OF THE FILE", "route": "KEYS OF A ROUTE"}
LINK = re.compile(r"\[([^\]]+)\]\(([^)]+)\)")
BOLD = re.compile(r"\*\*(.+?)\*\*|\*(.+?)\*")


def escaped(text: str) -> str:
    """A text as roff has it: its dashes are hyphens of commands, and no line of it is a request."""
    return re.sub(r"(?m)^([.'])", r"\\&\1", text.replace("\\", "\\e").replace("-", "\\-"))


def linked(found: re.Match[str]) -> str:
    """What a link becomes: the name of a document, and its words if they are a heading there."""
    document, _, heading = found[2].partition("#")
    return f'{document}, "{found[1]}"' if heading and not document.endswith(f"{found[1]}.md") else document


def words(text: str) -> str:
    """A text of a document as roff has it, in one line: what is between backticks or stars is bold."""
    text = LINK.sub(linked, " ".join(text.split())).replace("bin/srtgw", "srtgw")
    parts, at = [], 0
    for found in TICKED.finditer(text):
        parts += [emphasized(text[at:found.start()]), f"\\fB{escaped(found[2])}\\fR"]
        at = found.end()
    line = "".join([*parts, emphasized(text[at:])])
    return f"\\&{line}" if line.startswith((".", "'")) else line


def emphasized(text: str) -> str:
    return BOLD.sub(lambda it: f"\\fB{it[1] or it[2]}\\fR", escaped(text))


def sentence(text: str) -> str:
    """A cell of a table as a sentence."""
    text = text.strip()
    return text if not text or text.endswith((".", ":")) else f"{text}."


def row_of_key(row: Piece) -> list[str]:
    """The entry of a key: its names, its kind and default, its limits, and the advice."""
    name, _, kind, limits, default, advice = row.cells
    rest = "Required." if default == "required" else f"Default: {default}."
    return [".TP", words(name), words(f"{sentence(f'{kind.capitalize()}: {limits}')} {rest}"), ".br", words(sentence(advice))]


def row_of_warning(row: Piece) -> list[str]:
    """The entry of a warning: its key, its words, and when it is printed."""
    key, warning, when = row.cells
    return [".TP", words(key), words(sentence(f"{warning}: {when}" if when else warning))]


def block(it: Block) -> list[str]:
    return [".PP", ".RS 4", ".nf", *(escaped(line) for line in it.lines if line), ".fi", ".RE"]


def paragraphs(document: Document) -> list[str]:
    """What stands outside of tables, in its order: paragraphs and blocks. A paragraph that begins in bold begins a section."""
    found: list[str] = []
    texts = [it for it in document.pieces if not it.is_row() and not it.cells[0].startswith("#")]
    for it in sorted([*texts, *document.blocks], key=lambda it: it.line):
        if isinstance(it, Block):
            found += block(it)
            continue
        head, text = re.match(r"(?s)(?:\*\*(\w+)\.\*\* )?(.*)", it.cells[0]).groups()
        found += [f".SH {head.upper()}"] if head else [".PP"]
        found.append(words(text))
    return found


def example() -> list[str]:
    """The first route of examples/gateway.toml, with the keys of the file, without comments."""
    with open(f"{TOP}/examples/gateway.toml", encoding="utf-8") as file:
        lines = [it for it in file.read().splitlines() if it and not it.startswith("#")]
    second = [at for at, it in enumerate(lines) if it == "[[route]]"][1]
    return [".SH EXAMPLE", ".nf", *(escaped(it) for it in lines[:second]), ".fi"]


def title() -> str:
    """The first line: date and version are those of srtgw(1)."""
    with open(f"{TOP}/operate/srtgw.1", encoding="utf-8") as file:
        _, _, _, date, version = re.match(r'(\.TH) (\w+) (\d) (\S+) ("[^"]+")', file.readline()).groups()
    return f'.TH SRTGW.TOML 5 {date} {version} "File formats"'


def manual(prefix: str = "/usr/local") -> str:
    """The manual for a gateway that is installed at this prefix."""
    with open(KEYS, encoding="utf-8") as file:
        document = parsed(KEYS, file.read().replace("`examples/", f"`{prefix}/share/srtgw/"))
    rows = [it for it in document.pieces if it.is_row()]
    keys = [it for it in rows if it.head[:2] == ["key", "of"]]
    warnings = [it for it in rows if it.head[:2] == ["key", "warning"]]
    texts = paragraphs(document)
    first = texts.index(".SH FAULTS")
    lines = [title(), ".SH NAME", "srtgw.toml \\- configuration of the gateway", ".SH DESCRIPTION", *texts[1:first]]
    for of, heading in HEADINGS.items():
        lines += [f".SH {heading}", *(line for it in keys if it.cells[1] == of for line in row_of_key(it))]
    lines += [*texts[first:], *(line for it in warnings for line in row_of_warning(it)), *example()]
    lines += [".SH FILES", ".TP", ".I /etc/srtgw/gateway.toml", "what the service reads.", ".TP", f".I {escaped(prefix)}/share/srtgw/gateway.toml",
              "a configuration to start from.", ".TP", f".I {escaped(prefix)}/share/doc/srtgw", "the documents that are named here."]
    lines += [".SH \"SEE ALSO\"", ".BR srtgw (1)"]
    return "\n".join(lines) + "\n"


if __name__ == "__main__":
    print(manual(*sys.argv[1:2]), end="")

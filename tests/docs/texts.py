"""The documents as sections, rows of tables, paragraphs and blocks of code."""
import re
from dataclasses import dataclass, field
from typing import List, Set, Tuple

TICKED = re.compile(r"(`+)(.+?)\1")


@dataclass
class Piece:
    """A paragraph, list or row of a table: the line that it begins in, its cells (one if it is no row), and its section."""

    line: int
    cells: List[str]
    section: str
    head: List[str] = field(default_factory=list)

    def is_row(self) -> bool:
        return bool(self.head)

    def text(self) -> str:
        return " | ".join(self.cells)


@dataclass
class Block:
    """A block of code, fenced or indented, with the number of its first line."""

    line: int
    lines: List[str]


@dataclass
class Document:
    """A document's pieces and blocks, and the crates that its sections name in their headings."""

    path: str
    text: str
    pieces: List[Piece] = field(default_factory=list)
    blocks: List[Block] = field(default_factory=list)

    def name(self) -> str:
        return self.path.rsplit("/", 1)[-1]


def cells_of(line: str) -> List[str]:
    """The cells of a row; a bar between backticks parts nothing."""
    held = TICKED.sub(lambda it: it.group(0).replace("|", "\0"), line.strip())
    return [it.strip().replace("\0", "|") for it in held.strip("|").split("|")]


def ticked(text: str) -> List[str]:
    """What stands between backticks."""
    return [it.group(2).strip() for it in TICKED.finditer(text)]


def crates_in(text: str, known: Set[str]) -> Set[str]:
    """The crates that a text names between backticks, alone or at the front of a path."""
    return {it.split("::")[0] for it in ticked(text)} & known


def is_indented(line: str, before: str) -> bool:
    return line.startswith("    ") and not re.match(r"\s*([-*]|\d+\.) ", before)


@dataclass
class Parser:
    """Reads a document line by line."""

    document: Document
    section: str = ""
    head: Tuple[str, ...] = ()
    is_fenced: bool = False
    is_open: bool = False

    def block(self, number: int, line: str, is_new: bool) -> None:
        if is_new:
            self.document.blocks.append(Block(number, []))
        self.document.blocks[-1].lines.append(line)

    def row(self, number: int, line: str) -> None:
        cells = cells_of(line)
        if not self.head:
            self.head = tuple(cells)
        elif not all(re.fullmatch(r":?-+:?", it) for it in cells):
            self.document.pieces.append(Piece(number, cells, self.section, list(self.head)))

    def prose(self, number: int, line: str) -> None:
        if line.startswith("#"):
            self.section, self.is_open = line.strip("# "), False
            self.document.pieces.append(Piece(number, [line], self.section))
        elif not line.strip():
            self.is_open = False
        elif self.is_open and not re.match(r"([-*]|\d+\.) ", line):
            self.document.pieces[-1].cells[0] += "\n" + line
        else:
            self.is_open = True
            self.document.pieces.append(Piece(number, [line], self.section))


def parsed(path: str, text: str) -> Document:
    """A document's parts."""
    parser, before, is_block = Parser(Document(path, text)), "", False
    for number, line in enumerate(text.splitlines(), 1):
        if line.startswith("```"):
            parser.is_fenced, is_block = not parser.is_fenced, False
            continue
        if parser.is_fenced or (is_indented(line, before) and (is_block or not before.strip())):
            parser.block(number, line if parser.is_fenced else line[4:], not is_block)
            is_block = True
            continue
        if is_block and not line.strip():
            parser.block(number, "", False)
            before = line
            continue
        is_block = False
        if line.startswith("|"):
            parser.is_open = False
            parser.row(number, line)
        else:
            parser.head = ()
            parser.prose(number, line)
        before = line
    return parser.document

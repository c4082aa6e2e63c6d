"""Whether what a document names between backticks exists: files, functions, clauses, definitions, crates."""
import fnmatch
import itertools
import os
import re
from dataclasses import dataclass, field
from typing import Dict, Iterable, List, Optional, Set, Tuple

from index import WORD, Index, Item
from texts import TICKED, Document, Piece, crates_in, ticked

CHOICE = r"(?:\{[\w, .]+\})?"
ENDING = r"[\w\-*]+\.(?:rt|antt|md|toml|tape|out|txt|py|c|edit)"
PATH = re.compile(rf"[\w.\-+*]*{CHOICE}/[\w.\-/+*]*{CHOICE}[\w.\-/+*]*|{ENDING}")
PLACEHOLDER = re.compile(r"\b(?:NAME|CRATE|CASE|EDIT|TAPE|FILE|plain_name(?=\.edit))\b")
CODE_PATH = re.compile(r"\w+(?:::(?:\w+|\{[\w, ]+\}))+")
CALL_KINDS = ("function", "definition", "type")
GROUP = re.compile(r"`([^`]+)`|\(([^()]*)\)|([;,:.])|([^`();,:.]+)")
DIGITS = re.compile(r"[0-9a-f]*[0-9][0-9a-f]*|ffff|[0-9a-f]{8}|0x[0-9a-f_]+")


def choices(text: str) -> List[str]:
    """The texts that `a{b, c}d` stands for."""
    found = re.search(r"\{([^{}]*)\}", text)
    if not found:
        return [text]
    inner = [it.strip() for it in found.group(1).split(",")]
    return list(itertools.chain.from_iterable(choices(text[: found.start()] + it + text[found.end():]) for it in inner))


def read_words(text: str) -> Dict[str, str]:
    """The names from outside the tree that documents use, each with what it is. A line is `NAME NAME ..: what they are`."""
    pairs = (line.partition(": ") for line in text.splitlines() if line.strip() and not line.startswith("#"))
    return {word: what for names, _, what in pairs for word in names.split()}


@dataclass
class Resolver:
    """Looks names up in an index; a name of `words` is one from outside."""

    index: Index
    words: Dict[str, str]
    used: Set[str] = field(default_factory=set)
    folders: List[str] = field(default_factory=list)
    beside: Dict[str, Set[str]] = field(default_factory=dict)
    is_loose: bool = False
    has_proofs: bool = False

    # ---- files ----

    def roots(self, crates: Set[str]) -> Iterable[str]:
        yield from ("", *(f"{it}/" for it in self.folders))
        for crate in sorted(crates or self.index.crates):
            yield from (f"crates/{crate}/", f"crates/{crate}/src/")
        yield from ("crates/", "crates/srt_")

    def has_path(self, path: str, crates: Set[str]) -> bool:
        """Whether a path, relative to the tree, the document, a crate or its src/, is a file or a folder."""
        path = PLACEHOLDER.sub("*", path.rstrip("/"))
        if path.startswith("/"):
            return True
        for root in self.roots(crates):
            full = os.path.normpath(root + path)
            if full in self.index.files or full in self.index.folders:
                return True
            if "*" in full and self.matches(full):
                return True
        return any(self.is_beside(path, it) for it in self.folders)

    def matches(self, pattern: str) -> bool:
        looked = re.compile(fnmatch.translate(pattern)).match
        return any(looked(it) for it in self.index.files) or any(looked(it) for it in self.index.folders)

    def is_beside(self, name: str, folder: str) -> bool:
        """Whether a word is the name, without its ending, of a file beside the document, or ends in `_` and begins such names."""
        if folder not in self.beside:
            inside = (it for it in self.index.files | self.index.folders if os.path.dirname(it) == folder)
            self.beside[folder] = {os.path.basename(it).split(".")[0] for it in inside}
        known = self.beside[folder]
        return "/" not in name and (name in known or name.endswith("_") and any(it.startswith(name) for it in known))

    def has_file(self, name: str, crates: Set[str]) -> bool:
        """A path, or the bare name of a file: of code or definitions of some crate (of `crates`, if some are given)."""
        if self.has_path(name, crates):
            return True
        if "/" in name:
            return False
        if not name.endswith((".rt", ".antt")):
            return name in self.index.basenames
        inside = (it for it in self.index.files if it.startswith("crates/") and it.endswith(f"/{name}"))
        return any(not crates or it.split("/")[1] in crates for it in inside)

    # ---- names of code ----

    def is_outside(self, name: str) -> bool:
        if name in self.words:
            self.used.add(name)
            return True
        return False

    def within(self, crate: str, rest: List[str]) -> bool:
        """Whether a path after a crate's name is in it."""
        if not rest:
            return True
        crates = {crate}
        if len(rest) == 1:
            return bool(self.index.named(rest[0], crates))
        return self.member(rest[0], rest[-1], crates)

    def member(self, owner: str, name: str, crates: Optional[Set[str]]) -> bool:
        """Whether `owner::name` is there: a method, field or variant of a type, or an item of a module's file."""
        for item in self.index.named(name, crates):
            stem = os.path.splitext(os.path.basename(item.file))[0]
            parent = os.path.basename(os.path.dirname(item.file))
            if item.owner == owner or (owner in (stem, parent) and item.kind != "module"):
                return True
        return False

    def has_code_path(self, path: str, crates: Optional[Set[str]]) -> bool:
        parts = path.split("::")
        for prefix in ("", "srt_"):
            if prefix + parts[0] in self.index.crates:
                return self.within(prefix + parts[0], parts[1:])
        if self.member(parts[-2], parts[-1], crates):
            return True
        outside = parts[0] in self.index.imported and not self.index.named(parts[0])
        return outside and parts[-1] in self.index.tokens

    def has_name(self, name: str, crates: Optional[Set[str]] = None) -> bool:
        """Whether a single name is an item (of these crates), a crate or a word from outside."""
        if name in self.index.crates or self.index.named(name, crates) or self.is_outside(name):
            return True
        return any(name in uses for uses in self.index.crates.values())

    def has_word(self, name: str) -> bool:
        """Whether a word of an expression is a name, a word that a program says or one that the code imports. Single letters
        and words in capitals stand for anything, or are names of the draft."""
        if len(name.strip("'")) == 1 or (name.isupper() and "_" not in name) or DIGITS.fullmatch(name):
            return True
        if self.has_name(name) or name in self.index.said or name in self.index.imported or name in self.index.tests:
            return True
        if (self.is_loose or self.has_proofs) and name in self.index.lemmas:
            return True
        return name in self.index.edits or self.is_loose and name in self.index.tokens

    # ---- what stands between backticks ----

    def lacks(self, text: str, crates: Set[str], strict: bool = False) -> Optional[str]:
        """What a text between backticks names that isn't there; None if all is. Documents of proofs and of the past are looked
        at for files, paths and single names alone."""
        narrow = crates if strict and crates else None
        if self.is_loose and not (PATH.fullmatch(text) or CODE_PATH.fullmatch(text) or WORD.fullmatch(text)):
            return None
        if self.is_outside(text) or not WORD.search(text):
            return None
        if PATH.fullmatch(text):
            missing = [it for it in choices(text) if not self.has_file(it, crates)]
            return ", ".join(missing) or None
        if CODE_PATH.fullmatch(text):
            missing = [it for it in choices(text) if not self.has_code_path(it, narrow)]
            return ", ".join(missing) or None
        if WORD.fullmatch(text):
            known = self.has_name(text, narrow) if narrow else self.has_word(text)
            return None if known or self.has_path(text, crates) else text
        missing = [it for chunk in text.split() for it in self.missing_in(chunk, crates)]
        return ", ".join(missing) or None

    def missing_in(self, chunk: str, crates: Set[str]) -> List[str]:
        """What a part of an expression names that isn't there. The words of command lines are `commands`' matter."""
        bare = chunk.strip("`'(),;:")
        if chunk.startswith("-") or self.is_outside(bare) or "/" in bare and PATH.fullmatch(bare) and self.has_path(bare, crates):
            return []
        paths = re.findall(r"\w+(?:::\w+)+", chunk)
        rest = re.sub(r"\w+(?:::\w+)+", "", chunk)
        missing = [it for it in paths if not self.has_code_path(it, None)]
        return missing + [it for it in WORD.findall(rest) if not self.has_word(it)]


# ---- the tables of docs/MODEL.md and of the crates' MODEL.md ----


def names_of_file(index: Index, path: str) -> Set[str]:
    return {it.name for items in index.items.values() for it in items if it.file == path}


def wrong_definitions(resolver: Resolver, piece: Piece, crate: str) -> List[str]:
    """A row of definitions: each stands in one of the row's files, and each file has one of them."""
    wrong, names = [], [re.split(r"[ (]", it)[0] for it in ticked(piece.cells[0])]
    files = [f"crates/{crate}/{it}" for cell in piece.cells[2:] for it in ticked(cell)]
    found = {path: names_of_file(resolver.index, path) for path in files}
    wrong += [f"no file {it[len('crates/'):]}" for it in files if it not in resolver.index.files]
    for name in names:
        if not any(name in it for it in found.values()):
            wrong.append(f"no definition {name} in {', '.join(os.path.basename(it) for it in files)}")
    for path, inside in found.items():
        if path in resolver.index.files and not inside & set(names):
            wrong.append(f"{os.path.basename(path)} has none of {', '.join(names)}")
    return wrong


def named_files(resolver: Resolver, documents: List[Document]) -> Dict[str, str]:
    """The files of definitions that rows name, each with the path of the document."""
    found: Dict[str, str] = {}
    for document in documents:
        crates = sections(document, set(resolver.index.crates))
        rows = [(crates[at], it) for at, it in enumerate(document.pieces) if is_table(it, "definition", "file")]
        found.update({f"crates/{crate}/{file}": document.path for crate, row in rows for file in ticked(row.cells[-1])})
    return found


def unreached(resolver: Resolver, documents: List[Document]) -> Tuple[int, List[str]]:
    """The files of definitions that rows name, and those that they use, directly or by others, and that no row names."""
    index, named = resolver.index, set(named_files(resolver, documents))
    found, todo = set(named), list(named)
    while todo:
        more = index.uses.get(todo.pop(), set()) - found
        found, todo = found | more, todo + list(more)
    return len(named), [f"no row of {it[len('crates/'):]}, which the files of other rows use" for it in sorted(found - named)]


@dataclass
class Calls:
    """Reads a cell "carried by": calls, each group of them with clauses of its contract in parentheses."""

    resolver: Resolver
    crate: str
    group: List[List[Item]] = field(default_factory=list)
    owner: str = ""
    others: Set[str] = field(default_factory=set)
    wrong: List[str] = field(default_factory=list)

    def call(self, text: str) -> None:
        index, parts = self.resolver.index, re.sub(r"[ (<].*", "", text).split("::")
        crate = parts[0] if parts[0] in index.crates else self.crate
        parts = parts[1:] if parts[0] in index.crates else parts
        if not parts:
            return
        found = [it for it in index.named(parts[-1], {crate}) if it.kind in CALL_KINDS]
        if len(parts) > 1:
            self.owner = parts[-2]
            found = [it for it in found if self.owner in (it.owner, os.path.splitext(os.path.basename(it.file))[0])]
        elif any(it.owner == self.owner for it in found):
            found = [it for it in found if it.owner == self.owner]
        found = found or [it for it in index.named(parts[-1], self.others) if len(parts) == 1 and it.kind in CALL_KINDS]
        if not found and (WORD.fullmatch(text) or self.resolver.lacks(text, {crate}, strict=True)):
            self.wrong.append(f"no {text} in {crate}")
        self.group.append(found)

    def has_clause(self, items: List[Item], name: str) -> bool:
        files = {it.file for it in items if it.kind == "definition"}
        parts = self.resolver.index.named(name)
        return any(name in it.clauses for it in items) or any(it.file in files and it.kind == "part" for it in parts)

    def clauses(self, text: str) -> None:
        """Clauses in parentheses. Those of a list of clauses alone are each a clause of the call before them."""
        names = ticked(text)
        is_list = not re.sub(r"[\s,;]|and|by cases", "", TICKED.sub("", text))
        before = self.group[-1] if self.group else []
        for at, name in enumerate(names):
            if self.has_clause(before, name) or any(self.has_clause(it, name) for it in self.group) and not is_list:
                continue
            is_clause = is_list or (at == 0 and text.lstrip().startswith("`"))
            if is_clause or self.resolver.lacks(name, {self.crate}, strict=True):
                called = ", ".join(sorted({it.name for it in before})) or "a call"
                self.wrong.append(f"no clause {name} of {called} in {self.crate}")

    def read(self, cell: str) -> List[str]:
        self.others = crates_in(cell, set(self.resolver.index.crates))
        for name, inner, mark, words in GROUP.findall(cell):
            if name:
                self.call(name)
            elif inner:
                self.clauses(inner)
                self.group = [self.group[-1]] if self.group else []
            elif mark == ";":
                self.group, self.owner = [], ""
        return self.wrong


def crate_of_section(document: Document, section: str, crates: Set[str]) -> str:
    named = sorted(crates_in(section, crates))
    return named[0] if len(named) == 1 else ""


def sections(document: Document, crates: Set[str]) -> Dict[int, str]:
    """The crate that each piece stands under: that of the last heading which names one, until a heading of its rank."""
    current, rank, found = "", 0, {}
    for at, piece in enumerate(document.pieces):
        if piece.cells[0].startswith("#"):
            here = len(piece.cells[0]) - len(piece.cells[0].lstrip("#"))
            named = crate_of_section(document, piece.cells[0], crates)
            if named or here <= rank:
                current, rank = named, here
        found[at] = current
    return found


def is_table(piece: Piece, first: str, last: str) -> bool:
    return piece.is_row() and piece.head[0] == first and piece.head[-1] == last


def wrong_statement(resolver: Resolver, piece: Piece) -> List[str]:
    """What is wrong with a row of docs/MODEL.md: crate, statement, calls with their clauses, definitions with their files."""
    named = ticked(piece.cells[0])
    if not named or named[0] not in resolver.index.crates:
        return [f"no crate {piece.cells[0]}"]
    cells = ticked(piece.cells[-1])
    files = [it for it in cells if it.endswith(".antt")]
    row = Piece(piece.line, [" ".join(f"`{it}`" for it in cells if it not in files), "", " ".join(f"`{it}`" for it in files)], piece.section)
    return Calls(resolver, named[0]).read(piece.cells[2]) + wrong_definitions(resolver, row, named[0])


def wrong_row(resolver: Resolver, piece: Piece, crate: str) -> Optional[List[str]]:
    """What is wrong with a row of definitions, of promises or of statements; None if the piece is neither."""
    if crate and is_table(piece, "definition", "file"):
        return wrong_definitions(resolver, piece, crate)
    if crate and is_table(piece, "promise", "carried by"):
        return Calls(resolver, crate).read(piece.cells[1])
    if is_table(piece, "crate", "defined in"):
        return wrong_statement(resolver, piece)
    return None


def wrong_place(resolver: Resolver, piece: Piece) -> List[str]:
    """A row of terms with the files in which they stand: each file is there and has one of the names."""
    if not (piece.is_row() and piece.head[-1] == "where it stands"):
        return []
    wrong = []
    names = {part for it in ticked(piece.cells[1]) for part in WORD.findall(it)}
    for path in ticked(piece.cells[-1]):
        full = next((it for it in (f"crates/srt_{path}", f"crates/{path}") if it in resolver.index.files), "")
        text = resolver.index.text(full)
        if full and not any(re.search(rf"\b{re.escape(it)}\b", text) for it in names):
            wrong.append(f"{path} has none of {', '.join(sorted(names))}")
    return wrong


def wrong_edits(resolver: Resolver, piece: Piece) -> List[str]:
    """A row of wrong bodies: the edits before *also* are of one of the row's crates, and the others stand somewhere."""
    if not is_table(piece, "wrong body", "edit"):
        return []
    crates, edits = ticked(piece.cells[1]), resolver.index.edits
    wrong = [f"no edit {it}" for it in ticked(piece.cells[2]) if it not in edits and it not in resolver.index.crates]
    for name in ticked(piece.cells[2].partition("also")[0]):
        places = {f"{folder}/{name}.edit" for it in crates for folder in (f"crates/{it}/must-fail", f"tests/edits/{it}")}
        if name in edits and not edits[name] & places:
            wrong.append(f"{name} isn't an edit of {' or '.join(crates)}")
    return wrong


def wrong_names(resolver: Resolver, document: Document) -> Tuple[int, List[str]]:
    """How many names a document has between backticks, and which of them aren't there, each with its line."""
    count, wrong = 0, []
    crates = sections(document, set(resolver.index.crates))
    for at, piece in enumerate(document.pieces):
        crate = crates[at]
        found = wrong_row(resolver, piece, crate)
        wrong += [f"{piece.line}: {it}" for it in (found or []) + wrong_place(resolver, piece) + wrong_edits(resolver, piece)]
        here = {crate} if crate else set()
        resolver.has_proofs = "proofs/" in piece.text()
        folders = [it for it in ticked(piece.text()) if it in resolver.index.folders]
        resolver.folders = [os.path.dirname(document.path) or ".", *folders]
        for cell_at, cell in enumerate(piece.cells):
            count += len(ticked(cell))
            if found is not None and cell_at != 1:
                continue
            if found is not None and piece.head[-1] == "carried by":
                continue
            lacks = (resolver.lacks(it, here) for it in ticked(cell))
            wrong += [f"{piece.line}: no {it}" for it in lacks if it]
    for block in document.blocks:
        for offset, line in enumerate(block.lines):
            named = re.findall(r"(?<![\w/.])\w+\.(?:rt|antt)\b", line)
            wrong += [f"{block.line + offset}: no file {it}" for it in named if not resolver.has_file(it, set())]
    return count, list(dict.fromkeys(wrong))

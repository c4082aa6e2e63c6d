"""What exists in a tree: its files, the items of the crates' code with the clauses of their contracts, the definitions of specs/
and the lemmas of proofs/. The texts of code are read line by line; they are laid out by `rt fmt`, which the gate checks."""
import os
import re
from dataclasses import dataclass, field
from typing import Dict, Iterator, List, Optional, Set, Tuple

SKIPPED = {"out", ".git", "__pycache__", "node_modules"}
WORD = re.compile(r"[A-Za-z_][A-Za-z0-9_]*(?:-[A-Za-z0-9_]+)*'*")
RUST_COMMENT = re.compile(r"//.*")
STRING = re.compile(r'"(?:[^"\\]|\\.)*"')
FUNCTION = re.compile(r"\bfn (\w+)")
CLAUSE = re.compile(r"^\s*(?:requires|ensures)(?: (\w+))? \{")
TYPE = re.compile(r"\b(?:struct|enum|trait|type|union) (\w+)")
CONSTANT = re.compile(r"\b(?:const|static) (\w+):")
MODULE = re.compile(r"\bmod (\w+)")
GHOST = re.compile(r"\bghost(?: fn)? (\w+)\s*[:=({]")
MEMBER = re.compile(r"^\s*(?:pub(?:\(\w+\))? )?(\w+)(?::|,|\(| \{|$)")
OWNER = re.compile(r"^(?:pub )?(?:unsafe )?(?:impl|trait)\b(.*)")
MARKED = r"(?:(?:abbrev|unfoldable|opaque|pub|where|inline) )*(?:record |data |module )?"
# A definition may stand in a module with parameters, a step to the right.
DEFINITION = re.compile(rf"^(?:  (?=abbrev |unfoldable |opaque ))?{MARKED}([^\s(){{}}:]+)(?: .*)? :(?: |$)")
RECORD = re.compile(r"^(?:pub )?(record|data) (\S+)")
USE = re.compile(r"^(?:pub )?use Rattle\.(srt\w*)\.specs\.((?:inside\.)?\w+)", re.MULTILINE)
INNER = re.compile(r"^\s+(?:pub )?([^\s(){}:]+)(?: \{.*\})? :(?: |$)")


@dataclass(frozen=True)
class Item:
    """A function, type, constant, field, variant or module of the code, or a definition, constructor or field of specs/."""

    name: str
    kind: str
    crate: str
    file: str
    owner: str = ""
    clauses: Tuple[str, ...] = ()

    def is_law(self) -> bool:
        """Whether it is a function of a crate's laws.rt."""
        return self.kind == "function" and self.file == f"crates/{self.crate}/src/laws.rt"


@dataclass
class Index:
    """All that exists in the tree under `top`. `changed` has texts that stand in place of files' own."""

    top: str
    changed: Dict[str, str] = field(default_factory=dict)
    files: Set[str] = field(default_factory=set)
    folders: Set[str] = field(default_factory=set)
    crates: Dict[str, List[str]] = field(default_factory=dict)
    items: Dict[str, List[Item]] = field(default_factory=dict)
    tokens: Set[str] = field(default_factory=set)
    imported: Set[str] = field(default_factory=set)
    lemmas: Set[str] = field(default_factory=set)
    said: Set[str] = field(default_factory=set)
    tests: Set[str] = field(default_factory=set)
    basenames: Set[str] = field(default_factory=set)
    uses: Dict[str, Set[str]] = field(default_factory=dict)
    edits: Dict[str, Set[str]] = field(default_factory=dict)

    def text(self, path: str) -> str:
        """A file's text; empty if there is no such file."""
        full = f"{self.top}/{path}"
        if path in self.changed:
            return self.changed[path]
        if not os.path.isfile(full):
            return ""
        with open(full, encoding="utf-8", errors="replace") as opened:
            return opened.read()

    def add(self, item: Item) -> None:
        self.items.setdefault(item.name, []).append(item)

    def named(self, name: str, crates: Optional[Set[str]] = None) -> List[Item]:
        """The items of this name, in these crates only if some are given."""
        return [it for it in self.items.get(name, []) if crates is None or it.crate in crates]


def walked(top: str) -> Iterator[Tuple[str, List[str]]]:
    """The folders of a tree, relative to it, with the names of their files."""
    for folder, inner, names in os.walk(top):
        inner[:] = sorted(it for it in inner if it not in SKIPPED)
        yield os.path.relpath(folder, top), sorted(names)


def crate_of(path: str) -> str:
    parts = path.split("/")
    return parts[1] if parts[0] == "crates" and len(parts) > 2 else ""


def owner_in(line: str) -> Optional[str]:
    """The type or trait that an `impl` or `trait` block is of; None if the line begins no such block."""
    found = OWNER.match(line)
    if not found:
        return None
    rest = re.sub(r"<[^<>]*>", "", re.sub(r"<[^<>]*>", "", found.group(1)))
    rest = rest.split(" for ")[-1] if " for " in rest else rest
    word = re.search(r"(\w+)", rest.split(" where ")[0])
    return word.group(1) if word else ""


@dataclass
class Reader:
    """Reads one file of code: the block that each line stands in, and the function whose contract it may belong to."""

    index: Index
    crate: str
    file: str
    owner: str = ""
    body: str = ""
    function: Optional[List[str]] = None
    clauses: List[str] = field(default_factory=list)

    def close(self) -> None:
        if self.function:
            name, owner = self.function
            self.index.add(Item(name, "function", self.crate, self.file, owner, tuple(self.clauses)))
        self.function, self.clauses = None, []

    def outer(self, line: str) -> None:
        """A line that begins at the left: a new block, or the end of one."""
        owner = owner_in(line)
        if owner is not None:
            self.owner = owner
            if line.startswith(("trait", "pub trait")):
                self.index.add(Item(owner, "type", self.crate, self.file))
            return
        if line.startswith("}"):
            self.owner = self.body = ""
        for name in TYPE.findall(line):
            self.index.add(Item(name, "type", self.crate, self.file))
            self.body = name if line.rstrip().endswith(("{", "where")) else ""

    def read(self, line: str) -> None:
        if line[:1] not in ("", " ", "\t"):
            self.outer(line)
        name = FUNCTION.search(line)
        if name and not line.lstrip().startswith("ghost use"):
            self.close()
            self.function = [name.group(1), self.owner]
            return
        clause = CLAUSE.match(line)
        if clause and self.function:
            self.clauses.append(clause.group(1) or "")
        for kind, pattern in (("constant", CONSTANT), ("module", MODULE), ("ghost", GHOST)):
            for found in pattern.findall(line):
                self.index.add(Item(found, kind, self.crate, self.file, self.owner or self.body))
        member = MEMBER.match(line) if self.body and re.match(r"    (?:    )?\S", line) else None
        if member:
            self.index.add(Item(member.group(1), "member", self.crate, self.file, self.body))


def read_code(index: Index, path: str) -> None:
    text = index.text(path)
    reader = Reader(index, crate_of(path), path)
    stem = os.path.basename(path)[: -len(".rt")]
    index.add(Item(stem, "module", reader.crate, path))
    for line in text.splitlines():
        bare = RUST_COMMENT.sub("", STRING.sub('""', line))
        index.said.update(word for text in STRING.findall(line) for word in WORD.findall(text))
        index.tokens.update(WORD.findall(bare))
        if re.match(r"\s*(?:pub )?use ", bare):
            index.imported.update(WORD.findall(bare))
        reader.read(bare)
    reader.close()


def read_definitions(index: Index, path: str) -> None:
    """Reads a file of specs/: its definitions, and the constructors and fields of its records and data types."""
    crate, owner, text = crate_of(path), "", index.text(path)
    used = {f"crates/{below}/specs/{file.replace('.', '/')}.antt" for below, file in USE.findall(text)}
    index.uses[path] = used & index.files
    for line in text.splitlines():
        if line.startswith("--"):
            continue
        index.tokens.update(WORD.findall(line.split(" -- ")[0]))
        record = RECORD.match(line)
        found = DEFINITION.match(line)
        if record:
            owner = record.group(2)
            index.add(Item(owner, "definition", crate, path))
        elif found and not line.startswith("use "):
            owner = ""
            index.add(Item(found.group(1), "definition", crate, path))
        elif owner and INNER.match(line):
            index.add(Item(INNER.match(line).group(1), "part", crate, path, owner))


def read_script(index: Index, path: str) -> None:
    """The words that a script says or looks for."""
    index.said.update(word for text in STRING.findall(index.text(path)) for word in WORD.findall(text))


def is_test(path: str) -> bool:
    """Whether a file of a crate has tests alone."""
    return "/src/tests/" in path or path.endswith("tests.rt")


def read_lemmas(index: Index, path: str) -> None:
    for line in index.text(path).splitlines():
        index.tokens.update(WORD.findall(line.split("-- ")[0]))
        found = DEFINITION.match(line)
        if found and not line.startswith(("use ", "--")):
            index.lemmas.add(found.group(1))


def read_crates(index: Index) -> None:
    """The crates and what each uses, by crates.txt."""
    for line in index.text("crates.txt").splitlines():
        head, colon, uses = line.partition(":")
        if colon:
            index.crates[head.split()[0]] = uses.split()


def index_of(top: str, changed: Optional[Dict[str, str]] = None) -> Index:
    """Reads a tree."""
    index = Index(top, changed or {})
    for folder, names in walked(top):
        index.folders.add(folder)
        index.files.update(os.path.normpath(f"{folder}/{it}") for it in names)
    index.basenames = {os.path.basename(it) for it in index.files}
    for path in index.files:
        if path.endswith(".edit"):
            index.edits.setdefault(os.path.basename(path)[: -len(".edit")], set()).add(path)
    index.tests = {os.path.basename(it) for it in index.folders if os.path.dirname(it) == "tests/cli"}
    read_crates(index)
    for path in sorted(index.files):
        parts = path.split("/")
        if parts[0] in ("bin", "tests") and (path.endswith((".py", "/run")) or parts[0] == "bin"):
            read_script(index, path)
        if parts[0] != "crates" or len(parts) < 4:
            continue
        if path.endswith(".rt") and is_test(path):
            index.tests.update(FUNCTION.findall(index.text(path)))
        elif path.endswith(".rt"):
            read_code(index, path)
        elif path.endswith(".antt") and parts[2] == "specs":
            read_definitions(index, path)
        elif path.endswith(".antt"):
            read_lemmas(index, path)
    return index

"""Which definitions one has to read who checks what is promised: those that public contracts, laws and a MODEL.md cite stand in specs/,
and those that only proofs and internal functions need in specs/inside/."""
import os
import re
from dataclasses import dataclass, field
from typing import Dict, List, Set, Tuple

from index import RUST_COMMENT, Index, crate_of, is_test, owner_in

IMPORT = re.compile(r"ghost use Rattle\.(srt\w*)\.specs\.([\w.]+)\.\{([^}]*)\};")
NAME = re.compile(r"[^\s(){}\[\].;,@«»⟦⟧<>:]+")
FUNCTION = re.compile(r"\s*(pub(?:\(\w+\))? )?(?:const )?(?:unsafe )?fn (\w+)")
CLAUSES = re.compile(r"\s*(?:requires|ensures)\b")
GHOST = re.compile(r"\s*(?:pub )?ghost \w+(?: =|:) \{")
INSIDE = "/specs/inside/"


@dataclass
class Exports:
    """What a crate's lib.rt hands out: names, and modules whose public functions all are."""

    names: Set[str] = field(default_factory=set)
    modules: Set[str] = field(default_factory=set)


def exports_of(index: Index, crate: str) -> Exports:
    text = RUST_COMMENT.sub("", index.text(f"crates/{crate}/src/lib.rt"))
    found = Exports(modules=set(re.findall(r"^pub mod (\w+)", text, re.MULTILINE)))
    for used in re.findall(r"^pub use ([^;]*);", text, re.MULTILINE):
        found.names.update(re.findall(r"(\w+)(?=\s*(?:[,}]|$))", used))
    return found


def imports_of(text: str) -> Dict[str, Tuple[str, str]]:
    """The file of each definition that a file of code brings in, by the name that it has there."""
    found: Dict[str, Tuple[str, str]] = {}
    for crate, module, names in IMPORT.findall(text):
        path = f"crates/{crate}/specs/{module.replace('.', '/')}.antt"
        for name in names.split(","):
            own, _, here = name.strip().partition(" as ")
            found[here or own] = (path, own)
    return found


@dataclass
class Clauses:
    """Reads the contracts of a file's exported functions, and the ghost functions of its exported types."""

    exports: Exports
    module: str
    owner: str = ""
    is_trait: bool = False
    is_public: bool = False
    depth: int = 0
    names: Set[str] = field(default_factory=set)

    def begin(self, line: str) -> None:
        owner = owner_in(line)
        if owner is not None:
            self.owner, self.is_trait = owner, " for " in line or "trait " in line
        elif line.startswith("}"):
            self.owner = ""
        found = FUNCTION.match(line)
        if found:
            is_public = found.group(1) == "pub " or (self.is_trait and bool(self.owner))
            is_handed = self.owner in self.exports.names if self.owner else found.group(2) in self.exports.names
            self.is_public = is_public and (is_handed or self.module in self.exports.modules)

    def read(self, line: str) -> None:
        if line[:1].strip() or FUNCTION.match(line):
            self.begin(line)
        is_ghost = bool(GHOST.match(line)) and self.owner in self.exports.names
        if self.depth > 0 or is_ghost or (CLAUSES.match(line) and self.is_public):
            self.names.update(NAME.findall(line))
            self.depth = max(0, self.depth + line.count("{") - line.count("}"))


def cited_by(index: Index, path: str) -> Set[Tuple[str, str]]:
    """The definitions that a file's public contracts cite, each with its file."""
    crate, text = crate_of(path), index.text(path)
    reader = Clauses(exports_of(index, crate), os.path.basename(path)[: -len(".rt")])
    for line in text.splitlines():
        reader.read(RUST_COMMENT.sub("", line))
    imports = imports_of(text)
    return {imports[it] for it in reader.names if it in imports}


def wrong_places(index: Index, named: Dict[str, str]) -> Tuple[int, List[str]]:
    """How many files stand in specs/inside/, and definitions that stand in the wrong place. `named` has the files of definitions
    that a MODEL.md names, each with the path of that document."""
    cited: Dict[str, str] = dict(named)
    wrong: List[str] = []
    for path in sorted(index.files):
        if re.match(r"crates/\w+/src/.*\.rt$", path) and not is_test(path):
            for home, name in sorted(cited_by(index, path)):
                cited.setdefault(home, path)
                wrong += [f"{path}: a public contract cites {name} of {home}"] if INSIDE in home else []
    wrong += [f"{it} names {home}" for home, it in sorted(cited.items()) if INSIDE in home and it.endswith(".md")]
    specs = [it for it in sorted(index.files) if re.match(r"crates/\w+/specs/(?!Lib\.|inside\.).*\.antt$", it)]
    for path in specs:
        if INSIDE not in path:
            wrong += [f"{path} uses {it}" for it in sorted(index.uses.get(path, set())) if INSIDE in it]
            if path not in cited:
                wrong.append(f"{path} is cited by no public contract, law or row of a MODEL.md: it belongs in specs/inside/")
    return sum(INSIDE in it for it in specs), wrong

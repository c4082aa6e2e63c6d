"""Example commands and configurations: commands parse (programs, subcommands, flags, files), configurations have known keys."""
import itertools
import os
import re
import shlex
from dataclasses import dataclass, field
from typing import Dict, List, Optional, Set, Tuple

from index import Index
from texts import Block, Document, parsed, ticked

PLACEHOLDER = re.compile(r"[A-Z][A-Z_]*(?:\.\w+)?")
ASSIGNMENT = re.compile(r"[A-Z_]+=\S*")
DURATION = re.compile(r"[1-9]\d*[smhd]")
RT = {
    "all": "--jobs",
    "check": "--only --test --progress --fix-imports",
    "ci": "--anew",
    "doc": "",
    "fmt": "",
    "lemma": "",
    "lib": "",
    "must-fail": "--anew",
    "new": "",
    "plant": "--only --max --minutes --jobs --all",
    "run": "--",
    "test": "",
    "tidy": "--jobs",
    "try": "--test --steps --seconds --fail-alloc --fail-io --short-io --cases --data",
    "verdict": "",
    "version": "",
}


@dataclass
class Command:
    """A subcommand of the program: the names of its arguments, its options with the greatest number that each takes (0 if it takes
    a duration), the words of those that take one of some, those that take a file, those that may not be left out, and its flags,
    which take nothing and may be left out."""

    arguments: List[str] = field(default_factory=list)
    options: Dict[str, int] = field(default_factory=dict)
    words: Dict[str, List[str]] = field(default_factory=dict)
    files: Set[str] = field(default_factory=set)
    required: Set[str] = field(default_factory=set)
    flags: Set[str] = field(default_factory=set)

    def takes(self, option: str, value: str) -> bool:
        """Whether an option takes this value, or a placeholder of its value. A file isn't looked for here."""
        if PLACEHOLDER.fullmatch(value) or option in self.files:
            return bool(value)
        if option in self.words:
            return value in self.words[option]
        most = self.options[option]
        return value.isdigit() and int(value) <= most if most else bool(DURATION.fullmatch(value))


def program_of(index: Index) -> Dict[str, Command]:
    """The subcommands that crates/srt_command_line/src says, by the calls that build its command line."""
    text = "\n".join(index.text(it) for it in sorted(index.files) if it.startswith("crates/srt_command_line/src/") and it.endswith(".rt"))
    constants = {name: int(value.replace("_", "")) for name, value in re.findall(r"const (\w+): u\d+ = ([\d_]+);", text + index.text(PRODUCT_LIMITS))}
    clauses = r"(?:\n    [^\n]*)*"
    bodies = dict(re.findall(rf"\nfn (\w+)<'a>\([^)]*\) -> Arg<'a>{clauses}\s\{{(.*?)\n\}}", text, re.DOTALL))
    found: Dict[str, Command] = {}
    for name, rest in re.findall(rf'-> Result<Command<[^\n{{]*{clauses}\s\{{\s*Command::new\(alloc, "(\w+)"\)(.*?)\n\}}', text, re.DOTALL):
        command = found.setdefault(name, Command())
        for argument in re.findall(r"\.arg\((\w+)\(alloc\)\)", rest):
            body = bodies.get(argument, "")
            option = re.search(r'\.long\("([^"]+)"\)', body)
            most = re.search(r"Unsigned\(\d+, (\w+)\)", body)
            if option and "ArgAction::SetTrue" in body:
                command.flags.add(f"--{option.group(1)}")
            elif option:
                command.options[f"--{option.group(1)}"] = constants.get(most.group(1), 0) if most else 0
                named = re.search(r"Names\(&\[([^\]]*)\]\)", body)
                command.words |= {f"--{option.group(1)}": re.findall(r'"([^"]+)"', named.group(1))} if named else {}
                command.files |= {f"--{option.group(1)}"} if '.value_name("FILE")' in body else set()
                command.required |= {f"--{option.group(1)}"} if ".required(true)" in body else set()
            else:
                command.arguments.append(argument)
    return found


@dataclass
class Checker:
    """Parses command lines. `programs` are those from outside, of which only the form of the line is looked at."""

    index: Index
    programs: Set[str]
    commands: Dict[str, Command] = field(default_factory=dict)
    folder: str = ""
    at: str = ""
    is_mention: bool = False
    used: Set[str] = field(default_factory=set)

    def __post_init__(self) -> None:
        self.commands = program_of(self.index)

    def has_file(self, name: str) -> bool:
        """A file of the tree, of the document's folder or of examples/; a placeholder or a place outside is taken as it is."""
        if PLACEHOLDER.fullmatch(os.path.basename(name)) or name.startswith("/") or "/CASE/" in name:
            return True
        roots = (".", self.at or ".", self.folder or ".", "examples")
        return any(os.path.normpath(f"{root}/{name}") in self.index.files for root in roots)

    def is_command(self, line: str) -> bool:
        """Whether a line begins with a program, or with what looks like one of the tree's scripts."""
        first = next((it for it in line.split() if not ASSIGNMENT.fullmatch(it)), "")
        return bool(self.known(first) or re.match(r"(?:\./)?(?:bin|tests|bench)/[\w/]+$", first))

    def known(self, first: str) -> bool:
        own = first in {"rt", "cd"} or os.path.basename(first) in {"srtgw", "env"}
        return own or first in self.programs or first.startswith("srt://")

    # ---- one command ----

    def program(self, words: List[str]) -> Optional[str]:
        """What is wrong with the words after `srtgw`; None if they parse."""
        if not words or words[0] in ("--help", "--version"):
            return None if words else "srtgw wants a command"
        command = self.commands.get(words[0])
        if command is None:
            return f"srtgw has no command {words[0]}"
        if self.is_mention and len(words) == 1:
            return None
        files, rest = [], words[1:]
        given: Set[str] = set()
        while rest:
            word = rest.pop(0)
            if word in command.flags:
                continue
            if word.startswith("--"):
                if word not in command.options:
                    return f"srtgw {words[0]} has no flag {word}"
                value = rest.pop(0) if rest else ""
                given.add(word)
                if not command.takes(word, value):
                    return f"{word} takes no {value!r}"
                if word in command.files and not self.has_file(value):
                    return f"no file {value}"
            else:
                files.append(word)
        if len(files) != len(command.arguments) or not command.required <= given:
            return f"srtgw {words[0]} takes {' '.join(command.arguments)} {' '.join(command.options)}"
        missing = [it for it in files if not self.has_file(it)]
        return f"no file {missing[0]}" if missing else None

    def script(self, path: str, words: List[str]) -> Optional[str]:
        """What is wrong with a call of one of the tree's scripts."""
        if path not in self.index.files:
            return f"no script {path}"
        if not os.access(f"{self.index.top}/{path}", os.X_OK):
            return f"{path} can't be executed"
        folders = (os.path.dirname(path), "tests/lib")
        beside = [it for it in self.index.files if it.endswith(".py") and os.path.dirname(it) in folders]
        text = self.index.text(path)
        more = "".join(self.index.text(it) for it in beside)
        for at, word in enumerate(words):
            if word.startswith("--") and word not in ("--help",) and f'"{word}"' not in text + more:
                return f"{path} has no flag {word}"
            if at and words[at - 1] == "--only" and not PLACEHOLDER.fullmatch(word) and f'"{word}"' not in text + more:
                return f"{path} --only takes no {word}"
            if word.startswith("srt") and "_" in word and word not in self.index.crates:
                return f"no crate {word}"
            if "/" in word and not self.has_file(word):
                return f"no file {word}"
        return None

    def prover(self, words: List[str]) -> Optional[str]:
        if not words or words[0] not in RT:
            return f"rt has no command {' '.join(words[:1])}"
        for word in words[1:]:
            if word == "--":
                break
            if word.startswith("--") and word not in RT[words[0]].split():
                return f"rt {words[0]} has no flag {word}"
            if word.startswith("srt") and word not in self.index.crates:
                return f"no crate {word}"
        return None

    def change(self, words: List[str]) -> Optional[str]:
        """`cd FOLDER`: what follows in the block is relative to it."""
        path = os.path.normpath(f"{self.at or '.'}/{words[0] if words else ''}")
        if path not in self.index.folders and not PLACEHOLDER.fullmatch(os.path.basename(path)):
            return f"no folder {path}"
        self.at = "" if path == "." else path
        return None

    def one(self, words: List[str]) -> Optional[str]:
        """What is wrong with one command."""
        while words and ASSIGNMENT.fullmatch(words[0]):
            words = words[1:]
        if not words:
            return None
        first, rest = words[0], [it for it in words[1:] if it != "&"]
        path = os.path.normpath(f"{self.at or '.'}/{first}")
        if first == "cd":
            return self.change(rest)
        if first == "rt":
            return self.prover(rest)
        if os.path.basename(first) == "env":
            return self.one(list(itertools.dropwhile(lambda it: it.startswith("--"), rest)))
        if os.path.basename(first) == "srtgw" and (path in self.index.files or first == "srtgw" or first.startswith("/")):
            return self.program(rest)
        if first in self.programs or first.startswith("srt://"):
            self.used.add(first)
            return None
        return self.script(path, rest)

    def line(self, line: str) -> Optional[str]:
        """What is wrong with a line of commands."""
        try:
            words = shlex.split(line, comments=True)
        except ValueError as why:
            return str(why)
        commands: List[List[str]] = [[]]
        for word in words:
            if word in ("&&", ";", "|"):
                commands.append([])
            else:
                commands[-1].append(word)
        return next((why for it in commands if (why := self.one(it))), None)

    # ---- blocks and texts ----

    def block(self, block: Block) -> Tuple[int, List[str]]:
        """The number of commands in a block, and what is wrong with them. A line that is indented goes on with the one before."""
        lines = [(block.line + at, it) for at, it in enumerate(block.lines) if it.strip() and not it.lstrip().startswith("#")]
        self.at = ""
        if not lines or not self.is_command(lines[0][1]):
            return 0, []
        pairs = [(number, self.line(line)) for number, line in lines]
        return len(lines), [f"{number}: {why}" for number, why in pairs if why]

    def unit(self, block: Block) -> Tuple[int, List[str]]:
        """The commands of a systemd unit."""
        pairs = [(block.line + at, re.match(r"Exec\w+=(.*)", it)) for at, it in enumerate(block.lines)]
        found = [(number, self.line(it.group(1))) for number, it in pairs if it]
        return len(found), [f"{number}: {why}" for number, why in found if why]

    def document(self, document: Document) -> Tuple[int, List[str]]:
        """The number of a document's commands, in blocks and between backticks, and what is wrong with them."""
        count, wrong = 0, []
        self.folder = os.path.dirname(document.path)
        for block in document.blocks:
            for more, bad in (self.block(block), self.unit(block)):
                count, wrong = count + more, wrong + bad
        self.is_mention = True
        for piece in document.pieces:
            for text in ticked(piece.text()):
                self.at = ""
                if len(text.split()) > 1 and (self.is_command(text) and not self.is_outside(text)):
                    why = self.line(text)
                    count, wrong = count + 1, wrong + ([f"{piece.line}: {text}: {why}"] if why else [])
        self.is_mention = False
        return count, wrong

    def is_outside(self, text: str) -> bool:
        return text.split()[0] in self.programs


# ---- configurations ----

KEY_TABLE = "crates/srt_config/src/config/keys.rt"
PRODUCT_LIMITS = "crates/srt_types/src/product_limits.rt"


def keys_of(index: Index) -> Tuple[Set[str], Set[str]]:
    """The keys of a configuration's table and of a route's, as the code has them."""
    table = index.text(KEY_TABLE)
    texts = dict(re.findall(r'Key::(\w+) => "(\w+)"', table))
    both = []
    for name in ("TOP_KEYS", "ROUTE_KEYS"):
        found = re.search(rf"const {name}: \[Key; \d+\] = \[(.*?)\];", table, re.DOTALL)
        both.append({texts[it] for it in re.findall(r"Key::(\w+)", found.group(1))} if found else set())
    return both[0], both[1]


@dataclass
class KeyRow:
    """What the code's table of keys has of a key: the kind of its value, its limits if they are stated, and its two texts."""

    kind: str = ""
    limits: Optional[Tuple[int, int]] = None
    choices: Tuple[str, ...] = ()

    def is_stated(self, kind: str, limits: str) -> bool:
        """Whether a row of docs/CONFIGURATION.md states the same."""
        if self.choices:
            return kind == self.kind and limits == " or ".join(f"`{it}`" for it in self.choices)
        if not self.limits:
            return kind == self.kind
        least, most = self.limits
        span = f"{most}" if least == most else f"{least} to {most}"
        return kind == self.kind and bool(re.match(rf"{span}(?![\d_])", limits))


def key_rows(index: Index) -> Dict[str, KeyRow]:
    """The code's table of keys: `kind`, `limits` and `choices` of each."""
    table = index.text(KEY_TABLE)
    limits = index.text("crates/srt_types/src/protocol_limits.rt") + index.text(PRODUCT_LIMITS)
    texts = dict(re.findall(r'Key::(\w+) => "(\w+)"', table))
    numbers = {name: int(value.replace("_", "")) for name, value in re.findall(r"const (\w+): usize = ([\d_]+);", limits + table)}
    words = dict(re.findall(r'const (\w+): &str = "(\w+)";', table))
    rows = {name: KeyRow() for name in texts.values()}
    for keys, kind in re.findall(r"((?:Key::\w+[\s|]*)+)=> ValueKind::(\w+)", table):
        for key in re.findall(r"Key::(\w+)", keys):
            rows[texts[key]].kind = {"Text": "text", "Number": "number", "Boolean": "boolean", "Networks": "list", "Table": "table", "Tables": "tables"}[kind]
    for keys, least, most in re.findall(r"((?:Key::\w+[\s|]*)+)=> \((\w+), ([\w:]+)(?: as usize)?\)", table):
        for key in re.findall(r"Key::(\w+)", keys):
            if most != "u32::MAX":
                rows[texts[key]].limits = tuple(numbers[it] if it in numbers else int(it) for it in (least, most))
    for key, first, second in re.findall(r"Key::(\w+) => Some\(Choices \{\s*first: (\w+),\s*second: (\w+),", table):
        rows[texts[key]].choices = (words[first], words[second])
    return rows


def wrong_keys(lines: List[str], first: int, keys: Tuple[Set[str], Set[str]]) -> List[str]:
    """Keys of a configuration, those in comments too, that its table doesn't have."""
    wrong, known = [], keys[0] | (set() if any(it.startswith("[[route]]") for it in lines) else keys[1])
    for number, line in enumerate(lines, first):
        table = re.match(r"\[+([\w.]+)\]+", line)
        key = re.match(r"(?:# )?(\w+) = \S+$", line) or re.match(r"(\w+) = ", line)
        if table:
            known = keys[1] if table.group(0) == "[[route]]" else keys[1] - {"name"}
            if table.group(0) not in ("[[route]]", "[defaults]"):
                wrong.append(f"{number}: no table {table.group(0)}")
        elif key and key.group(1) not in known:
            wrong.append(f"{number}: no key {key.group(1)}")
    return wrong


def is_configuration(block: Block) -> bool:
    has_keys = bool(block.lines) and all(re.match(r"#|\w+ = |$", it) for it in block.lines)
    return has_keys or any(it.startswith("[[") for it in block.lines)


def wrong_configurations(index: Index, documents: List[Document]) -> Tuple[int, List[str]]:
    """The number of example configurations, and what is wrong with them. Those of tests/cli are wrong on purpose."""
    keys, count, wrong = keys_of(index), 0, []
    for document in documents:
        for block in filter(is_configuration, document.blocks):
            count += 1
            wrong += [f"{document.path}:{it}" for it in wrong_keys(block.lines, block.line, keys)]
    for path in sorted(index.files):
        if path.endswith(".toml") and (path.startswith("examples/") or path.startswith("crates/")):
            count += 1
            wrong += [f"{path}:{it}" for it in wrong_keys(index.text(path).splitlines(), 1, keys)]
    rows = [it for it in parsed("", index.text("docs/CONFIGURATION.md")).pieces if it.is_row() and it.head[:2] == ["key", "of"]]
    said = {(it.cells[1], key) for it in rows for key in ticked(it.cells[0])}
    missing = sorted({*(("file", it) for it in keys[0]), *(("route", it) for it in keys[1])} ^ said)
    wrong += [f"docs/CONFIGURATION.md: {key} of a {of} is in table or code alone" for of, key in missing]
    of_code = key_rows(index)
    stated = [(key, it) for it in rows for key in ticked(it.cells[0]) if key in of_code]
    differing = [key for key, it in stated if not of_code[key].is_stated(it.cells[2], it.cells[3])]
    return count, wrong + [f"docs/CONFIGURATION.md: {key} has another kind or other limits in the code" for key in differing]

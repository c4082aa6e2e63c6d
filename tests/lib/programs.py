"""The programs outside of crates: those of tests/refusals and bench, files NAME.rt.in with a `main`, and their modules, which stand beside
them or beside their folder. What they import and which methods of traits they have is compared with the crates' texts; where the
libraries are built, they are compiled over them, without a proof."""
from __future__ import annotations

import glob
import os
import re
import shutil
import subprocess
import tempfile
from concurrent.futures import ThreadPoolExecutor
from typing import Any, Iterator, NamedTuple

import building
import trying
from tree import SOURCES, TOP, below, crates, make_room, read, write

ENDING = ".rt.in"
# Names that a path may begin with and that are no library.
OWN = {"std", "core", "crate", "self", "super"}
# What one compilation takes of memory, in bytes.
MEMORY = 2_000_000_000
NAME = "program"
USE = re.compile(r"(?ms)^use (\w+)::(.*?);")
# A trait, or an `impl` of one for a type, and what is in it; each begins and ends at the first column.
TRAIT = re.compile(r"(?ms)^pub trait (\w+)(.*?\{)(\}|.*?^\})")
IMPL = re.compile(r"(?ms)^impl(?:<[^{]*?>)? (\w+)(?:<[^{]*?>)? for ([^{]*?)\{(\}|.*?^\})")
MEMBER = re.compile(r"(?m)^    (fn|type|ghost) (?!use\b)(\w+)")
EXPORT = re.compile(r"(?m)^pub (?:(?:const )?fn|struct|enum|const|static|trait|type|mod) (\w+)")


class Program(NamedTuple):
    """A program: its folder below the repository's top, its file's name without the ending, and those of its modules."""

    folder: str
    name: str
    modules: tuple[str, ...]

    @property
    def subject(self) -> str:
        return f"{self.folder.replace('/', '.')}.{self.name}"

    def path(self, module: str) -> str:
        return path_of(self.folder, module)

    @property
    def text(self) -> str:
        return "\n".join(read(self.path(it)) for it in (self.name, *self.modules))

    @property
    def libraries(self) -> list[str]:
        """The libraries that it names: crates of the repository, and others."""
        text = self.text
        named = [it[1] for it in USE.finditer(text)] + re.findall(r"\b(srt_\w+)::", text)
        return [it for it in dict.fromkeys(named) if it not in OWN and it not in self.modules]


class Member(NamedTuple):
    """A member of a trait or an `impl`: a function, a type or a ghost. How many parameters a function has, and whether it has a body, or
    a ghost a value."""

    kind: str
    name: str
    parameters: int
    is_given: bool


class Trait(NamedTuple):
    """A public trait: its crate and its members."""

    crate: str
    members: tuple[Member, ...]


def path_of(folder: str, module: str) -> str:
    """The file of a program's module: beside it or, for programs of several folders, beside its folder."""
    beside = f"{TOP}/{folder}/{module}{ENDING}"
    return beside if os.path.isfile(beside) else f"{TOP}/{os.path.dirname(folder)}/{module}{ENDING}"


def programs() -> list[Program]:
    """All programs, in order."""
    found = []
    for path in sorted(glob.glob(f"{TOP}/tests/*/*{ENDING}") + glob.glob(f"{TOP}/bench/*/*{ENDING}")):
        folder, name = os.path.split(os.path.relpath(path, TOP))
        text = read(path)
        if re.search(r"(?m)^fn main\(", text):
            beside = (it for it in re.findall(r"(?m)^mod (\w+);", text) if os.path.isfile(path_of(folder, it)))
            found.append(Program(folder, name.removesuffix(ENDING), tuple(beside)))
    return found


# What is read of texts.


def parameters_of(item: str) -> int:
    """The number of parameters of a function whose text begins here."""
    depth = commas = 0
    last = ""
    for it in item[item.index("(") + 1 :]:
        if it == ")" and depth == 0:
            break
        depth += (it in "([{<") - (it in ")]}" or it == ">" and last != "-")
        commas += it == "," and depth == 0
        last = it if not it.isspace() else last
    return 0 if last in ("", "(") else commas + (last != ",")


def members_of(text: str) -> tuple[Member, ...]:
    """The members of a trait or an `impl` with this text between its braces."""
    begins = list(MEMBER.finditer(text))
    ends = [it.start() for it in begins[1:]] + [len(text)]
    return tuple(member_of(it, text[it.start() : end]) for it, end in zip(begins, ends))


def member_of(found: "re.Match[str]", item: str) -> Member:
    kind, name = found.groups()
    if kind == "fn":
        # A body begins in a line of its own, or behind a declaration without a contract.
        has_body = re.search(r"(?m)^    \{$|^    \}$", item) is not None or re.search(r"[^;]\{.*\}$", item.split("\n")[0]) is not None
        return Member(kind, name, parameters_of(item), has_body)
    return Member(kind, name, 0, " = {" in item or kind == "type" and "=" in item.split("\n")[0])


def sources_of(crate: str) -> Iterator[str]:
    for folder, _, names in os.walk(f"{TOP}/crates/{crate}/src"):
        yield from (f"{folder}/{it}" for it in sorted(names) if it.endswith(".rt"))


def traits_of(crate: str) -> dict[str, Trait]:
    """The public traits of a crate by their names."""
    return {it[1]: Trait(crate, members_of(it[3])) for path in sources_of(crate) for it in TRAIT.finditer(read(path))}


def names_in(tree: str) -> list[str]:
    """The first names of a path's end, such as `A`, `{A, b as B}` or `m::{A}`."""
    inside = tree.strip()
    if not inside.startswith("{"):
        return [re.split(r"::|\s", inside)[0]]
    inner = re.sub(r"::\{[^{}]*\}", "", inside[1 : inside.rindex("}")])
    return [re.split(r"::|\s", it.strip())[0] for it in inner.split(",") if it.strip()]


def exports_of(crate: str) -> set[str]:
    """The names that a crate's root exports."""
    text = read(f"{TOP}/crates/{crate}/src/lib.rt")
    used = [it for tree in re.findall(r"(?ms)^pub use (.*?);", text) for it in last_names_in(tree)]
    return {*used, *EXPORT.findall(text)}


def last_names_in(tree: str) -> list[str]:
    """The names under which a `use` of this path makes things known."""
    inside = re.search(r"\{(.*)\}", tree, re.S)
    parts = inside[1].split(",") if inside else [tree]
    return [re.split(r"::| as ", it.strip())[-1].strip() for it in parts if it.strip()]


def faults_of_imports(program: Program) -> list[str]:
    """What the program imports that a crate's root doesn't export."""
    known = {it: exports_of(it) for it in program.libraries if it in crates()}
    wanted = [(it[1], name) for it in USE.finditer(program.text) if it[1] in known for name in names_in(it[2])]
    return [f"{crate} exports no {name}" for crate, name in dict.fromkeys(wanted) if name not in known[crate] and name != "self"]


def faults_of_members(program: Program, traits: dict[str, Trait]) -> list[str]:
    """Which members of traits the program's `impl` blocks lack, have beyond them, or have with another number of parameters."""
    wrong = []
    for it in IMPL.finditer(program.text):
        name, of = it[1], " ".join(it[2].split())
        if name not in traits:
            continue
        wanted, given = traits[name], {member.name: member for member in members_of(it[3])}
        where = f"{name} of {wanted.crate} for {of}"
        wrong += [f"{where} has no {member.kind} {member.name}" for member in wanted.members if not member.is_given and member.name not in given]
        by_name = {member.name: member for member in wanted.members}
        wrong += [f"{where} has {member.name}, which the trait hasn't" for member in given.values() if member.name not in by_name]
        both = [(member, by_name[member.name]) for member in given.values() if member.name in by_name]
        wrong += [f"{where}: {ours.name} has {ours.parameters} parameters, and {its.parameters} in the trait" for ours, its in both if ours.parameters != its.parameters]
    return wrong


def faults_of_text(program: Program) -> list[str]:
    """What of the program's text doesn't fit the crates' texts. Traits are found by name among those of the crates below it."""
    traits: dict[str, Trait] = {}
    for crate in below(program.libraries):
        traits |= traits_of(crate.name)
    return faults_of_imports(program) + faults_of_members(program, traits)


# What the compiler says over the libraries.


def lay_out(room: str, every: list[Program]) -> None:
    """Makes the room a repository of all crates, with the libraries that are built, and of these programs as crates."""
    rows = (f"{NAME}_{number}: {' '.join(it.libraries)}\n" for number, it in enumerate(every))
    make_room(room, parts=SOURCES, more="".join(rows))
    for crate in below(name for it in every for name in it.libraries):
        if os.path.isdir(f"{crate.folder}/out/rlib"):
            shutil.copytree(f"{crate.folder}/out/rlib", f"{room}/crates/{crate.name}/out/rlib", copy_function=building.linked)
    for number, it in enumerate(every):
        os.makedirs(f"{room}/crates/{NAME}_{number}/src")
        for module in (it.name, *it.modules):
            as_name = "main" if module == it.name else module
            shutil.copyfile(it.path(module), f"{room}/crates/{NAME}_{number}/src/{as_name}.rt")


def judge(folder: str, room: str, are_built: bool, toolchain: Any) -> tuple[list[str], list[str]]:
    """The crates below the program in this folder that aren't built from their present sources; if all are, what the compiler says.
    With `are_built` a library that is there counts as built."""
    crate = toolchain.Crate(folder, room, {})
    missing = [it.name for it in crate.below() if not (os.path.isdir(it.rlib) if are_built else it.is_built())]
    if missing:
        return missing, []
    words = crate.words(["--jobs", "1", "--only", ""])
    ran = subprocess.run([toolchain.RATTLE, "check", *words], cwd=folder, stdin=subprocess.DEVNULL, capture_output=True, text=True, errors="replace")
    said = ran.stdout + ran.stderr
    errors = re.findall(r"(?m)^.*error[\[:].*$", said) or [said.strip()[-600:]]
    # With that last line the program compiles.
    return [], [] if re.search(r"(?m)^only=", said) and not ran.returncode else errors


def compiled(every: list[Program], are_built: bool = False) -> list[tuple[list[str], list[str]]]:
    """Of each of these programs what isn't built below it, and what the compiler says of it."""
    if not every or not shutil.which("rt"):
        return [(["rt"], []) for _ in every]
    toolchain = trying.toolchain()
    lanes = max(1, min(len(os.sched_getaffinity(0)), building.free_memory() // MEMORY))
    with tempfile.TemporaryDirectory(prefix=f"{building.ROOM}{os.getpid()}-", dir=building.rooms()) as room:
        lay_out(room, every)
        with ThreadPoolExecutor(lanes) as pool:
            folders = [f"{room}/crates/{NAME}_{number}" for number in range(len(every))]
            return list(pool.map(lambda it: judge(it, room, are_built, toolchain), folders))

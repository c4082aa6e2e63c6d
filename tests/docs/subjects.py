"""The subjects that are checked, each with a function that says what was looked at and what is wrong."""
import os
import re
from functools import partial
from typing import Callable, Dict, List, Set, Tuple

import commands
import facts
import links
import log_lines
import names
import promises
import rules
import sizes
import unsupported
from index import Index
from texts import Document, parsed, ticked

LOOSE = {"PROOFS.md", "proving-traps.md", "CHANGELOG.md", "PERFORMANCE.md"}
Answer = Tuple[str, List[str]]


def words() -> Dict[str, str]:
    """The names from outside."""
    with open(f"{os.path.dirname(os.path.realpath(__file__))}/words", encoding="utf-8") as opened:
        return names.read_words(opened.read())


def newest(path: str, text: str) -> str:
    """A document's text; of the changes those of the newest version alone, since older ones name what stood then."""
    parts = text.split("\n## ")
    return "\n## ".join(parts[:2]) if path.endswith("CHANGELOG.md") else text


def subject_of(document: Document) -> str:
    """README for README.md, examples_README for examples/README.md, srt_pub_MODEL for crates/srt_pub/MODEL.md."""
    parts = [it for it in document.path[: -len(".md")].split("/") if it not in ("docs", "crates")]
    return "_".join(parts).replace("-", "_")


def checked_names(resolver: names.Resolver, document: Document) -> Answer:
    """What a document names exists."""
    resolver.is_loose = document.name() in LOOSE
    count, wrong = names.wrong_names(resolver, document)
    return f"{count} names", wrong


def models(documents: List[Document]) -> List[Document]:
    """docs/MODEL.md and the MODEL.md of each crate."""
    return [it for it in documents if it.name() == "MODEL.md"]


def checked_definitions(resolver: names.Resolver, documents: List[Document]) -> Answer:
    """The MODEL.md of a crate has a row for each file of definitions that the rows of all of them use."""
    return counted(names.unreached(resolver, models(documents)), "files of definitions")


def checked_places(resolver: names.Resolver, documents: List[Document]) -> Answer:
    """What is promised is defined in specs/, and what only proofs need in specs/inside/."""
    named = names.named_files(resolver, models(documents))
    return counted(promises.wrong_places(resolver.index, named), "files that only proofs need")


def checked_laws(index: Index, documents: List[Document]) -> Answer:
    """Each law of a crate has a row of promises in the crate's MODEL.md."""
    texts = {it.path: it.text for it in models(documents)}
    laws = sorted((it.crate, it.name) for items in index.items.values() for it in items if it.is_law())
    missing = [(crate, name) for crate, name in laws if not re.search(rf"`laws::{name}`", texts.get(f"crates/{crate}/MODEL.md", ""))]
    return f"{len(laws)} laws", [f"crates/{crate}/MODEL.md: no row of laws::{name}" for crate, name in missing]


def checked_commands(resolver: names.Resolver, documents: List[Document]) -> Answer:
    """Commands parse. Programs from outside are those of `words` which are said to be programs."""
    programs: Set[str] = {word for word, what in resolver.words.items() if "program" in what.split()}
    checker, count, wrong = commands.Checker(resolver.index, programs), 0, []
    for document in documents:
        more, bad = checker.document(document)
        count, wrong = count + more, wrong + [f"{document.path}:{it}" for it in bad]
    resolver.used |= checker.used
    return f"{count} commands", wrong if checker.commands else ["crates/srt_command_line/src has no commands"]


def checked_words(resolver: names.Resolver) -> Answer:
    """No name from outside is left over. Asked last, since the other subjects use them."""
    unused = sorted(set(resolver.words) - resolver.used)
    return f"{len(resolver.words)} names from outside", [f"no document uses {it}" for it in unused]


def checked_crates(index: Index) -> Answer:
    """ARCHITECTURE has a row of each crate, whose other crates it uses by crates.txt, and each crate has a MODEL.md that names it."""
    path = "docs/ARCHITECTURE.md"
    rows = [it for it in parsed(path, index.text(path)).pieces if it.is_row() and it.head[0] == "crate"]
    named = {name for it in rows for name in ticked(it.cells[0])}
    wrong = [f"{path}: no row of {it}" for it in sorted(set(index.crates) - named)]
    for row in rows:
        below = set(ticked(row.cells[row.head.index("uses")])) if "uses" in row.head else set()
        uses = {use for it in ticked(row.cells[0]) for use in index.crates.get(it, [])}
        wrong += [f"{path}:{row.line}: {row.cells[0]} doesn't use {it}" for it in sorted(below - uses)]
    for crate in sorted(index.crates):
        head = index.text(f"crates/{crate}/MODEL.md").partition("\n")[0]
        wrong += [] if crate in ticked(head) else [f"crates/{crate}/MODEL.md: its heading doesn't name {crate}"]
    return f"{len(index.crates)} crates", wrong


def checked_cases(index: Index) -> Answer:
    """ARCHITECTURE's row of tests/operate names each file that has cases."""
    path, folder = "docs/ARCHITECTURE.md", "tests/operate"
    rows = [it for it in parsed(path, index.text(path)).pieces if it.is_row() and folder in ticked(it.cells[0])]
    named = {name for it in rows for name in ticked(it.text())}
    files = sorted(it for it in index.files if os.path.dirname(it) == folder and "\n@case(" in index.text(it))
    missing = [it for it in files if os.path.basename(it) not in named]
    return f"{len(files)} files of cases", [f"{path}: the row of {folder} lacks {os.path.basename(it)}" for it in missing]


def checked_facts(index: Index) -> Answer:
    count, wrong = facts.wrong_facts(index)
    return f"{count} statements", wrong + rules.wrong_literals(index)


def counted(found: Tuple[int, List[str]], what: str) -> Answer:
    return f"{found[0]} {what}", found[1]


def of_tree(index: Index, outside: Dict[str, str]) -> Dict[str, Callable[[], Answer]]:
    """The subjects of a tree in the order in which they are checked."""
    documents = [parsed(it, newest(it, index.text(it))) for it in facts.documents(index)]
    resolver = names.Resolver(index, outside)
    found: Dict[str, Callable[[], Answer]] = {subject_of(it): partial(checked_names, resolver, it) for it in documents}
    found["definitions"] = partial(checked_definitions, resolver, documents)
    found["places"] = partial(checked_places, resolver, documents)
    found["laws"] = partial(checked_laws, index, documents)
    found["links"] = lambda: counted(links.wrong_links(index), "links")
    found["commands"] = partial(checked_commands, resolver, documents)
    found["words"] = partial(checked_words, resolver)
    found["crates"] = partial(checked_crates, index)
    found["cases"] = partial(checked_cases, index)
    found["configurations"] = lambda: counted(commands.wrong_configurations(index, documents), "configurations")
    found["facts"] = partial(checked_facts, index)
    found["causes"] = lambda: counted(rules.wrong_causes(index), "codes")
    found["log"] = lambda: counted(log_lines.wrong_log(index), "forms of lines")
    found["unsupported"] = lambda: counted(unsupported.wrong_unsupported(index), "features that aren't supported")
    found["versions"] = lambda: ("the newest is the program's", rules.wrong_versions(index))
    found["sections"] = lambda: counted(rules.wrong_sections(index), "sections")
    found["lines"] = lambda: counted(rules.wrong_lines(index), "crates without a line over 160 characters")
    found["sizes"] = lambda: counted(sizes.wrong_sizes(index), "documents with a greatest size")
    found["counts"] = lambda: (rules.counts(index), rules.wrong_counts(index))
    return found

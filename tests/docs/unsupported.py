"""What isn't supported: each row of PROTOCOL's table "not here" names the case that shows it, and README's list names only such rows.
A sentence elsewhere that says so names a case, or links to that table."""
import re
from typing import List, Set, Tuple

from facts import documents
from index import Index
from texts import parsed, ticked

PROTOCOL, README = "docs/PROTOCOL.md", "README.md"
OF_THE_TOOLCHAIN = {"docs/PROOFS.md", "docs/proving-traps.md"}
CASE = re.compile(r'@case\(f?"([^"]+)"')
DENIES = re.compile(r"(?i)\b(?:isn't|aren't|is not|are not|not) supported\b")


def cases_of(index: Index) -> Set[str]:
    """The names of the cases that the tests play against the program."""
    found = set(index.tests)
    for path in index.files:
        if re.match(r"tests/(?:callers|operate)/\w+\.py$", path):
            found.update(CASE.findall(index.text(path)))
    return found


def wrong_unsupported(index: Index) -> Tuple[int, List[str]]:
    """How many features are said not to be supported, and those without a case."""
    rows = [it for it in parsed(PROTOCOL, index.text(PROTOCOL)).pieces if it.is_row() and it.head[0] == "not here"]
    cases, wrong, lacking = cases_of(index), [], set()
    for row in rows:
        named = ticked(row.cells[-1])
        lacking.update(row.cells[0].lower() for _ in named[:1])
        if row.head[-1] != "case" or not named:
            wrong.append(f"{PROTOCOL}:{row.line}: {row.cells[0]} without a case")
        wrong += [f"{PROTOCOL}:{row.line}: no case {it!r}" for it in named if it not in cases]
    listed = re.search(r"\*\*Not supported:\*\* (.*)\.", index.text(README))
    for feature in re.split(r", ", listed[1].lower()) if listed else []:
        if not any(feature in it for it in lacking):
            wrong.append(f"{README}: {feature} isn't supported, and no row of {PROTOCOL} has its case")
    for path in sorted(set(documents(index)) - OF_THE_TOOLCHAIN):
        for number, line in enumerate(index.text(path).splitlines(), 1):
            for sentence in re.split(r"(?<=\.) ", line):
                denies = DENIES.search(re.sub(r"`[^`]*`", "", sentence)) and not sentence.startswith("**Not supported:**")
                if denies and PROTOCOL.rpartition("/")[2] not in sentence and not any(it in cases for it in ticked(sentence)):
                    wrong.append(f"{path}:{number}: {sentence[:80]!r} names no case")
    return len(rows), wrong if rows and listed else wrong + [f"{README} or {PROTOCOL} has no list of what isn't supported"]

"""What texts say beside names and numbers: where limits stand as literals, which version is the newest, why a caller is refused,
which section of the draft has which rule. And the counts, which no text may have."""
import glob
import re
from typing import Dict, List, Set, Tuple

from facts import NUMBER, SPACE, documents, joined, number_in, texts_of
from index import CLAUSE, RUST_COMMENT, STRING, Index, is_test

UNRELEASED = re.compile(r"\bno release (?:was|has been|is|exists)|not (?:yet )?released|unreleased", re.IGNORECASE)

# ---- literals and versions ----


def body_numbers(text: str) -> Set[int]:
    """The whole numbers in functions' bodies: not in contracts, ghost fields, constants, attributes and types."""
    found: Set[int] = set()
    for line in text.splitlines():
        bare = re.sub(r"\[\w+; \d+\]", "", RUST_COMMENT.sub("", STRING.sub("", line)))
        if not CLAUSE.match(bare) and not re.match(r"\s*(?:pub )?(?:ghost|const)\b|\s*#", bare):
            found.update(int(it.replace("_", "")) for it in re.findall(r"(?<![\w.])\d[\d_]*(?![\w.])", bare))
    return found


def literal_bodies(index: Index) -> List[str]:
    """Files with a limit above 500 as a literal in a body, beside the limits' own file."""
    both = "".join(index.text(f"crates/srt_types/src/{it}limits.rt") for it in ("protocol_", "product_"))
    limits = re.findall(r"const \w+: \w+ = ([\d_]+);", both)
    large = {it for it in (int(it.replace("_", "")) for it in limits) if it > 500}
    code = (it for it in sorted(index.files) if re.match(r"crates/\w+/src/.*\.rt$", it) and not is_test(it))
    return [it for it in code if not it.endswith("limits.rt") and body_numbers(index.text(it)) & large]


def wrong_literals(index: Index) -> List[str]:
    """What texts say of the places where limits stand as literals: bodies are among them just if some have one."""
    found, wrong = literal_bodies(index), []
    for text in texts_of(index):
        for said in re.finditer(r" ha(?:ve|s) these numbers as literals", text.text):
            sentence = text.text[: said.end()].rpartition(". ")[2]
            if ("bodies" in sentence) != bool(found):
                have = f"bodies have too ({', '.join(found)})" if found else "no body has"
                wrong.append(f"{text.path}:{text.line_at(said.start())}: {sentence!r}, but {have}")
    return wrong


def wrong_versions(index: Index) -> List[str]:
    """The newest version of the changes is that of the program, and no text denies that there is one."""
    code = "\n".join(index.text(it) for it in sorted(index.files) if it.startswith("crates/srt_command_line/src/"))
    version = (re.findall(r'const VERSION: &str = "([^"]+)"', code) or ["no version"])[0]
    heads = re.findall(r"^## (?:\[)?v?(\d[\w.]*)", index.text("CHANGELOG.md"), re.MULTILINE)
    wrong = []
    if not heads or heads[0] != version:
        wrong.append(f"CHANGELOG.md begins with {heads[0] if heads else 'no version'}, and srtgw --version prints {version}")
    for path in documents(index):
        for number, line in enumerate(index.text(path).splitlines(), 1):
            if UNRELEASED.search(line):
                wrong.append(f"{path}:{number}: {line[:100]!r}, but srtgw --version prints {version}")
    return wrong


# ---- the causes of a refusal ----

CAUSES = {
    1002: ("Stream ID", "publish", "route"),
    1003: ("sessions|slot",),
    1004: ("MTU", "76", "1500", "flow window", "HSREQ"),
    1008: ("version",),
    1010: ("passphrase",),
    1011: ("KMREQ|passphrase",),
    1012: ("STREAM|buffer mode",),
    1014: ("(?i)packet ?filter",),
    1015: ("(?i)group",),
}


def codes_of(index: Index) -> List[int]:
    """The codes that the code gives."""
    return sorted(int(it) for it in re.findall(r"RefusalCode::\w+ => (\d+)", index.text("crates/srt_hs/src/refusal_codes.rt")))


def stated_causes(index: Index, path: str, mark: str) -> Dict[int, str]:
    """The sentences of a text that say a code: for a table its row, for code the comment of its variant."""
    found: Dict[int, str] = {}
    for line in re.split(mark, index.text(path).rpartition("pub enum RefusalCode {")[2]):
        for code in re.findall(r"\b1[0-9]{3}\b", line):
            found[int(code)] = found.get(int(code), "") + " " + SPACE.sub(" ", line.replace("///", ""))
    return found


def order_in(text: str) -> List[int]:
    return [int(it) for it in re.findall(r"\b(10[01]\d)\b", text)]


def wrong_causes(index: Index) -> Tuple[int, List[str]]:
    """Each code has the same causes in PROTOCOL, in the comments of the codes and in callers.md, and PROTOCOL and the comments
    check them in the same order."""
    code_file = "crates/srt_hs/src/refusal_codes.rt"
    homes = {"docs/PROTOCOL.md": r"\n\n|\n(?=\d+\. )|\n\||(?<=\.) ", code_file: r"\n *\w+,\n", "docs/operating/callers.md": r"\n(?=\|)"}
    wrong = []
    for path, mark in homes.items():
        stated = stated_causes(index, path, mark)
        for code in codes_of(index):
            lacks = [it for it in CAUSES.get(code, ()) if not re.search(it, stated.get(code, ""))]
            wrong += [f"{path}: {code} without its cause {it!r}" for it in lacks]
        if set(codes_of(index)) != set(CAUSES):
            wrong.append(f"{code_file} has the codes {codes_of(index)}, and tests/docs the causes of {sorted(CAUSES)}")
    protocol = index.text("docs/PROTOCOL.md")
    lobby = protocol.partition("## Where a datagram goes")[2].partition("\nCodes ")[0]
    route = protocol.partition("decides what a conclusion does")[2].partition("\nThe answer of an opening")[0]
    comment = index.text(code_file).partition("checks, in this order")[2].partition("#[derive")[0]
    if order_in(lobby) + order_in(route) != order_in(comment):
        wrong.append(f"PROTOCOL checks {order_in(lobby) + order_in(route)}, the comment in {code_file} {order_in(comment)}")
    return len(CAUSES), wrong


# ---- long lines ----

MAX_LINE = 160


def wrong_lines(index: Index) -> Tuple[int, List[str]]:
    """Lines of code, definitions and proofs over 160 characters. Texts in quotes aren't counted."""
    crates: Set[str] = set()
    wrong: List[str] = []
    for path in sorted(index.files):
        found = re.match(r"crates/(\w+)/(?:src|specs|proofs)/.*\.(?:rt|antt)$", path)
        if found:
            crates.add(found.group(1))
            for number, line in enumerate(index.text(path).splitlines(), 1):
                if len(line) > MAX_LINE and len(STRING.sub('""', line)) > MAX_LINE:
                    wrong.append(f"{path}:{number}: {len(line)} characters")
    return len(crates), wrong


# ---- counts and sections ----

COUNTED = rf"\b(?i:{NUMBER})(?:(?: of (?:the|its|their))?(?: [a-z-]+){{0,2}}) (?:edits|crates|tests|cases|lemmas)\b"
COUNTED_IN = rf"\b{NUMBER} (?:\w+ ){{0,2}}(?:in|under) `?(?:tests/edits|must-fail|tests/cli)"


def wrong_counts(index: Index) -> List[str]:
    """Texts that count edits, crates, tests or cases: this program prints these numbers, and they stand nowhere else."""
    wrong = []
    for path in documents(index):
        text = joined(path, enumerate(index.text(path).splitlines(), 1))
        for pattern in (COUNTED, COUNTED_IN):
            for found in re.finditer(pattern, text.text):
                if number_in(found.group(1)) >= 10:
                    wrong.append(f"{path}:{text.line_at(found.start())}: {found.group(0)!r}")
    return wrong


def counts(index: Index) -> str:
    """The numbers of what there is."""
    def count(pattern: str) -> int:
        return len(glob.glob(f"{index.top}/{pattern}"))
    tests = sum(index.text(it).count("#[test]") for it in index.files if it.startswith("crates/") and it.endswith(".rt"))
    edits = f"{count('crates/*/must-fail/*.edit')} edits in must-fail, {count('tests/edits/*/*.edit')} in tests/edits"
    cases = f"{count('tests/cli/*/args')} command-line cases, {count('examples/*.tape')} examples"
    return f"{len(index.crates)} crates, {edits}, {tests} tests, {cases}"


NEXT = r"(?:, (?=\d)| and (?=(?:appendix )?[A-D0-9])| to )?(?:appendix )?"
SECTION = re.compile(rf"(?:sections?|appendix) ((?:[A-D0-9](?:\.\d+)*{NEXT})+)")


def sections_in(text: str) -> List[str]:
    """The sections that a text cites, those of a span among them."""
    found: List[str] = []
    for cited in SECTION.findall(text):
        words = re.findall(r"[A-D0-9](?:\.\d+)*|to", cited.replace("appendix", ""))
        for at, word in enumerate(words):
            if word == "to" and 0 < at < len(words) - 1:
                front, _, first = words[at - 1].rpartition(".")
                last = words[at + 1].rpartition(".")[2]
                found += [f"{front}.{it}" if front else str(it) for it in range(int(first), int(last))]
            elif word != "to":
                found.append(word)
    return found


def wrong_sections(index: Index) -> Tuple[int, List[str]]:
    """The sections that code cites, and those of them of which PROTOCOL has no rule: no paragraph or row that cites them and
    says more than a heading does."""
    protocol = index.text("docs/PROTOCOL.md")
    ruled = set()
    for part in re.split(r"\n\n|\n(?=\|)", protocol):
        if not part.startswith("#"):
            ruled.update(sections_in(SPACE.sub(" ", part)))
    for head, body in re.findall(r"^##+ (.*)\n\n(\S.*)", protocol, re.MULTILINE):
        ruled.update(sections_in(head) if not body.startswith("#") else [])
    cited: Dict[str, str] = {}
    for path in sorted(index.files):
        if path.startswith("crates/") and "/src/" in path and path.endswith(".rt"):
            comments = " ".join(re.findall(r"//[/!]?(.*)", index.text(path)))
            for section in sections_in(SPACE.sub(" ", comments)):
                cited.setdefault(section, path)
    missing = sorted(set(cited) - ruled)
    return len(cited), [f"section {it}, which {cited[it]} cites, has no rule in docs/PROTOCOL.md" for it in missing]

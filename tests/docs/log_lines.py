"""The lines of the log: each form on docs/operating/log.md consists of texts that srt_log writes, each of these texts is part of a
form, each code of a refusal has its name on docs/operating/callers.md, and the lines that documents show have one of the forms."""
import re
from typing import List, Optional, Set, Tuple

from facts import documents
from index import Index
from rules import codes_of
from texts import parsed, ticked

PAGE, CALLERS, CODE = "docs/operating/log.md", "docs/operating/callers.md", "crates/srt_log/src/"
CODES = "crates/srt_hs/src/refusal_codes.rt"
LITERAL = re.compile(r'b"((?:[^"\\]|\\.)*)"')
NAMED = re.compile(r'(\d{4}) => "(\w+)"')
HEADS = {"line", "reason", "after a refusal"}
# What stands for a part of a line that differs each time; a reason and a cause have rows of their own.
BLANKS = re.compile(r"CODE NAME|, REASON|IP:PORT|\b(?:NAME|PEER|IP|ID|N|TEXT)\b")
VALUES = {"CODE NAME": r"\d{4} [A-Z]+", "IP:PORT": r"[\d.]+:\d+", "NAME": r"[^ \"]+", "IP": r"[\d.]+", "PEER": r"[\d.]+:\d+", "ID": "0x[0-9a-f]{8}",
          "N": r"\d+", "TEXT": ".+"}
SHOWN = re.compile(r"\d{4}-\d\d-\d\dT\d\d:\d\d:\d\d\.\d{3}Z (.*)")
# The text that `run` can't write: it has no rounds.
NEVER = {"stopping, all rounds were made"}
# Of srt_explain, which writes what follows it too.
OTHERS = {"warning: "}


def written(index: Index) -> Set[str]:
    """The texts of srt_log's lines; those of its JSON objects aren't of a line."""
    found: Set[str] = set()
    for path in sorted(index.files):
        if path.startswith(CODE) and path.endswith(".rt") and not re.search(r"/(?:tests|(?:\w+_)?objects|members|\w+_tests)(?:/|\.rt$)", path):
            found.update(it.replace('\\"', '"') for it in LITERAL.findall(index.text(path)))
    return {it for it in found if it} - NEVER


def parts_of(text: str, known: Set[str]) -> Optional[List[str]]:
    """The texts that follow each other in this one; None if it doesn't consist of some."""
    best: List[Optional[List[str]]] = [[]] + [None] * len(text)
    for end in range(1, len(text) + 1):
        for start in range(end):
            before = best[start]
            if before is not None and text[start:end] in known and (best[end] is None or len(before) + 1 < len(best[end] or [])):
                best[end] = [*before, text[start:end]]
    return best[len(text)]


def forms(index: Index, head: str) -> List[str]:
    """What the page has between backticks in the first cells of the tables with this heading."""
    rows = (it for it in parsed(PAGE, index.text(PAGE)).pieces if it.is_row() and it.head[0] == head)
    return [form for row in rows for form in ticked(row.cells[0])]


def line_of(form: str, reasons: List[str], causes: List[str]) -> str:
    """The expression of the lines of a form."""
    text, end = "", 0
    for blank in BLANKS.finditer(form):
        either = "|".join(re.escape(it) for it in sorted(reasons, key=len, reverse=True))
        text += re.escape(form[end:blank.start()]) + (f", (?:{either})" if blank[0] == ", REASON" else VALUES[blank[0]])
        end = blank.end()
    text += re.escape(form[end:]).replace("publisher", "(?:publisher|subscriber)")
    return f"{text}(?:{'|'.join(map(re.escape, causes))})?" if " refused, " in form else text


def wrong_shown(index: Index) -> List[str]:
    """The lines of the log that documents show, and that have no form of the page."""
    causes, reasons = forms(index, "after a refusal"), forms(index, "reason")
    lines = [re.compile(line_of(it, reasons, causes)) for it in forms(index, "line")]
    wrong = []
    for path in documents(index):
        for block in parsed(path, index.text(path)).blocks:
            for at, line in enumerate(block.lines):
                shown = SHOWN.fullmatch(line)
                if shown and not any(it.fullmatch(shown[1]) for it in lines):
                    wrong.append(f"{path}:{block.line + at}: no line of the log is {shown[1]!r}")
    return wrong


def wrong_log(index: Index) -> Tuple[int, List[str]]:
    """How many forms the page has, and what is in page or code alone."""
    texts, wrong, used, count = written(index), [], set(), 0
    named = dict(NAMED.findall(index.text(CODES)))
    known = texts | OTHERS | {f"{code} {name}" for code, name in named.items()}
    for piece in parsed(PAGE, index.text(PAGE)).pieces:
        for form in ticked(piece.cells[0]) if piece.is_row() and piece.head[0] in HEADS else []:
            count += 1
            front = ", " if piece.head[0] == "reason" else ""
            for part in filter(None, BLANKS.split(front + form)):
                parts = parts_of(part, known)
                used.update(parts or [])
                wrong += [f"{PAGE}:{piece.line}: the log never has {part!r}"] if parts is None else []
    wrong += [f"{PAGE}: no line has {it!r}, which srt_log writes" for it in sorted(texts - used) if re.search(r"[a-z]{2}", it)]
    for code in codes_of(index):
        if f"| {code} {named.get(str(code))} |" not in index.text(CALLERS):
            wrong.append(f"{CALLERS}: no row of {code} {named.get(str(code))}, as the log has it")
    wrong += wrong_shown(index)
    return count, wrong if texts else [f"{CODE} has no texts"]

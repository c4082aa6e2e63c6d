"""Facts that texts state in words and numbers: each with the value that the code has, and the patterns under which documents,
comments and configurations state it. Every match has to agree."""
import os
import re
from dataclasses import dataclass
from typing import Iterator, List, Tuple

from index import CLAUSE, Index, is_test

SMALL = "one two three four five six seven eight nine ten eleven twelve thirteen fourteen fifteen sixteen seventeen"
WORDS = f"{SMALL} eighteen nineteen".split()
TENS = {"twenty": 20, "thirty": 30, "forty": 40, "fifty": 50, "sixty": 60, "seventy": 70, "eighty": 80, "ninety": 90}
NUMBERS = {word: at for at, word in enumerate(WORDS, 1)}
NUMBERS.update(TENS)
NUMBERS.update({f"{ten}-{WORDS[at]}": TENS[ten] + at + 1 for ten in TENS for at in range(9)})
NUMBERS.update({"a": 1, "an": 1, "hundred": 100})
ORDINALS = {word: at for at, word in enumerate("first second third fourth fifth sixth seventh eighth ninth tenth".split(), 1)}
NUMBER = r"(\d[\d,]*(?:\.\d+)?|" + "|".join(sorted((it for it in NUMBERS if len(it) > 2), key=len, reverse=True)) + r")"
ORDINAL = r"(\d+(?:st|nd|rd|th)|" + "|".join(ORDINALS) + r")"
SPACE = re.compile(r"\s+")


def number_in(text: str) -> float:
    """The number that a text says, in digits, as a word or as an ordinal."""
    word = text.lower()
    if word in ORDINALS:
        return ORDINALS[word]
    return float(NUMBERS[word]) if word in NUMBERS else float(re.sub(r"[a-z,]", "", word))


@dataclass
class Text:
    """A document, or the comments of a file, as one line; `starts` has the place and number of each line of the file."""

    path: str
    text: str
    starts: List[Tuple[int, int]]

    def line_at(self, place: int) -> int:
        return max((number for start, number in self.starts if start <= place), default=1)


def joined(path: str, lines: Iterator[Tuple[int, str]]) -> Text:
    text, starts = "", []
    for number, line in lines:
        starts.append((len(text), number))
        text += SPACE.sub(" ", line.strip()) + (" " if line.strip() else "\n")
    return Text(path, text, starts)


def documents(index: Index) -> List[str]:
    """The paths of the documents."""
    return sorted(it for it in index.files if it.endswith(".md") and not it.startswith("docs/lab/"))


def texts_of(index: Index) -> List[Text]:
    """Documents, comments of code and definitions, and comments of configurations."""
    found = [joined(path, enumerate(index.text(path).splitlines(), 1)) for path in documents(index)]
    for path in sorted(index.files):
        comment = {".rt": r"\s*//[/!]?(.*)", ".antt": r"\s*--(.*)", ".toml": r"\s*#(.*)"}.get(os.path.splitext(path)[1])
        if comment and "/proofs/" not in path:
            lines = ((number, re.match(comment, line)) for number, line in enumerate(index.text(path).splitlines(), 1))
            found.append(joined(path, ((number, it.group(1) if it else "") for number, it in lines)))
    return found


@dataclass
class Fact:
    """What texts say under `patterns`, whose groups are numbers: they have to be `wanted`, each within the share `slack`."""

    name: str
    wanted: Tuple[float, ...]
    patterns: Tuple[str, ...]
    slack: float = 0.0
    is_stated: bool = True

    def agrees(self, said: Tuple[str, ...]) -> bool:
        pairs = zip((number_in(it) for it in said), self.wanted)
        return all(abs(number - wanted) <= self.slack * abs(wanted) for number, wanted in pairs)

    def wrong(self, texts: List[Text]) -> Tuple[int, List[str]]:
        """How many texts state it, and those which disagree."""
        count, wrong = 0, []
        for text in texts:
            for pattern in self.patterns:
                for found in re.finditer(pattern, text.text):
                    count += 1
                    if not self.agrees(found.groups()):
                        values = ", ".join(f"{it:g}" for it in self.wanted)
                        wrong.append(f"{text.path}:{text.line_at(found.start())}: {found.group(0)!r}, but {self.name}: {values}")
        if self.is_stated and not count:
            wrong.append(f"no text states {self.name}: its patterns are out of date")
        return count, wrong


# ---- values that the code has ----


def value_in(index: Index, path: str, pattern: str) -> float:
    """The number of the first match in a file; -1 if there is none, so that the fact is wrong."""
    found = re.search(pattern, index.text(path))
    if not found:
        return -1
    word = found.group(1).replace("_", "")
    return float(1 << int(word[5:])) if word.startswith("1 << ") else float(word)


def limit(index: Index, name: str) -> float:
    path = f"crates/srt_types/src/protocol_limits.rt" if f"const {name}:" in index.text("crates/srt_types/src/protocol_limits.rt") else "crates/srt_types/src/product_limits.rt"
    return value_in(index, path, rf"const {name}: \w+ = ([\d_]+|1 << \d+);")


def publishers(index: Index) -> float:
    return limit(index, "MAX_PUBLISHERS")


def replies(index: Index) -> Tuple[float, float]:
    path = "crates/srt_route/src/route.rt"
    return value_in(index, path, r"let room = (\d+) \+"), value_in(index, path, r"let room = \d+ \+ (\d+) \*")


def route_bytes(index: Index, sessions: int, buffer: int) -> float:
    """The memory of a route, in bytes: its places and replies, 8 bytes more in each, and an outbox of 256 replies."""
    more, each = replies(index)
    places = (sessions + publishers(index)) * buffer * (limit(index, "MAX_PAYLOAD") + 8)
    return places + (more + each * sessions + 256) * (limit(index, "MAX_DATAGRAM") + 8)


def longest_clause(index: Index) -> float:
    """The characters of the longest line of a contract in code."""
    paths = (it for it in index.files if it.startswith("crates/") and it.endswith(".rt") and not is_test(it))
    return float(max((len(line) for path in paths for line in index.text(path).splitlines() if CLAUSE.match(line)), default=0))


def publisher_facts(most: float) -> List[Fact]:
    """How many publishers a route takes, in each form in which texts say it."""
    return [
        Fact(
            "the most open publishers of a route",
            (most,),
            (
                rf"at most {NUMBER} (?:of (?:them|which) |open )?publish",
                rf"of which {NUMBER} (?:at most )?publish",
                rf"of which at most {NUMBER} publish",
                rf"{NUMBER} publishers' sessions are open",
                rf"while {NUMBER} (?:publishers (?:of the route )?)?are open",
                rf"route (?:takes|has) {NUMBER} publishers",
                rf"(?:on|to) a route that already has (a|an|{NUMBER[1:-1]}) publishers?\b",
            ),
        ),
        Fact(
            "the first publisher that is refused",
            (most + 1,),
            (
                rf"[Aa] {ORDINAL} publisher (?:\(1002\)|is refused|of a route is refused)",
                rf"refuses? a {ORDINAL} publisher",
                rf"1002 for a {ORDINAL} publisher",
                rf"1002 [^.;|]*\ba {ORDINAL} publisher",
            ),
        ),
    ]


def limit_facts(index: Index) -> List[Fact]:
    """The limits of a configuration and of packets."""
    routes, payload = limit(index, "MAX_ROUTES"), limit(index, "MAX_PAYLOAD")
    window = (limit(index, "MIN_WINDOW"), limit(index, "MAX_WINDOW"))
    latency = (limit(index, "MIN_LATENCY_MS"), limit(index, "MAX_LATENCY_MS"))
    queue = (limit(index, "MIN_QUEUE"), limit(index, "MAX_QUEUE"))
    workers = value_in(index, "crates/srt_types/src/product_limits.rt", r"const MAX_WORKERS: \w+ = (\d+);")
    idle = limit(index, "PEER_IDLE_TIMEOUT_US") / 1_000_000
    to = rf"{NUMBER} to {NUMBER}"
    return [
        Fact("the most routes", (routes,), (rf"1 to {NUMBER} (?:routes|tables)\b", rf"{NUMBER} routes at most")),
        Fact("the first index that is refused", (routes + 1,), (rf"\ba {ORDINAL} index",)),
        Fact("the most sessions of a route", (limit(index, "MAX_SESSIONS"),), (rf"1 to {NUMBER} sessions",)),
        Fact("the size of a window", window, (rf"{to} packets(?! a second|/s)",)),
        Fact("the latency", latency, (rf"latency of {to} ms\b", rf"milliseconds, {to}\b")),
        Fact(
            "the milliseconds until a take-over",
            (limit(index, "MIN_TAKEOVER_MS"), limit(index, "MAX_TAKEOVER_MS")),
            (rf"{to}: the time without a data packet", rf"takes over, {to} ms\b", rf"takes over: {to}\.", rf"{to} ms are allowed"),
        ),
        Fact(
            "the percent that is sent again",
            (limit(index, "MIN_RESEND_PERCENT"), limit(index, "MAX_RESEND_PERCENT")),
            (rf"{to}: how many packets", rf"sent again, in percent, {to}\b", rf"new ones(?:, and 64 more)?: {to}\."),
        ),
        Fact(
            "the slots that are kept for publishers",
            (0, limit(index, "MAX_RESERVED")),
            (rf"{to}, and below `sessions`", rf"for publishers, {to}\b", rf"lock an encoder out: {to}, below"),
        ),
        Fact("the bytes of a payload", (1, payload), (rf"[Pp]ayloads of {to} bytes", rf"`PayloadRef` of {to} bytes")),
        Fact("the bytes of a datagram", (16, limit(index, "MAX_DATAGRAM")), (rf"datagram(?:s of| has) {to} bytes",)),
        Fact("the places of a queue", queue, (rf"{to} each\b", rf"wait to be \w+, {to}\.")),
        Fact("the most workers", (workers,), (rf"1 to {NUMBER} workers", rf"threads that serve routes, 1 to {NUMBER}")),
        Fact(
            "the seconds after which a silent session ends",
            (idle,),
            (rf"silent for {NUMBER} seconds", rf"packets? arrived for {NUMBER} seconds"),
        ),
    ]


def memory_facts(index: Index) -> List[Fact]:
    """What a route takes, and the formula by which texts say it."""
    more, each = replies(index)
    route = route_bytes(index, 5, 1024)
    return [
        Fact("the replies of an event", (more, each), (rf"{NUMBER} \+ {NUMBER} x `?sessions`? replies",)),
        Fact(
            "the windows beside those of the sessions, and the replies of a session",
            (publishers(index), each),
            (rf"\(`sessions` \+ {NUMBER}\) x `buffer` \+ {NUMBER} x `sessions`",),
        ),
        Fact(
            "the MB of a route of five sessions of 1024 packets",
            (route / 1e6,),
            (rf"{NUMBER} MB for five sessions of 1024 packets",),
            slack=0.1,
        ),
        Fact(
            "the GB of 511 such routes",
            (limit(index, "MAX_ROUTES") * route / 1e9,),
            (rf"routes of five sessions (?:and|of) 1024 packets[^.;|]* {NUMBER} GB",),
            slack=0.1,
            is_stated=False,
        ),
    ]


def facts_of(index: Index) -> List[Fact]:
    """The table."""
    lines = Fact(
        "the characters of the longest contract line",
        (longest_clause(index),),
        (rf"no contract line is over {NUMBER} characters", rf"longest contract line has {NUMBER} characters"),
        is_stated=False,
    )
    alerts = float(index.text("operate/srtgw.rules.yml").count("- alert: "))
    rules = Fact("the alerts of operate/srtgw.rules.yml", (alerts,), (rf"\b{NUMBER} (?:ready )?alerts\b",), is_stated=False)
    return [*publisher_facts(publishers(index)), *limit_facts(index), *memory_facts(index), lines, rules]


def wrong_facts(index: Index) -> Tuple[int, List[str]]:
    """How many statements of facts there are, and those that disagree."""
    texts, count, wrong = texts_of(index), 0, []
    for fact in facts_of(index):
        more, bad = fact.wrong(texts)
        count, wrong = count + more, wrong + bad
    return count, wrong

"""The status page of a gateway as its readers get it: answers of HTTP (RFC 9112), metrics in Prometheus' text format 0.0.4, and
JSON."""
from __future__ import annotations

import json
import re
import socket
from typing import Any, Iterator, NamedTuple

Address = tuple[str, int]

STATUS_LINE = re.compile(r"HTTP/1\.1 (\d{3}) ([ -~]*)")
FIELD = re.compile(r"([!#$%&'*+.^_`|~0-9A-Za-z-]+):[ \t]*(.*?)[ \t]*")
METRIC = r"[a-zA-Z_:][a-zA-Z0-9_:]*"
HELP_LINE = re.compile(rf"# HELP ({METRIC}) (.+)")
TYPE_LINE = re.compile(rf"# TYPE ({METRIC}) (counter|gauge)")
SAMPLE_LINE = re.compile(rf"({METRIC})(?:\{{(.*)\}})? (-?[0-9]+(?:\.[0-9]+)?)")
LABEL = re.compile(r'([a-zA-Z_][a-zA-Z0-9_]*)="((?:[^"\\\n]|\\["\\n])*)"(?:,|$)')
ESCAPES = {'\\"': '"', "\\\\": "\\", "\\n": "\n"}


class Malformed(Exception):
    """What came isn't of the form that it must have."""


class Answer(NamedTuple):
    """An answer: its status, its header's fields by their names in lower case, and its body."""

    status: int
    fields: dict[str, str]
    body: bytes

    def text(self) -> str:
        return self.body.decode()


def answer_at(data: bytes, has_body: bool = True) -> tuple[Answer, bytes]:
    """The first answer of these bytes, and what follows it. Raises Malformed if it isn't whole."""
    head, blank, rest = data.partition(b"\r\n\r\n")
    lines = head.decode("latin-1").split("\r\n")
    found = STATUS_LINE.fullmatch(lines[0])
    if not blank or not found:
        raise Malformed(f"no answer of HTTP: {data[:80]!r}")
    fields = {}
    for line in lines[1:]:
        field = FIELD.fullmatch(line)
        if not field or field[1].lower() in fields:
            raise Malformed(f"no field of a header, or a second one of its name: {line!r}")
        fields[field[1].lower()] = field[2]
    if not re.fullmatch("[0-9]+", fields.get("content-length", "")):
        raise Malformed(f"the length of the body isn't told: {fields}")
    length = int(fields["content-length"]) if has_body else 0
    if len(rest) < length:
        raise Malformed(f"{len(rest)} of {length} bytes of the body came")
    return Answer(int(found[1]), fields, rest[:length]), rest[length:]


def all_of(connection: socket.socket) -> bytes:
    """What comes over a connection until its peer closes it. Raises socket.timeout if nothing comes for the socket's time."""
    pieces = []
    while True:
        try:
            piece = connection.recv(1 << 16)
        except ConnectionResetError:
            break
        if not piece:
            break
        pieces.append(piece)
    return b"".join(pieces)


def exchanged(address: Address, request: bytes, seconds: float = 5.0) -> bytes:
    """Sends these bytes over a connection of their own, and returns all that comes until the peer closes it."""
    with socket.create_connection(address, seconds) as connection:
        try:
            connection.sendall(request)
        except (ConnectionResetError, BrokenPipeError):
            pass
        return all_of(connection)


def request_for(path: str, method: str = "GET", more: str = "") -> bytes:
    """The bytes of a request; `more` has further lines of its header, each with its end."""
    return f"{method} {path} HTTP/1.1\r\nHost: localhost\r\n{more}\r\n".encode()


def labels_of(text: str) -> frozenset[tuple[str, str]]:
    """The labels of a sample, as they stand between its braces. Raises Malformed if they aren't labels."""
    labels, at = {}, 0
    while at < len(text):
        found = LABEL.match(text, at)
        if not found or found[1] in labels:
            raise Malformed(f"no labels: {text!r}")
        labels[found[1]] = re.sub(r"\\.", lambda it: ESCAPES[it[0]], found[2])
        at = found.end()
    return frozenset(labels.items())


class Metrics:
    """The samples of a scrape. `kinds` has the kind of each family, in their order. Raises Malformed if the text breaks a rule of
    the format: each family has a line of help and one of its type, in front of its samples, which stand together, each once."""

    def __init__(self, text: str) -> None:
        self.kinds: dict[str, str] = {}
        self.helps: dict[str, str] = {}
        self.samples: dict[str, dict[frozenset[tuple[str, str]], float]] = {}
        if not text.endswith("\n"):
            raise Malformed("the last line has no end")
        family = ""
        for line in text.split("\n")[:-1]:
            family = self.take(line, family)

    def take(self, line: str, family: str) -> str:
        """Takes a line in the family that is under way. Returns the one that is under way then."""
        said = HELP_LINE.fullmatch(line)
        if said:
            if said[1] in self.helps:
                raise Malformed(f"a second help of {said[1]}")
            self.helps[said[1]] = said[2]
            return said[1]
        typed = TYPE_LINE.fullmatch(line)
        if typed:
            if typed[1] != family or family in self.kinds:
                raise Malformed(f"a type where none may stand: {line!r}")
            self.kinds[family], self.samples[family] = typed[2], {}
            return family
        sample = SAMPLE_LINE.fullmatch(line)
        if not sample or sample[1] != family or family not in self.kinds:
            raise Malformed(f"no line of a scrape, or of another family than {family!r}: {line!r}")
        labels = labels_of(sample[2] or "")
        if labels in self.samples[family]:
            raise Malformed(f"the same sample twice: {line!r}")
        self.samples[family][labels] = float(sample[3])
        return family

    def found(self, family: str, **labels: str) -> Iterator[tuple[dict[str, str], float]]:
        """The samples of a family that have these labels, perhaps beside others: each with all its labels."""
        for its, value in self.samples[family].items():
            if labels.items() <= dict(its).items():
                yield dict(its), value

    def total(self, family: str, **labels: str) -> float:
        """The sum of the samples of a family that have these labels. Raises Malformed if there is none."""
        values = [value for _, value in self.found(family, **labels)]
        if not values:
            raise Malformed(f"no sample of {family} has the labels {labels}")
        return sum(values)

    def counters(self) -> dict[tuple[str, frozenset[tuple[str, str]]], float]:
        """The values of all counters."""
        return {(family, labels): value for family, kind in self.kinds.items() if kind == "counter"
                for labels, value in self.samples[family].items()}


class Page:
    """The status page at an address."""

    def __init__(self, address: Address) -> None:
        self.address = address

    def ask(self, path: str, method: str = "GET", seconds: float = 5.0) -> Answer:
        """The answer to a request. Raises Malformed if more or less than one answer comes."""
        answer, rest = answer_at(exchanged(self.address, request_for(path, method), seconds), method != "HEAD")
        if rest:
            raise Malformed(f"behind the answer comes {rest[:80]!r}")
        return answer

    def right(self, path: str) -> str:
        """The body of the answer to GET. Raises Malformed if the status isn't 200."""
        answer = self.ask(path)
        if answer.status != 200:
            raise Malformed(f"{path} is answered with {answer.status}")
        return answer.text()

    def metrics(self) -> Metrics:
        return Metrics(self.right("/metrics"))

    def state(self) -> dict[str, Any]:
        """What /status.json has. Raises Malformed if it has a member twice."""
        return json.loads(self.right("/status.json"), object_pairs_hook=members)

    def health(self, seconds: float = 5.0) -> int:
        """The status of /healthz."""
        return self.ask("/healthz", seconds=seconds).status


def members(pairs: list[tuple[str, Any]]) -> dict[str, Any]:
    """The members of an object of JSON. Raises Malformed if a name stands twice."""
    if len(dict(pairs)) != len(pairs):
        raise Malformed(f"a member stands twice: {[name for name, _ in pairs]}")
    return dict(pairs)

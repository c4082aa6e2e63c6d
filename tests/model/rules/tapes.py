"""Tapes: texts of events, one a line, and the line that answers each."""
from __future__ import annotations

import re
from typing import Callable, Iterator

from .configuration import Config, Entry, Mode
from .cookies import Peer
from .hub import Accepted, Arrived, Closed, Full, Hub, OpenFault
from .lobby import Answer, Dropped
from .numbers import MOMENTS, WORDS

MOST_LINES = 1_000_000
LONGEST_LINE = 4096
PORTS = 1 << 16


class NoEvent(Exception):
    """A line that is no event."""


def number(text: str, end: int) -> int:
    """A number below an end, in decimal digits without leading zeros."""
    if not re.fullmatch(r"0|[1-9][0-9]*", text) or len(text) > 20 or int(text) >= end:
        raise NoEvent
    return int(text)


def digits(text: str) -> bytes:
    """The bytes of an even number of hexadecimal digits."""
    if not re.fullmatch(r"(?:[0-9A-Fa-f]{2})*", text):
        raise NoEvent
    return bytes.fromhex(text)


def address(text: str) -> bytes:
    found = digits(text)
    if len(found) != 16:
        raise NoEvent
    return found


def told(arrived: Arrived) -> str:
    """The line of what became of a datagram or tick."""
    if isinstance(arrived, Answer):
        return f"answer {arrived.datagram.hex()}"
    if isinstance(arrived, Dropped):
        return f"dropped {arrived.cause.value}"
    return f"accepted {arrived.index}" if isinstance(arrived, Accepted) else f"full {arrived.index}"


class Player:
    """Plays the lines of a tape to a gateway, one after the other."""

    def __init__(self, config: Config) -> None:
        self.hub = Hub(config)
        self.events: dict[str, Callable[..., str]] = {
            "A": self.arrive, "T": self.tick, "U": self.turn, "S": self.send, "O": self.open, "C": self.close
        }

    def answer(self, line: bytes) -> str:
        """The line that answers a line of a tape. Raises NoEvent if that is none."""
        try:
            letter, *fields = line.decode().split(" ")
        except UnicodeDecodeError:
            raise NoEvent from None
        event = self.events.get(letter)
        if event is None or len(line) > LONGEST_LINE:
            raise NoEvent
        if len(fields) != event.__code__.co_argcount - 1:
            raise NoEvent
        return event(*fields)

    def index(self, text: str) -> int:
        """The index of a route, shown or hidden."""
        return number(text, len(self.hub.lanes))

    def arrive(self, moment: str, ip: str, port: str, datagram: str) -> str:
        at = number(moment, MOMENTS)
        return told(self.hub.arrive(Peer(address(ip), number(port, PORTS)), digits(datagram), at))

    def tick(self, route: str, moment: str) -> str:
        return told(self.hub.tick(self.index(route), number(moment, MOMENTS)))

    def turn(self, route: str) -> str:
        return self.hub.turn(self.index(route)).value

    def send(self, route: str) -> str:
        reply = self.hub.send(self.index(route))
        return f"sent {reply.peer.ip.hex()} {reply.peer.port} {reply.content.hex()}" if reply else "none"

    def open(self, name: str, mode: str, latency: str, buffer: str, sessions: str, inbox: str, outbox: str) -> str:
        if mode not in (it.value for it in Mode):
            raise NoEvent
        numbers = (number(it, WORDS) for it in (latency, buffer, sessions, inbox, outbox))
        opened = self.hub.open_route(Entry(name, Mode(mode), *numbers))
        return f"open fault {opened.value}" if isinstance(opened, OpenFault) else f"opened {opened}"

    def close(self, route: str, moment: str) -> str:
        closing = self.hub.close_route(self.index(route), number(moment, MOMENTS))
        if isinstance(closing, Closed):
            return f"closed {closing.index}"
        return f"full {closing.index}" if isinstance(closing, Full) else f"closing {closing.index}"


def lines_of(tape: bytes) -> list[bytes]:
    """The lines of a tape; the last one may lack its end."""
    lines = tape.split(b"\n")
    return lines if lines[-1] else lines[:-1]


def replay(config: Config, tape: bytes) -> Iterator[str]:
    """The lines that answer a tape. The last one names the first line that is no event, if there is one."""
    player = Player(config)
    for at, line in enumerate(lines_of(tape), 1):
        try:
            if at > MOST_LINES:
                raise NoEvent
            yield player.answer(line)
        except NoEvent:
            yield f"tape fault {at}"
            return

"""All routes with their inboxes and outboxes. Each event concerns one route, and no other changes."""
from __future__ import annotations

from dataclasses import dataclass, field
from enum import Enum
from typing import NamedTuple

from .configuration import MOST_ROUTES, Config, Entry, Fault, first_fault_of_entry
from .cookies import Peer
from .lobby import Answer, Dropped, Lobby, Shown
from .route import Close, Datagram, Item, Reply, Route, Tick


class Accepted(NamedTuple):
    index: int


class Full(NamedTuple):
    index: int


class Closed(NamedTuple):
    """The route was hidden before."""

    index: int


Arrived = Answer | Dropped | Accepted | Full


class Turned(Enum):
    """What a turn of a route did."""

    MOVED = "moved"
    APPLIED = "applied"
    BLOCKED = "blocked"
    IDLE = "idle"


class OpenFault(Enum):
    """Why a route can't be opened, by the numbers that are printed."""

    NAME = 1
    LIMITS = 2


@dataclass
class Lane:
    """A route with the items and replies that wait round it."""

    route: Route
    inbox: list[Item] = field(default_factory=list)
    waiting: list[Reply] = field(default_factory=list)
    outbox: list[Reply] = field(default_factory=list)

    def is_full(self) -> bool:
        return len(self.inbox) >= self.route.entry.inbox


class Hub:
    """The whole gateway without threads. Indices of routes must be those of routes that were opened."""

    def __init__(self, config: Config) -> None:
        self.lobby = Lobby(config.secret)
        self.lanes: list[Lane] = []
        for entry in config.entries:
            self.add(entry)

    def add(self, entry: Entry) -> int:
        self.lobby.routes.append(Shown(entry))
        self.lanes.append(Lane(Route(entry, len(self.lanes))))
        return len(self.lanes) - 1

    def offer(self, index: int, item: Item) -> Accepted | Full:
        """Puts an item into a route's inbox, if there is room."""
        if self.lanes[index].is_full():
            return Full(index)
        self.lanes[index].inbox.append(item)
        return Accepted(index)

    def arrive(self, peer: Peer, datagram: bytes, moment: int) -> Arrived:
        """A datagram arrives: the lobby answers it or drops it, or says whose it is."""
        found = self.lobby.classify(peer, datagram, moment)
        return found if isinstance(found, (Answer, Dropped)) else self.offer(found.index, Datagram(moment, peer, datagram))

    def tick(self, index: int, moment: int) -> Accepted | Full:
        return self.offer(index, Tick(moment))

    def turn(self, index: int) -> Turned:
        """Moves the first reply that waits to the outbox, or, if none waits, applies the first item of the inbox."""
        lane = self.lanes[index]
        if lane.waiting:
            if len(lane.outbox) >= lane.route.entry.outbox:
                return Turned.BLOCKED
            lane.outbox.append(lane.waiting.pop(0))
            return Turned.MOVED
        if not lane.inbox:
            return Turned.IDLE
        lane.waiting = lane.route.step(lane.inbox.pop(0))
        return Turned.APPLIED

    def send(self, index: int) -> Reply | None:
        """Takes the first reply out of the outbox."""
        outbox = self.lanes[index].outbox
        return outbox.pop(0) if outbox else None

    def open_route(self, entry: Entry) -> int | OpenFault:
        """Opens a route with the next index. Its name must be of the right form and no shown route's."""
        fault = first_fault_of_entry(entry)
        if fault is Fault.BAD_NAME or self.lobby.index_of(entry.name) is not None:
            return OpenFault.NAME
        if fault is not None or len(self.lanes) >= MOST_ROUTES:
            return OpenFault.LIMITS
        return self.add(entry)

    def close_route(self, index: int, moment: int) -> Accepted | Full | Closed:
        """Puts a Close into a route's inbox, and hides the route."""
        if self.lobby.routes[index].is_hidden:
            return Closed(index)
        closing = self.offer(index, Close(moment))
        self.lobby.routes[index].is_hidden = isinstance(closing, Accepted)
        return closing

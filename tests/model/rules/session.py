"""What publishers' and subscribers' sessions have in common."""
from __future__ import annotations

from dataclasses import dataclass
from enum import Enum

from .configuration import Entry
from .cookies import Peer
from .handshakes import Handshake
from .numbers import MILLISECOND, SECOND
from .packets import Kind, write_control

KEEPALIVE_AFTER = SECOND
IDLE_AFTER = 5 * SECOND
FIRST_RTT = 100_000
FIRST_VARIANCE = 50_000


class End(Enum):
    """Why a session has ended."""

    IDLE = "nothing was heard for five seconds"
    SHUTDOWN = "its own SHUTDOWN"
    WINDOW_LOST = "a lost window"
    CLOSED = "its route was closed"
    DRAINING_TOO_LONG = "what it had brought wasn't delivered in time after its SHUTDOWN"
    FILE_ENDED = "the end of the file"
    GIVEN_UP = "its key wasn't confirmed for five seconds"


@dataclass
class Opening:
    """How a session was opened: by whose conclusion, when, and what was answered. `stamp` is the conclusion's timestamp, and the delay
    is that which was agreed for the session's direction, in milliseconds."""

    entry: Entry
    peer: Peer
    asked: Handshake
    stamp: int
    slot: int
    generation: int
    identity: int
    moment: int
    delay_ms: int
    answer: bytes


class Session:
    """A session from its opening to its end. `heard` is the time of the last packet that it took or conclusion that repeated its
    own, `sent` that of the last packet that it was sent."""

    def __init__(self, opening: Opening) -> None:
        self.opening = opening
        self.entry = opening.entry
        self.initial = opening.asked.initial
        self.width = opening.entry.buffer
        self.delay = opening.delay_ms * MILLISECOND
        self.heard = opening.moment
        self.sent = opening.moment
        self.end: End | None = None
        self.rtt = FIRST_RTT
        self.variance = FIRST_VARIANCE

    @property
    def is_open(self) -> bool:
        return self.end is None

    @property
    def drains(self) -> bool:
        """Whether the session goes on only to deliver what it has; a publisher's may."""
        return False

    def time(self, moment: int) -> int:
        """A moment as the time since the session's opening, as its packets carry it."""
        return moment - self.opening.moment

    def is_of(self, peer: Peer, caller: int) -> bool:
        """Whether this caller opened the session."""
        return self.opening.peer == peer and self.opening.asked.caller == caller

    def is_idle(self, now: int) -> bool:
        """Whether nothing was heard of the caller for five seconds."""
        return now - self.heard >= IDLE_AFTER

    def end_of_silence(self, now: int) -> End | None:
        """Why the session ends because something didn't come for five seconds, if it does."""
        return End.IDLE if self.is_idle(now) else None

    def key_packet(self, subtype: int, now: int, contents: bytes) -> bytes:
        """A KMREQ or KMRSP to the caller (section 3.2.2). It doesn't count as sent."""
        return write_control(Kind.USER_DEFINED, 0, self.time(now), self.opening.asked.caller, contents, subtype)

    def write(self, kind: Kind, information: int, now: int, body: bytes = b"") -> bytes:
        """A control packet to the caller."""
        self.sent = now
        return write_control(kind, information, self.time(now), self.opening.asked.caller, body)

    def shutdown(self, now: int) -> bytes:
        return self.write(Kind.SHUTDOWN, 0, now)

    def keepalive(self, now: int) -> list[bytes]:
        """A KEEPALIVE, if nothing was sent to the caller for a second (section 3.2.3). The opening counts as sent, and an answer that is
        given again doesn't."""
        return [self.write(Kind.KEEPALIVE, 0, now)] if now - self.sent >= KEEPALIVE_AFTER else []

"""What went over a line, counted at the gateway's side of it by one that is neither the gateway nor a caller."""
from __future__ import annotations

import threading
from typing import NamedTuple, Union

import packets
from caller import now

Packet = Union[packets.Data, packets.Control]


class Seen(NamedTuple):
    """A packet that went by: when, in microseconds of `now`, whether it went to the gateway, and what it is."""

    moment: int
    goes_there: bool
    packet: Packet


class Witness:
    """Notes the packets of a line. It is the `seen` of a Proxy."""

    def __init__(self) -> None:
        self.notes: list[Seen] = []
        self.lock = threading.Lock()

    def __call__(self, goes_there: bool, datagram: bytes) -> None:
        packet = packets.read(datagram)
        if packet is not None:
            with self.lock:
                self.notes.append(Seen(now(), goes_there, packet))

    def until(self, moment: int | None) -> list[Seen]:
        """What went by up to a moment, or up to now."""
        with self.lock:
            notes = list(self.notes)
        return [it for it in notes if moment is None or it.moment <= moment]

    def data(self, goes_there: bool, moment: int | None = None) -> list[packets.Data]:
        """The data packets of a direction, in order."""
        return [it.packet for it in self.until(moment) if it.goes_there == goes_there and isinstance(it.packet, packets.Data)]

    def controls(self, kind: int, goes_there: bool, moment: int | None = None) -> list[packets.Control]:
        """The control packets of a kind and a direction, in order."""
        return [it.packet for it in self.until(moment)
                if it.goes_there == goes_there and isinstance(it.packet, packets.Control) and it.packet.kind == kind]

    # What the counts of a session have to be, as far as a line shows it. Their names are those of the status page.

    def published(self, moment: int | None = None) -> dict[str, int]:
        """The counts of a publisher whose packets all came in time and inside the window."""
        came, naks = self.data(True, moment), self.controls(packets.NAK, False, moment)
        first = {it.number: it for it in reversed(came)}
        return {
            "received_packets": len(first),
            "received_bytes": sum(len(it.payload) for it in first.values()),
            "repeated_packets": len(came) - len(first),
            "naks_sent": len(naks),
            "reported_lost_packets": sum(map(numbers_of, naks)),
            "full_window_acks": sum(map(tells_full, self.controls(packets.ACK, False, moment))),
        }

    def subscribed(self, moment: int | None = None) -> dict[str, int]:
        """The counts of a subscriber."""
        again = [bool(it.word & packets.AGAIN) for it in self.data(False, moment)]
        return {
            "sent_packets": again.count(False),
            "resent_packets": again.count(True),
            "naks_taken": len(self.controls(packets.NAK, True, moment)),
            "misdirected_packets": len(self.data(True, moment)),
        }


def numbers_of(nak: packets.Control) -> int:
    """How many numbers a NAK reports."""
    return sum((last - first) % packets.NUMBERS + 1 for first, last in packets.runs_of(nak.body))


def tells_full(ack: packets.Control) -> bool:
    """Whether a Full ACK says that no place of the window is available (section 3.2.4)."""
    words = packets.words_of(ack.body)
    return len(words) >= 4 and words[3] == 0

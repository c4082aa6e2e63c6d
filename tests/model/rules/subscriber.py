"""A subscriber's session: what is queued for it, what goes out and what goes again (sections 4.6 and 4.8)."""
from __future__ import annotations

from enum import Enum
from itertools import takewhile
from typing import NamedTuple

from . import losses
from .numbers import SECOND, Run, in_window
from .packets import KMREQ, KMRSP, Control, Kind, Packet, message_number, sequence_word, words, words_of, write_data
from .session import End, Opening, Session
from .session_keys import SubscriberKeys

HEADERS = 44
LONGEST_MTU = 1500
REACH = 8192
MOST_SENT = 64
RESEND_AFTER = 20_000
RESENDS_UNTIL = SECOND
MOST_DOUBLINGS = 6
LEAST_THRESHOLD = SECOND
CREDIT_OF_PACKET = 100
FIRST_CREDIT = 64 * CREDIT_OF_PACKET
MOST_CREDIT = 8192 * CREDIT_OF_PACKET
CREDIT_AFTER = 20_000


class Queued(NamedTuple):
    """A payload, and the time at which it was queued."""

    payload: bytes
    origin: int


class Step(Enum):
    """What of a session's history counts for resends of all."""

    GROWTH = "more was acknowledged"
    RESEND_OF_ALL = "all in flight was lost without a NAK"


class Subscriber(Session):
    """A subscriber's session. Payload k of `queued` has the number initial + k. `acked` is the least number not acknowledged, `expired`
    the least that isn't too old, `unsent` the one behind the greatest that was sent."""

    def __init__(self, opening: Opening, keys: SubscriberKeys | None) -> None:
        super().__init__(opening)
        self.keys = keys
        self.queued: list[Queued] = []
        self.acked = self.expired = self.unsent = self.initial
        self.marked: set[int] = set()
        self.flow_window = opening.asked.window
        self.longest = min(LONGEST_MTU, opening.asked.mtu) - HEADERS
        self.drop_request: Run | None = None
        self.data_sent = self.growth = opening.moment
        self.history: list[Step] = []
        self.credit = FIRST_CREDIT

    # ---- where it stands ----

    @property
    def front(self) -> int:
        """The least number that may still be sent."""
        return max(self.acked, self.expired)

    @property
    def next(self) -> int:
        """The first number that wasn't sent yet."""
        return max(self.unsent, self.front)

    @property
    def queued_end(self) -> int:
        return self.initial + len(self.queued)

    @property
    def base(self) -> int:
        """The least number of which the session still knows something."""
        return max(self.acked, self.front - REACH)

    def room(self) -> int:
        return self.width - (self.queued_end - self.front)

    def lost(self) -> list[int]:
        """The numbers in flight that were marked as lost since they were sent last, ascending."""
        return sorted(it for it in self.marked if it >= self.front)

    def end_of_silence(self, now: int) -> End | None:
        """It also ends if its key wasn't confirmed."""
        is_given_up = self.keys is not None and self.keys.is_given_up(now)
        return super().end_of_silence(now) or (End.GIVEN_UP if is_given_up else None)

    # ---- what is fed ----

    def feed(self, payload: bytes, now: int) -> None:
        """Live: a payload is queued if there is room for it and the agreed MTU lets it through. In buffer mode it always fits, since no
        more is delivered than there is room for."""
        if not self.entry.is_live or self.room() > 0 and len(payload) <= self.longest:
            self.queued.append(Queued(payload, now))

    def expire(self, now: int) -> None:
        """Live (too-late packet drop, section 4.6): what was queued longer ago than 1.25 times the delay, and than a second, goes, sent or
        not."""
        if not self.entry.is_live:
            return
        oldest = now - max(self.delay * 5 // 4, LEAST_THRESHOLD)
        while self.expired < self.queued_end and self.queued[self.expired - self.initial].origin < oldest:
            self.expired += 1

    # ---- what comes ----

    def take(self, packet: Packet, now: int) -> list[bytes]:
        """Takes a packet that isn't a SHUTDOWN; other kinds than these change nothing. Returns the ACKACK of a Full ACK (section 3.2.8)."""
        if not isinstance(packet, Control):
            return []
        if packet.kind is Kind.USER_DEFINED and packet.subtype == KMRSP and self.keys:
            self.keys.confirm(packet.body)
        if packet.kind is Kind.NAK:
            self.take_nak(packet)
        if packet.kind is Kind.ACK:
            self.take_ack(words_of(packet.body), now)
            if packet.information != 0:
                return [self.write(Kind.ACKACK, packet.information, now)]
        return []

    def take_ack(self, body: tuple[int, ...], now: int) -> None:
        """An ACK of a number from the base to the next one to send says that all below it came, and how the caller's round trip and
        window are, as far as its body goes (section 3.2.4)."""
        number = in_window(body[0], self.base, self.next - self.base + 1)
        if number is None:
            return
        if number > self.acked:
            self.acked = number
            self.growth = now
            self.history.append(Step.GROWTH)
        if len(body) >= 3:
            self.rtt, self.variance = body[1:3]
        if len(body) >= 4:
            self.flow_window = body[3]

    def take_nak(self, packet: Control) -> None:
        """The numbers in flight that a NAK names are lost. One that is gone already brings a drop request of all that are (sections 3.2.5
        and 3.2.9)."""
        runs = losses.read(packet.body)
        if runs is None:
            return
        self.marked.update(it for it in range(self.front, self.next) if losses.names(runs, it))
        if any(losses.names(runs, it) for it in range(self.base, self.front)):
            self.drop_request = Run(self.base, self.front - 1)

    # ---- what goes out ----

    def emit(self, now: int) -> list[bytes]:
        """An event's DROPREQ, KMREQ and data."""
        packets = self.drop_requests(now) + self.announcements(now)
        self.renew_credit(now)
        if self.resend_is_due(now):
            self.marked.update(range(self.front, self.next))
            self.history.append(Step.RESEND_OF_ALL)
        again = self.emit_lost(now)
        return packets + again + self.emit_new(now, MOST_SENT - len(again))

    def drop_requests(self, now: int) -> list[bytes]:
        gone, self.drop_request = self.drop_request, None
        if gone is None:
            return []
        message = message_number(gone.first - self.initial)
        return [self.write(Kind.DROPREQ, message, now, words(sequence_word(gone.first), sequence_word(gone.last)))]

    def announcements(self, now: int) -> list[bytes]:
        """The KMREQ of the next key, if one is due."""
        contents = self.keys.announce(len(self.queued), now) if self.keys else None
        return [] if contents is None else [self.key_packet(KMREQ, now, contents)]

    # ---- what is sent again without a NAK ----

    @property
    def reports(self) -> bool:
        """Whether the caller says that it sends NAKs at intervals; nobody does in buffer mode."""
        return self.entry.is_live and self.opening.asked.sends_periodic_naks()

    @property
    def tries(self) -> int:
        """How often all was sent again since more was acknowledged."""
        return len(list(takewhile(lambda it: it is Step.RESEND_OF_ALL, reversed(self.history))))

    def resend_wait(self) -> int | None:
        """For how long nothing is sent and nothing more acknowledged until all in flight is sent again: the round trip, four times its
        variance and 20,000. For a caller with libsrt twice as long each time; for one that reports at least half of the delay, and
        once only. None if it isn't sent again."""
        wait = self.rtt + 4 * self.variance + RESEND_AFTER
        if not self.entry.is_libsrt:
            return wait
        if not self.reports:
            return wait << min(self.tries, MOST_DOUBLINGS)
        return max(wait, self.delay // 2) if self.tries == 0 else None

    def is_heard(self, now: int) -> bool:
        """Whether the caller counts as present: of one with libsrt a packet must have arrived in the last second."""
        return not self.entry.is_libsrt or now - self.heard < RESENDS_UNTIL

    def resend_is_due(self, now: int) -> bool:
        """Whether all in flight is to be sent again: none of it is lost, and it has waited for long enough."""
        wait, quiet = self.resend_wait(), now - max(self.data_sent, self.growth)
        return self.front < self.next and not self.lost() and wait is not None and quiet >= wait and self.is_heard(now)

    def renew_credit(self, now: int) -> None:
        """Where resends are limited, one is always allowed 20,000 after the last data packet."""
        if self.credit < CREDIT_OF_PACKET and now - self.data_sent >= CREDIT_AFTER:
            self.credit = CREDIT_OF_PACKET

    def emit_lost(self, now: int) -> list[bytes]:
        """Lost numbers go first, the least first, as far as the credit goes; those that don't go stay lost."""
        packets = []
        for number in self.lost()[:MOST_SENT]:
            if self.entry.resend_percent is not None:
                if self.credit < CREDIT_OF_PACKET:
                    break
                self.credit -= CREDIT_OF_PACKET
            self.marked.discard(number)
            packets.append(self.write_number(number, True, now))
        return packets

    def emit_new(self, now: int, most: int) -> list[bytes]:
        """New numbers go while fewer are in flight than the flow window allows, and their key is confirmed."""
        packets: list[bytes] = []
        while len(packets) < most and self.next < self.queued_end and self.next - self.front < self.flow_window:
            if self.keys and self.keys.holds(self.next - self.initial):
                break
            number = self.next
            self.unsent = number + 1
            if self.entry.resend_percent is not None:
                self.credit = min(self.credit + self.entry.resend_percent, MOST_CREDIT)
            packets.append(self.write_number(number, False, now))
        return packets

    def write_number(self, number: int, again: bool, now: int) -> bytes:
        """A data packet; its timestamp is the time at which the payload was queued."""
        self.sent = self.data_sent = now
        index = number - self.initial
        payload, origin = self.queued[index]
        encryption = 0
        if self.keys:
            encryption, payload = self.keys.closed(index, sequence_word(number), payload)
        return write_data(number, encryption, message_number(index), again, self.time(origin), self.opening.asked.caller, payload)

    def has_all(self) -> bool:
        """Whether all that was queued is acknowledged."""
        return self.acked == self.queued_end

"""A publisher's session: what it received, what it delivers, and how it reports (sections 4.5 to 4.8)."""
from __future__ import annotations

from dataclasses import dataclass
from itertools import count
from typing import NamedTuple

from . import losses
from .clock import Clock, Sample
from .losses import LONGEST_SPAN, distance
from .numbers import MILLISECOND, SECOND, WORDS, Run, in_window, lift, runs_of
from .packets import KMREQ, KMRSP, Control, Data, Kind, Packet, sequence_word, words, words_of
from .session import IDLE_AFTER, End, Opening, Session
from .session_keys import PublisherKeys

MOST_DELIVERED = 64
FULL_ACK_AFTER = 10_000
LIGHT_ACK_AFTER = 64
ACKS_REMEMBERED = 64
LONGEST_SAMPLE = 10 * SECOND
LEAST_NAK_INTERVAL = 20_000
ACK_NUMBERS = WORDS - 1
RATE_PACKETS = 16
LEAST_RATE = 1000
MOST_RATE = 1_000_000
LEAST_CAPACITY = 100_000
PAYLOAD_LENGTH = 1456


class Received(NamedTuple):
    """A received payload, and when it is due; in buffer mode it is due at once."""

    payload: bytes
    deadline: int


class Window(NamedTuple):
    """What a Full ACK tells: the acknowledgement point and how many places are available behind it."""

    point: int
    available: int


@dataclass
class FullAck:
    """A Full ACK that was sent."""

    number: int
    moment: int
    told: Window
    is_confirmed: bool = False


class Publisher(Session):
    """A publisher's session. `position` is the least number that may still be delivered, `greatest` the greatest one received."""

    def __init__(self, opening: Opening, keys: PublisherKeys | None) -> None:
        super().__init__(opening)
        self.keys = keys
        self.position = self.initial
        self.received: dict[int, Received] = {}
        self.dropped: set[int] = set()
        self.greatest = self.greatest_before = self.initial - 1
        self.delivered: list[int] = []
        self.delivery = opening.moment
        self.new_at: list[int] = []
        self.full_acks: list[FullAck] = []
        self.data_since_ack = 0
        self.samples: list[int] = []
        self.clock = Clock(opening.moment, opening.stamp)
        self.base = opening.moment
        self.nak_of_all = opening.moment
        self.brought = opening.moment
        self.shutdown_at: int | None = None

    # ---- what comes ----

    def take(self, packet: Packet, now: int) -> End | None:
        """Takes a packet that isn't a SHUTDOWN; other kinds than these change nothing. Returns why the session ends by it, if it does."""
        if isinstance(packet, Data):
            opened = self.keys.opened(packet) if self.keys else packet
            return self.take_data(opened, now) if opened.encryption == 0 else None
        if packet.kind is Kind.DROPREQ and self.entry.is_live:
            self.take_drop_request(packet)
        if packet.kind is Kind.ACKACK:
            self.confirm(packet, now)
        return None

    def answer_keys(self, packet: Packet, now: int) -> list[bytes]:
        """The KMRSP to a KMREQ, whose keys are taken if nothing is wrong."""
        is_request = isinstance(packet, Control) and packet.kind is Kind.USER_DEFINED and packet.subtype == KMREQ
        return [self.key_packet(KMRSP, now, self.keys.renew(packet.body))] if self.keys and is_request else []

    def take_data(self, packet: Data, now: int) -> End | None:
        """The first copy of a number of the window is received. In live mode a number past the window, by less than 2^30, ends the session
        if nothing received waits: the window is lost."""
        self.data_since_ack += 1
        self.brought = now
        number = in_window(packet.number, self.position, self.width)
        if number is not None:
            if number not in self.received:
                self.receive(number, packet, now)
            return None
        is_ahead = in_window(packet.number, self.position + self.width, LONGEST_SPAN) is not None
        return End.WINDOW_LOST if self.entry.is_live and is_ahead and not self.has_waiting() else None

    def receive(self, number: int, packet: Data, now: int) -> None:
        """A number that was dropped on request is received all the same."""
        self.received[number] = Received(packet.payload, self.deadline(packet.stamp, now))
        self.dropped.discard(number)
        self.greatest = max(self.greatest, number)
        self.new_at.append(now)

    def deadline(self, stamp: int, now: int) -> int:
        """When a packet is due (section 4.5.1): the time by its own stamp, counted from the conclusion, and the delay. The stamp is read
        near the one that a packet would have that is sent now. The base is the opening, corrected for the caller's clock."""
        if not self.entry.is_live:
            return 0
        lifted = lift(stamp, self.clock.expected(now, self.base))
        return self.base - self.opening.stamp + lifted + self.delay

    def take_drop_request(self, packet: Control) -> None:
        """The numbers of the window that the request names count as dropped, but for those received (section 3.2.9)."""
        first, last = words_of(packet.body)[:2]
        if max(first, last) >= losses.RANGE_BIT or distance(first, last) >= LONGEST_SPAN:
            return
        window = range(self.position, self.position + self.width)
        self.dropped.update(it for it in window if losses.names([Run(first, last)], it) and it not in self.received)

    def confirm(self, packet: Control, now: int) -> None:
        """An ACKACK confirms one of the last 64 Full ACKs, each once, and brings a sample of the round trip (section 4.10) and of the clock
        (section 4.7)."""
        for it in self.full_acks[-ACKS_REMEMBERED:]:
            if it.number == packet.information and not it.is_confirmed:
                it.is_confirmed = True
                sample = min(now - it.moment, LONGEST_SAMPLE)
                self.follow(Sample(now, packet.stamp, sample))
                self.fold(sample)

    def follow(self, sample: Sample) -> None:
        """For callers with libsrt the base follows their clock, live. It stands as it is when a packet is received."""
        if self.entry.is_libsrt and self.entry.is_live and self.clock.take(sample):
            self.base = self.clock.base()

    def fold(self, sample: int) -> None:
        """The variance is folded with the round trip's old value. For callers with libsrt the first sample stands alone."""
        if self.entry.is_libsrt and not self.samples:
            self.rtt, self.variance = sample, sample // 2
        else:
            self.variance = (3 * self.variance + abs(self.rtt - sample)) // 4
            self.rtt = (7 * self.rtt + sample) // 8
        self.samples.append(sample)

    # ---- what is delivered ----

    def waiting(self) -> list[int]:
        """The received numbers at or above the position, ascending."""
        return [it for it in range(self.position, self.greatest + 1) if it in self.received]

    def has_waiting(self) -> bool:
        return any(it in self.received for it in range(self.position, self.greatest + 1))

    def can_still_deliver(self) -> bool:
        """Whether something would be delivered sooner or later if nothing more came."""
        return self.has_waiting() if self.entry.is_live else self.position in self.received

    def deliver_due(self, now: int) -> list[bytes]:
        """Live (sections 4.5 and 4.6): the least received number is delivered once it is due, whatever is missing before it, and so on, at
        most 64 in an event. One that isn't due holds back those behind it. Then the position passes dropped numbers."""
        due = []
        for number in self.waiting()[:MOST_DELIVERED]:
            if self.received[number].deadline > now:
                break
            due.append(number)
        self.pass_to(due, now)
        self.position = next(it for it in count(self.position) if it not in self.dropped)
        return [self.received[it].payload for it in due]

    def deliver_unbroken(self, now: int, room: int) -> list[bytes]:
        """Buffer mode (section 4.2.2): what was received without a gap, at most 64 in an event, and as much as all subscribers have room
        for."""
        most = range(self.position, self.position + min(room, MOST_DELIVERED))
        missing = next((it for it in most if it not in self.received), most.stop)
        due = list(range(self.position, missing))
        self.pass_to(due, now)
        return [self.received[it].payload for it in due]

    def pass_to(self, due: list[int], now: int) -> None:
        """Notes what is delivered, and moves the position behind it."""
        if due:
            self.position = due[-1] + 1
            self.delivery = now
            self.delivered += due

    # ---- what is reported ----

    def is_missing(self, number: int) -> bool:
        return number not in self.received and number not in self.dropped

    def gaps(self, above: int) -> list[Run]:
        """The runs of missing numbers from the position to the greatest received that are above a number."""
        return runs_of(it for it in range(max(self.position, above + 1), self.greatest + 1) if self.is_missing(it))

    def window(self) -> Window:
        """The acknowledgement point is the least missing number from the position on."""
        point = next(it for it in count(self.position) if self.is_missing(it))
        return Window(point, self.position + self.width - point)

    def confirmed(self) -> Window:
        """What the Full ACK told that was sent last of those that are confirmed; at first the whole window."""
        latest = next((it for it in reversed(self.full_acks) if it.is_confirmed), None)
        return latest.told if latest else Window(self.initial, self.width)

    def nak_interval(self) -> int:
        """How long after a NAK of all gaps the next one is due (section 4.8.2)."""
        return max((self.rtt + 4 * self.variance) // 2, LEAST_NAK_INTERVAL)

    def report(self, now: int) -> list[bytes]:
        """An event's ACK, NAK and KEEPALIVE. A session that drains sends none."""
        packets = [] if self.drains else self.ack(now) + self.nak(now) + self.keepalive(now)
        self.greatest_before = self.greatest
        return packets

    def ack(self, now: int) -> list[bytes]:
        """A Full ACK (section 3.2.4) every 10,000 microseconds until one is confirmed that told what is so now; or else a Light ACK after
        64 data packets (section 4.8.1)."""
        window = self.window()
        last = self.full_acks[-1].moment if self.full_acks else self.opening.moment
        if now - last >= FULL_ACK_AFTER and window != self.confirmed():
            number = 1 + len(self.full_acks) % ACK_NUMBERS
            self.full_acks.append(FullAck(number, now, window))
            self.data_since_ack = 0
            body = words(sequence_word(window.point), self.rtt, self.variance, window.available, *self.rates())
            return [self.write(Kind.ACK, number, now, body)]
        if self.data_since_ack >= LIGHT_ACK_AFTER:
            self.data_since_ack = 0
            return [self.write(Kind.ACK, 0, now, words(sequence_word(window.point)))]
        return []

    def rates(self) -> tuple[int, int, int]:
        """The last three words of a Full ACK: zeros, but for callers with libsrt in buffer mode packets in a second by the median of the
        last 16 intervals of new packets, the ninth by length, where a missing one counts as a second; the capacity of the link; and
        bytes in a second."""
        if self.entry.is_live or not self.entry.is_libsrt:
            return (0, 0, 0)
        latest = self.new_at[-1 - RATE_PACKETS:]
        intervals = [later - earlier for earlier, later in zip(latest, latest[1:])]
        intervals = sorted(intervals + [SECOND] * (RATE_PACKETS - len(intervals)))
        packets = max(LEAST_RATE, min(MOST_RATE, SECOND // max(intervals[RATE_PACKETS // 2], 1)))
        return (packets, max(LEAST_CAPACITY, packets), packets * PAYLOAD_LENGTH)

    def nak(self, now: int) -> list[bytes]:
        """A NAK of all gaps each NAK interval; else one of the gaps that came with a new greatest number in this event (section 4.8.2).
        One of all gaps restarts the interval, also if it has not room for all."""
        gaps = self.gaps(above=self.position - 1)
        if gaps and now - self.nak_of_all >= self.nak_interval():
            self.nak_of_all = now
        else:
            gaps = self.gaps(above=self.greatest_before)
        return [self.write(Kind.NAK, 0, now, losses.write(gaps))] if gaps else []

    # ---- how it ends ----

    @property
    def drains(self) -> bool:
        return self.is_open and self.shutdown_at is not None

    def drains_too_long(self, now: int) -> bool:
        """Whether a session that drains has had its time: live five seconds after the delay of its SHUTDOWN, in buffer mode five seconds
        without a delivery."""
        if self.shutdown_at is None:
            return False
        if self.entry.is_live:
            return now - self.shutdown_at >= self.delay + IDLE_AFTER
        return now - max(self.shutdown_at, self.delivery) >= IDLE_AFTER

    def is_fresh(self, now: int) -> bool:
        """Whether the session brought data of late, as a take-over asks. Its opening counts as data."""
        return self.entry.takeover_ms is not None and now - self.brought < MILLISECOND * self.entry.takeover_ms

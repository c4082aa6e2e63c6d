"""Tapes of routes with `callers = "libsrt"` that are told and not left to chance: each case of a rule that chance seldom brings. Initial
numbers, stamps, ports and payloads are random all the same."""
from __future__ import annotations

from random import Random
from typing import Any, Callable, TypeVar

import packets
from callers import ADDRESSES, WHOLE_MESSAGE, Caller, Publisher, State, Subscriber
from counting import Tally
from plots import Plot
from rules.numbers import SECOND
from world import Made, World, target_of

PLOT = Plot((), loss=0.0, repeats=0.0, delays=0.0, neglect=0.0, hostile=0.0, ends=0.0, buffers=(32,))
LATER = SECOND // 10


class Story:
    """A tape of one route whose callers do what they are told. Numbers of packets are counted from a caller's initial one."""

    def __init__(
        self, seed: int, mode: str, tally: Tally, buffer: int = 32, more: tuple[str, ...] = (), now: int | None = None, callers: str = "libsrt"
    ) -> None:
        self.mode = mode
        plot = PLOT._replace(modes=(mode,), buffers=(buffer,), lines=(f'callers = "{callers}"', *more))
        self.world = World(Random(seed), plot, frozenset(), tally)
        self.world.now = self.world.now if now is None else now
        (self.entry,) = self.world.entries().values()

    def made(self) -> Made:
        return Made(self.world.config, self.world.lines, self.world.answers)

    def wait(self, time: int = LATER) -> None:
        """Time passes, and then the route is ticked."""
        self.world.now += time
        self.tick()

    def tick(self) -> None:
        self.world.event(f"T 0 {self.world.now}")
        self.world.serve()

    def close(self) -> None:
        self.world.event(f"C 0 {self.world.now}")
        self.world.serve()

    def sends(self, caller: Caller, datagram: bytes) -> None:
        """A datagram of a caller is applied."""
        ip, port = caller.peer
        self.world.event(f"A {self.world.now} {ip.hex()} {port} {datagram.hex()}")
        self.world.serve()

    def calls(self, caller: Caller) -> None:
        """A caller makes its conclusion."""
        self.concludes(caller, caller.blocks())
        self.notes(caller)

    def concludes(self, caller: Caller, blocks: bytes) -> None:
        """A caller makes its conclusion with these blocks."""
        self.sends(caller, caller.handshake(5, packets.CONCLUSION, caller.cookie(), blocks))

    def notes(self, caller: Caller) -> None:
        """The session that is open for a caller is its own from now on."""
        route = self.world.player.hub.lanes[0].route
        mine = [it for it in route.open if it.opening.peer.port == caller.peer[1]]
        if mine:
            caller.state, caller.session = State.OPEN, mine[-1].opening.identity

    def comes(self, kind: type[Caller], address: int = 0, reports: bool = True, delays: tuple[int, int] | None = None) -> Caller:
        """A caller of this role comes and is let in. A subscriber reports losses at intervals, if nothing else is said."""
        caller = self.new(kind, address, reports, delays)
        self.calls(caller)
        return caller

    def new(self, kind: type[Caller], address: int = 0, reports: bool = True, delays: tuple[int, int] | None = None) -> Caller:
        """A caller that didn't call yet."""
        self.world.next_port += 1
        random = self.world.random
        caller = kind(self.world, target_of(self.entry), (ADDRESSES[address], self.world.next_port), random.randrange(1 << 32))
        caller.mtu, caller.window = 1500, 8192
        caller.delays = caller.delays if delays is None else delays
        if isinstance(caller, Subscriber):
            caller.reports = reports
        return caller

    def publisher(self, address: int = 0) -> Caller:
        return self.comes(Publisher, address)

    def subscriber(self, address: int = 0, reports: bool = True, delays: tuple[int, int] | None = None) -> Caller:
        return self.comes(Subscriber, address, reports, delays)

    def data(self, caller: Caller, first: int, count: int = 1, early: int = 0) -> None:
        """Data packets with these numbers, whose stamps are so much ahead of their time."""
        for number in range(first, first + count):
            self.packet(caller, number, self.world.random.randbytes(self.world.random.choice((1, 30))), early)

    def packet(self, caller: Caller, number: int, payload: bytes, early: int, flags: int = WHOLE_MESSAGE) -> None:
        """A data packet with this payload."""
        stamp = caller.stamp(self.world.now + early)
        self.sends(caller, packets.data((caller.initial + number) % packets.NUMBERS, 1, stamp, caller.session, payload, flags=flags))

    def control(self, caller: Caller, kind: int, information: int = 0, body: bytes = b"", subtype: int = 0) -> None:
        self.sends(caller, packets.control(kind, information, caller.stamp(), caller.session, body, subtype))

    def alive(self, *callers: Caller) -> None:
        for it in callers:
            self.control(it, packets.KEEPALIVE)

    def acks(self, caller: Caller, count: int) -> None:
        """Acknowledges so many packets in all."""
        self.control(caller, packets.ACK, 1, packets.words((caller.initial + count) % packets.NUMBERS))

    def shuts(self, caller: Caller) -> None:
        self.control(caller, packets.SHUTDOWN)


STORIES: dict[str, Callable[[int, Tally], Made]] = {}
# The optional keys that the configuration of a story has.
KEYS_OF_STORIES: dict[str, frozenset[str]] = {}
Kind = TypeVar("Kind", bound=Story)


def story(*modes: str, **words: Any) -> Callable[[Callable[[Story], None]], None]:
    """Adds a story to the list, once for each of these modes. `words` are those of a Story."""
    return story_of(Story, frozenset({"callers"}), *modes, **words)


def story_of(kind: type[Kind], keys: frozenset[str], *modes: str, **words: Any) -> Callable[[Callable[[Kind], None]], None]:
    """The same for a kind of story whose configuration has these optional keys."""
    def adding(tell: Callable[[Kind], None]) -> None:
        for mode in modes:
            def made(seed: int, tally: Tally, mode: str = mode) -> Made:
                it = kind(seed, mode, tally, **words)
                tell(it)
                tally.note_sessions(it.world.player.hub)
                return it.made()
            STORIES[f"{tell.__name__}_{mode}"] = made
            KEYS_OF_STORIES[f"{tell.__name__}_{mode}"] = keys
    return adding


BOTH = ("live", "buffer")


def with_payloads(it: Story, count: int = 40) -> Caller:
    """A publisher whose payloads aren't delivered yet: they aren't due, or nobody subscribes."""
    publisher = it.publisher()
    it.data(publisher, 0, min(count, 30), LATER if it.mode == "live" else 0)
    return publisher


@story(*BOTH)
def drains(it: Story) -> None:
    """A session drains for some events, while a standby is there that feeds next. What comes for it is ignored."""
    first, second = with_payloads(it), it.publisher(1)
    it.data(second, 0, 3)
    it.shuts(first)
    it.shuts(first)
    it.data(first, 30)
    it.alive(first, second)
    subscriber = it.subscriber()
    for _ in range(12):
        it.wait()
        it.data(second, 3)
    it.acks(subscriber, 3)
    it.shuts(second)
    it.wait()


@story("live")
def passes_a_gap(it: Story) -> None:
    publisher, _ = it.publisher(), it.subscriber()
    for number in (0, 2, 3, 7):
        it.data(publisher, number, early=LATER)
    it.shuts(publisher)
    for _ in range(30):
        it.wait(LATER // 2)


@story("buffer")
def drains_up_to_a_gap(it: Story) -> None:
    """Behind the gap another payload stands, which goes with the session. The subscriber is told when it has all."""
    publisher = it.publisher()
    it.data(publisher, 0, 3)
    it.data(publisher, 5)
    it.shuts(publisher)
    subscriber = it.subscriber()
    it.wait()
    it.acks(subscriber, 2)
    it.wait()
    it.acks(subscriber, 3)


@story("buffer", buffer=100)
def drains_in_one_event(it: Story) -> None:
    """Of 70 payloads 64 are delivered with the last one that came, and the others with the SHUTDOWN."""
    _, publisher = it.subscriber(), it.publisher()
    it.data(publisher, 1, 69)
    it.data(publisher, 0)
    it.shuts(publisher)


@story("live")
def drains_in_its_event(it: Story) -> None:
    """A payload falls due just when the SHUTDOWN comes."""
    _, publisher = it.subscriber(), it.publisher()
    it.data(publisher, 0)
    (session,) = it.world.player.hub.lanes[0].route.publishers()
    it.world.now = next(iter(session.received.values())).deadline
    it.shuts(publisher)


@story(*BOTH, buffer=100)
def many_while_it_drains(it: Story) -> None:
    """More than 64 payloads are there at once."""
    publisher = it.publisher()
    it.data(publisher, 0, 80, LATER)
    it.shuts(publisher)
    it.subscriber()
    for _ in range(30):
        it.wait(LATER)


@story("buffer")
def drains_slowly(it: Story) -> None:
    """A subscriber acknowledges a few packets each four seconds; the session lasts as long as payloads are delivered. A third publisher is
    refused meanwhile."""
    subscriber, publisher = it.subscriber(), it.publisher()
    it.data(publisher, 0, 32)
    it.data(publisher, 32, 30)
    it.shuts(publisher)
    it.publisher(1)
    it.publisher(1)
    for count in (5, 9, 20, 32):
        it.wait(2 * SECOND)
        it.alive(subscriber)
        it.wait(2 * SECOND)
        it.acks(subscriber, count)
    it.wait()
    it.acks(subscriber, 62)


@story(*BOTH)
def drains_too_long(it: Story) -> None:
    """Five seconds pass without a delivery, live beyond the delay. The subscriber then has all that it was sent, and isn't told."""
    subscriber, publisher = it.subscriber(), it.publisher()
    it.data(publisher, 0, 32, 30 * SECOND)
    it.data(publisher, 32, 8)
    standby = it.publisher(1)
    it.shuts(publisher)
    for number, time in enumerate((SECOND, 3 * SECOND, SECOND - 1, 1, SECOND // 2, SECOND // 2, SECOND)):
        it.alive(subscriber)
        it.data(standby, number, early=-SECOND)
        it.wait(time)
    it.shuts(standby)
    it.acks(subscriber, 32)
    it.wait()


@story("buffer")
def drains_too_long_alone(it: Story) -> None:
    """As before, and no other publisher is there."""
    subscriber, publisher = it.subscriber(), it.publisher()
    it.data(publisher, 0, 32)
    it.data(publisher, 32, 8)
    it.shuts(publisher)
    for time in (3 * SECOND, 2 * SECOND - 1, 1):
        it.alive(subscriber)
        it.wait(time)
    it.acks(subscriber, 32)
    it.wait()


@story(*BOTH)
def calls_again(it: Story) -> None:
    """The caller of a session that drains calls again: it gets another session, and its next conclusion finds that one. When both
    publishers' places are in use it is refused."""
    publisher = with_payloads(it)
    it.shuts(publisher)
    it.calls(publisher)
    it.calls(publisher)
    it.data(publisher, 0, 3)
    it.publisher(1)
    it.shuts(publisher)
    it.publisher(1)
    it.calls(publisher)


@story(*BOTH)
def closed_while_it_drains(it: Story) -> None:
    publisher = with_payloads(it)
    it.publisher(1)
    it.shuts(publisher)
    it.wait()
    it.close()


@story(*BOTH)
def silent_at_a_close(it: Story) -> None:
    """Two sessions were silent for five seconds when the route closes, and another one wasn't."""
    it.publisher(), it.subscriber()
    it.wait(2 * SECOND)
    it.subscriber(1)
    it.world.now += 3 * SECOND
    it.close()


@story(*BOTH)
def silent_at_a_call(it: Story) -> None:
    """In the event in which silent sessions end their caller calls again."""
    _, publisher = it.subscriber(), it.publisher()
    it.world.now += 5 * SECOND
    it.calls(publisher)


@story("live")
def lost_window(it: Story) -> None:
    it.subscriber()
    publisher = it.publisher()
    it.data(publisher, 0)
    it.wait(3 * SECOND)
    it.data(publisher, 1 + 32)


@story("buffer")
def files_end(it: Story) -> None:
    """One file after the other: at once for two subscribers, later, with nothing, in place of a KEEPALIVE; and not for one that was late,
    nor while another publisher is there."""
    early, slow, publisher = it.subscriber(), it.subscriber(1), it.publisher()
    it.data(publisher, 0, 4)
    it.acks(early, 4)
    it.shuts(publisher)
    it.wait()
    late = it.subscriber(2)
    it.wait()
    it.acks(slow, 4)
    first, second = it.publisher(), it.publisher(1)
    it.shuts(first)
    it.wait()
    for _ in range(3):
        it.subscriber(1)
    it.alive(late)
    it.wait(SECOND - LATER)
    it.world.now += LATER
    it.shuts(second)
    it.wait()


@story("buffer")
def files_end_silently(it: Story) -> None:
    """The publisher falls silent: nobody is told of a file's end."""
    subscriber, publisher = it.subscriber(), it.publisher()
    it.data(publisher, 0, 4)
    it.acks(subscriber, 4)
    it.wait(3 * SECOND)
    it.alive(subscriber)
    it.wait(3 * SECOND)


@story(*BOTH, more=("sessions_per_address = 2", "reserved = 2", "takeover_ms = 100"))
def counts_for_limits(it: Story) -> None:
    """A session that drains counts for its address, and as one of the publishers for whom places are kept. Nobody takes over from it."""
    publisher, other = with_payloads(it), it.publisher(1)
    it.shuts(publisher)
    it.subscriber(), it.subscriber(), it.subscriber(1), it.subscriber(2), it.subscriber(2), it.subscriber(3)
    for number in range(8):
        it.data(other, number, early=-SECOND)
        it.wait(LATER // 2)

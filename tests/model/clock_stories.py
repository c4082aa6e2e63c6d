"""Fixed tapes of routes with `callers = "libsrt"`: drift windows at their limits, and players that fall silent."""
from __future__ import annotations

import packets
from callers import Caller
from rules.clock import LONGEST_WINDOW, SHORTEST_WINDOW, SLACK
from rules.numbers import SECOND
from rules.publisher import LONGEST_SAMPLE
from rules.publisher import Publisher as SessionOfPublisher
from rules.subscriber import MOST_DOUBLINGS, RESENDS_UNTIL
from rules.subscriber import Subscriber as SessionOfSubscriber
from stories import LATER, Story, story

OFTEN = 9 * LATER
ROUND_TRIP = 1_000


def wait_until(it: Story, moment: int, *callers: Caller) -> None:
    """Time passes until a moment, while these callers send KEEPALIVEs; then the route is ticked."""
    while it.world.now + OFTEN < moment:
        it.world.now += OFTEN
        it.alive(*callers)
    it.world.now = moment
    it.tick()


def publisher_of(it: Story, caller: Caller) -> SessionOfPublisher:
    session = it.world.session_of(caller)
    assert isinstance(session, SessionOfPublisher)
    return session


def subscriber_of(it: Story, caller: Caller) -> SessionOfSubscriber:
    session = it.world.session_of(caller)
    assert isinstance(session, SessionOfSubscriber)
    return session


def sample(it: Story, caller: Caller, moment: int, late: int, round_trip: int = ROUND_TRIP) -> None:
    """An ACKACK arrives at a moment. It shows this round trip, and its timestamp is late by so much, less half of it."""
    session = publisher_of(it, caller)
    wait_until(it, moment - round_trip, caller)
    it.data(caller, session.greatest + 1 - caller.initial)
    number = session.full_acks[-1].number
    wait_until(it, moment, caller)
    stamp = session.clock.expected(it.world.now, session.base) - round_trip // 2 - late
    it.sends(caller, packets.control(packets.ACKACK, number, stamp % packets.WORDS, caller.session))


def window(it: Story, caller: Caller, late: int, length: int = SHORTEST_WINDOW) -> None:
    """A drift window of two samples, of which the second one is this late and counts."""
    began = it.world.now + LATER
    sample(it, caller, began, late + SLACK, 2 * ROUND_TRIP)
    sample(it, caller, began + length, late)


@story("live")
def follows_a_clock(it: Story) -> None:
    """Each kind of move, while another publisher's clock is followed that stands by and takes over."""
    first, second = it.publisher(), it.publisher(1)
    it.subscriber()
    for caller in (first, second):
        window(it, caller, -300)
        it.alive(first, second)
    for late in (-300, -301, -300 - SLACK, -301 - SLACK, 100, 50_000, -50_000, packets.WORDS // 2, -packets.WORDS // 2 + 1):
        for caller in (second, first):
            window(it, caller, late)
            it.alive(first, second)
    for number in (40, 41, 42):
        it.data(first, number, early=LATER)
    it.data(first, 43, early=-LATER)
    it.shuts(first)
    it.wait(5 * LATER)
    it.data(second, 40)
    it.wait(20 * LATER)


@story("live")
def drift_windows_expire(it: Story) -> None:
    """Two samples at ten seconds and just below it; then one of a Full ACK that was sent ten seconds before."""
    publisher = it.publisher()
    window(it, publisher, 500)
    began = it.world.now + LATER
    sample(it, publisher, began, 500)
    sample(it, publisher, began + LONGEST_WINDOW, 700)
    sample(it, publisher, began + 2 * LONGEST_WINDOW - 1, 50_000, 2 * ROUND_TRIP)
    sample(it, publisher, it.world.now + LONGEST_SAMPLE + LATER, 500, LONGEST_SAMPLE)
    window(it, publisher, 20_000)
    window(it, publisher, -2_000)


@story("live", now=0)
def base_below_zero(it: Story) -> None:
    """A clock that is fast, of a publisher who is there from time 0 on."""
    publisher, _ = it.publisher(), it.subscriber()
    for late in (0, -9_000, -9_000):
        window(it, publisher, late)
    it.data(publisher, 40, early=LATER)
    it.wait(20 * LATER)


def fed(it: Story, reports: bool) -> tuple[Caller, Caller]:
    """A publisher, and a subscriber with a delay of eight seconds and a short round trip. Three packets are in flight to it."""
    subscriber = it.subscriber(reports=reports, delays=(8000, 0))
    publisher = it.publisher(1)
    feed(it, publisher, 0, 4)
    body = packets.words((subscriber.initial + 1) % packets.NUMBERS, 1000, 500, 8192)
    it.control(subscriber, packets.ACK, 1, body)
    return publisher, subscriber


def feed(it: Story, publisher: Caller, first: int, count: int) -> None:
    """Payloads that are due at once."""
    it.data(publisher, first, count, early=-2 * SECOND)


def until_all_again(it: Story, *callers: Caller) -> None:
    """Time passes until all in flight is due to be sent again to the last of these callers, and a microsecond less before."""
    session = subscriber_of(it, callers[-1])
    wait = session.resend_wait()
    assert wait is not None
    due = max(session.data_sent, session.growth) + wait
    wait_until(it, due - 1, *callers)
    it.wait(1)


@story("live", "buffer")
def all_again_and_again(it: Story) -> None:
    """To a player without PERIODICNAK all in flight is sent again after longer and longer waits, until it acknowledges more."""
    callers = publisher, subscriber = fed(it, reports=False)
    for _ in range(MOST_DOUBLINGS + 2):
        it.alive(*callers)
        until_all_again(it, *callers)
    it.acks(subscriber, 2)
    until_all_again(it, *callers)
    feed(it, publisher, 4, 2)
    until_all_again(it, *callers)


@story("live")
def all_again_once(it: Story) -> None:
    """To a player that reports it is sent again once, after half of its delay, or later if its round trip is long."""
    callers = publisher, subscriber = fed(it, reports=True)
    until_all_again(it, *callers)
    wait_until(it, it.world.now + 5 * SECOND, *callers)
    it.acks(subscriber, 2)
    until_all_again(it, *callers)
    feed(it, publisher, 4, 1)
    it.control(subscriber, packets.ACK, 2, packets.words((subscriber.initial + 3) % packets.NUMBERS, 3_000_000, 500_000, 8192))
    until_all_again(it, *callers)
    it.control(subscriber, packets.NAK, 0, packets.words((subscriber.initial + 3) % packets.NUMBERS))
    it.wait(SECOND)


@story("live", "buffer")
def all_again_to_silent_ones(it: Story) -> None:
    """Players of whom nothing arrives for a second are sent nothing again, until something arrives."""
    publisher, subscriber = fed(it, reports=False)
    other = it.subscriber(2, reports=True, delays=(0, 0))
    feed(it, publisher, 4, 3)
    for caller in (subscriber, other):
        body = packets.words((caller.initial + 1) % packets.NUMBERS, 400_000, 150_000, 8192)
        it.control(caller, packets.ACK, 1, body)
    heard = it.world.now
    for moment in (heard + RESENDS_UNTIL - 1, heard + RESENDS_UNTIL, heard + RESENDS_UNTIL + 20_000):
        wait_until(it, moment, publisher)
    it.alive(subscriber, other)

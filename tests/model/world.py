"""The world of a random tape: callers, a bad line, and routes that are served well or badly. A tape is made line by line while the model
answers it, so that callers can hear what is sent to them."""
from __future__ import annotations

from enum import Enum
from random import Random
from typing import NamedTuple

import edges
import hostile
from callers import ADDRESSES, Address, Caller, Publisher, State, Subscriber, Target
from counting import NO_EVENT, Tally
from network import Network
from plots import NAMES, SECRET, Plot, config_text
from rules import configuration
from rules.configuration import Entry
from rules.lobby import key_length_of, passphrase_of
from rules.numbers import MOMENTS, SECOND, WORDS
from rules.publisher import Publisher as SessionOfPublisher
from rules.session import Session
from rules.stream_ids import Role
from rules.tapes import NoEvent, Player

TICK = 10_000
NEAR = 100_000


class Care(Enum):
    """How a route is served."""

    PROMPT = "all it can do"
    LAZY = "a few turns and sends"
    STUCK = "turns without sends"
    LEFT = "nothing"


# Lines that are no event; `~` stands for an address.
NO_EVENTS = (
    "", "X", "u 0", "U", "U 0 ", "U 00", "U 600", "U 0\r", "S -1", "S 0 0", "T 0", "T 0 01", f"T 0 {MOMENTS}", "T 0 0x5", "A 0 ~ 1",
    "A 0 ~ 1 0", "A 0 ~ 1 0g", "A 0 ~ 65536 00", "A 0 ~0 1 00", "A  ~ 1 00", f"A 0 ~ 1 {4094 * '0'}", "O a live 120 32 2 16",
    "O a file 120 32 2 16 16", f"O a live 120 32 2 16 {WORDS}", "O a live 120 32 2 16 016", "C 0", "C 600 0", f"C 0 {MOMENTS}", "c 0 0",
)


class Made(NamedTuple):
    """A random tape with its configuration and the model's answers."""

    config: str
    lines: list[str]
    answers: list[str]


def target_of(entry: Entry) -> Target:
    """What a right caller knows of a route."""
    keys = {"publish": entry.publish_key, "request": entry.request_key}
    passphrases = {it.value: passphrase_of(entry, it) for it in Role}
    return Target(entry.name, entry.mode.value, given(keys), given(passphrases), key_length_of(entry))


def given(values: dict[str, str | None]) -> dict[str, str]:
    """The values that were given."""
    return {role: value for role, value in values.items() if value is not None}


class World:
    """Makes one tape."""

    def __init__(self, random: Random, plot: Plot, keys: frozenset[str], tally: Tally) -> None:
        self.random, self.plot, self.tally, self.secret = random, plot, tally, SECRET
        self.config = config_text(random, plot, keys)
        self.player = Player(configuration.read(self.config.encode()))
        self.lines: list[str] = []
        self.answers: list[str] = []
        self.network = Network(self)
        self.callers: list[Caller] = []
        self.care: dict[int, Care] = {}
        self.ticked: dict[int, int] = {}
        self.now = random.choice((0, 1_000_000, 59_000_000, random.randrange(1 << 40), MOMENTS - (1 << 36)))
        self.is_at_edge = False
        self.next_port = 5000
        self.passed: list[tuple[Address, int]] = []

    # ---- lines ----

    def event(self, line: str) -> str:
        """Adds a line to the tape, and returns the model's answer."""
        before = self.tally.before(self.player.hub, line)
        answer = self.player.answer(line.encode())
        self.tally.note(line, answer, before)
        self.lines.append(line)
        self.answers.append(answer)
        return answer

    def moment(self) -> int:
        """Now, or now and then a little earlier."""
        return max(0, self.now - self.random.choice((0, 0, 0, 0, 0, 0, 0, 1000, 50_000)))

    def arrive(self, peer: Address, datagram: bytes) -> None:
        """A datagram arrives, and what the lobby answers goes back to its sender."""
        ip, port = peer
        answer = self.event(f"A {self.moment()} {ip.hex()} {port} {datagram.hex()}")
        if answer.startswith("answer "):
            self.network.send_down(peer, bytes.fromhex(answer.split(" ")[1]))

    def send(self, route: int) -> None:
        """Sends a reply of a route, if there is one."""
        word, *fields = self.event(f"S {route}").split(" ")
        if word == "sent":
            ip, port, datagram = fields
            self.network.send_down((bytes.fromhex(ip), int(port)), bytes.fromhex(datagram))

    # ---- callers ----

    def entries(self) -> dict[int, Entry]:
        """The routes that are shown, by their indices."""
        return {at: it.entry for at, it in enumerate(self.player.hub.lobby.routes) if not it.is_hidden}

    def invite(self) -> None:
        """Callers come to a route that has fewer of their role than the plot wants."""
        for entry in self.entries().values():
            for kind, wanted in ((Publisher, self.plot.publishers), (Subscriber, self.plot.subscribers)):
                there = [it for it in self.callers if isinstance(it, kind) and it.target.name == entry.name]
                if len(there) < wanted and self.random.random() < (self.plot.comes if kind is Publisher else 0.05):
                    self.next_port += self.random.choice((0, 1, 1))
                    peer = (self.random.choice(ADDRESSES), self.next_port)
                    self.callers.append(kind(self, target_of(entry), peer, self.random.randrange(1 << 32)))

    def dismiss(self) -> None:
        """Callers that have ended go, and those of routes that are hidden; so do some that were never answered or fell silent."""
        names = {it.name for it in self.entries().values()}
        for caller in list(self.callers):
            is_stuck = caller.is_mute or caller.state != State.OPEN
            if caller.state == State.ENDED or caller.target.name not in names or is_stuck and self.random.random() < 0.02:
                self.callers.remove(caller)
                self.passed = (self.passed + [(caller.peer, caller.session)])[-20:]

    # ---- what happens ----

    def pass_time(self) -> None:
        """Most often a few milliseconds, or until something falls due; now and then a second and more."""
        random, ahead = self.random, [it for it in edges.of_hub(self.player.hub) if it > self.now]
        near = [it for it in ahead if it < self.now + NEAR // self.plot.slowness]
        self.is_at_edge = False
        if random.random() < self.plot.pauses:
            pause = random.choice((100_000, 300_000, 1_000_000, 1_200_000, 2_600_000))
            self.now = self.now + pause if random.random() >= self.plot.jumps else self.beside(ahead)
        elif random.random() < 0.3:
            self.now = self.beside(near)
        else:
            self.now += random.choice((0, 0, 100, 1000, 1000, 2000, 5000, 10_000, random.randint(0, 15_000))) // self.plot.slowness

    def beside(self, moments: list[int]) -> int:
        """One of these moments, or a microsecond before or after it. Every route is ticked there."""
        self.is_at_edge = True
        return max(self.now, self.random.choice(moments or [self.now]) + self.random.choice((-1, 0, 0, 1)))

    def tick(self) -> None:
        for route in range(len(self.player.hub.lanes)):
            is_due = self.now - self.ticked.get(route, 0) >= TICK * (1 if route in self.entries() else 30)
            if is_due or self.is_at_edge:
                self.ticked[route] = self.now
                self.event(f"T {route} {self.now if self.is_at_edge else self.moment()}")

    def serve(self) -> None:
        """Routes that are served promptly do all they can; others little, or nothing."""
        for route in range(len(self.player.hub.lanes)):
            self.care_for(route)
            care = self.care.get(route, Care.PROMPT)
            if care is Care.PROMPT:
                self.serve_promptly(route)
            elif care is Care.LAZY:
                for _ in range(self.random.randint(0, 6)):
                    self.event(f"U {route}")
                    if self.random.random() < 0.7:
                        self.send(route)
            elif care is Care.STUCK:
                for _ in range(self.random.randint(0, 20)):
                    self.event(f"U {route}")

    def care_for(self, route: int) -> None:
        """Now and then a route is served badly for some time."""
        if route in self.care:
            if self.random.random() < 0.06:
                del self.care[route]
        elif self.random.random() < self.plot.neglect:
            self.care[route] = self.random.choice((Care.LAZY, Care.LAZY, Care.STUCK, Care.LEFT))

    def serve_promptly(self, route: int) -> None:
        """Turns until nothing waits, and sends."""
        lane = self.player.hub.lanes[route]
        while lane.inbox or lane.waiting:
            self.event(f"U {route}")
            if lane.outbox:
                self.send(route)
        while lane.outbox:
            self.send(route)
        if self.random.random() < 0.02:
            self.event(f"U {route}")
            self.send(route)

    def disturb(self) -> None:
        """Hostile datagrams, odd callers, and routes that open and close, by their chances. A Close of a route whose inbox is full changes
        nothing."""
        if self.random.random() < self.plot.hostile:
            self.attack()
        if self.random.random() < self.plot.odd_callers:
            self.call_oddly()
        if self.random.random() < self.plot.openings:
            self.open_or_close()
        if self.plot.closes:
            self.close_at_an_end()
        for route in self.full_routes():
            if self.random.random() < 0.02:
                self.event(f"C {route} {self.moment()}")

    def attack(self) -> None:
        """A hostile datagram for a session, most often from its own peer; or for one that is gone."""
        random = self.random
        opened = [it for it in self.callers if it.state == State.OPEN]
        if opened and random.random() < 0.85:
            caller = random.choice(opened)
            peer, aim = caller.peer, hostile.Aim(caller.session, caller.number(), self.expected_stamp(caller))
        else:
            peer, session = random.choice(self.passed) if self.passed else ((ADDRESSES[0], 4000), 0)
            aim = hostile.Aim(random.choice((session, session, 0, 0x7FF00000, random.randrange(1 << 32))), random.randrange(1 << 31), 0)
        if random.random() < 0.1:
            peer = (random.choice(ADDRESSES), peer[1] + random.choice((0, 1)))
        self.arrive(peer, hostile.datagram(random, aim))

    def expected_stamp(self, caller: Caller) -> int:
        """The timestamp near which the gateway reads one of the caller's."""
        session = self.session_of(caller)
        if isinstance(session, SessionOfPublisher):
            return session.clock.expected(self.now, session.base) % WORDS
        return caller.stamp() if session is None else (session.opening.stamp + session.time(self.now)) % WORDS

    def session_of(self, caller: Caller) -> Session | None:
        """The model's open session of a caller."""
        sessions = (it for lane in self.player.hub.lanes for it in lane.route.open)
        return next((it for it in sessions if it.opening.identity == caller.session), None)

    def wait_for(self, publisher: Publisher) -> None:
        """Most often goes on until a payload of a live publisher is due. Nobody is served meanwhile."""
        session = self.session_of(publisher)
        if isinstance(session, SessionOfPublisher) and session.entry.is_live and self.random.random() < 0.7:
            deadlines = (session.received[it].deadline for it in session.waiting())
            self.now = self.beside([it for it in deadlines if it < self.now + 2 * SECOND])

    def call_oddly(self) -> None:
        """A conclusion with something wrong, for a route that is shown, if one is."""
        entry = self.random.choice(list(self.entries().values()) or [None])
        peer = (self.random.choice(ADDRESSES), self.random.randint(4000, 4010))
        target = target_of(entry) if entry else Target("nobody", "live", {}, {}, None)
        self.arrive(peer, hostile.odd_conclusion(self.random, peer, self.now, target))

    def full_routes(self) -> list[int]:
        """The routes that are shown and have full inboxes."""
        return [it for it in self.entries() if self.player.hub.lanes[it].is_full()]

    def close_at_an_end(self) -> None:
        """A route may close while a session of it drains, and just when one was silent for five seconds."""
        for at in self.entries():
            sessions = self.player.hub.lanes[at].route.open
            drains, is_silent = any(it.drains for it in sessions), any(it.is_idle(self.now) for it in sessions)
            if drains and self.random.random() < self.plot.closes or is_silent and self.random.random() < self.plot.closes:
                self.event(f"C {at} {self.now}")

    def open_or_close(self) -> None:
        """A route is opened, rightly or with a fault, or closed, also one that is hidden already."""
        random = self.random
        if random.random() < 0.5:
            shown = list(self.entries()) if random.random() < 0.7 else []
            self.event(f"C {random.choice(shown or range(len(self.player.hub.lanes)))} {self.moment()}")
            return
        name = random.choice((*NAMES, *NAMES, "", "é", "x" * 64, "x" * 65))
        numbers = [random.choice(it) for it in ((20, 120), (32, 32, 100), (1, 4, 4, 6), (16, 40), (16, 40))]
        if random.random() < 0.3:
            numbers[random.randrange(len(numbers))] = random.choice((0, 15, 9000, (1 << 32) - 1))
        self.event(f"O {name} {random.choice(('live', 'buffer'))} {' '.join(map(str, numbers))}")

    def step(self) -> None:
        self.pass_time()
        self.network.arrive()
        self.dismiss()
        self.invite()
        for caller in list(self.callers):
            if self.random.random() < 0.3:
                caller.act()
        self.disturb()
        self.tick()
        self.serve()

    def end(self) -> None:
        """Now and then the last line is no event."""
        if self.random.random() < 0.3:
            self.lines.append(self.random.choice(NO_EVENTS).replace("~", ADDRESSES[0].hex()))
            try:
                self.answers.append(self.player.answer(self.lines[-1].encode()))
            except NoEvent:
                self.answers.append(f"tape fault {len(self.lines)}")
                self.tally.add(NO_EVENT)


def make(seed: int, plot: Plot, length: int, keys: frozenset[str], tally: Tally) -> Made:
    """A tape of some lines more than `length`, times those of its plot. The same seed gives the same tape."""
    world = World(Random(seed), plot, keys, tally)
    while len(world.lines) < length * plot.times:
        world.step()
    world.end()
    tally.note_sessions(world.player.hub)
    return Made(world.config, world.lines, world.answers)

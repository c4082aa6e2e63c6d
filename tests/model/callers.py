"""Callers of random tapes. They stream as real ones do, now and then badly, and hear what the model replies."""
from __future__ import annotations

from enum import Enum
from random import Random
from typing import TYPE_CHECKING, NamedTuple

import material
import packets
from material import WRONG_PASSPHRASE, Material
from rules.ciphers import KEY_LENGTHS
from rules.numbers import SECOND

if TYPE_CHECKING:
    from world import World

Address = tuple[bytes, int]
USUAL_WINDOW = 8192
WHOLE_MESSAGE = 0xC0000000
IPV4 = bytes(10) + b"\xff\xff"
ADDRESSES = [IPV4 + bytes(it) for it in ((127, 0, 0, 1), (10, 0, 0, 1), (10, 0, 0, 5))] + [b"\x20\x01" + bytes(13) + b"\x01"]


class State(Enum):
    """How far a caller has come."""

    SILENT = "said nothing yet"
    BEGUN = "sent an induction"
    ASKED = "sent a conclusion"
    OPEN = "has a session"
    ENDED = "is over"


class Target(NamedTuple):
    """The route that a caller asks for: its name, its mode, the keys and passphrases of both roles, if it has any, and the length of keys that
    it wants."""

    name: str
    mode: str
    keys: dict[str, str]
    passphrases: dict[str, str]
    key_length: int | None

    def material(self, random: Random, role: str) -> Material | None:
        """What a caller of a role needs to be let in, seldom with another passphrase or length; None if the role has no passphrase."""
        if role not in self.passphrases:
            return None
        passphrase = self.passphrases[role] if random.random() < 0.93 else random.choice((WRONG_PASSPHRASE, *self.passphrases.values()))
        length = self.key_length if self.key_length is not None and random.random() < 0.9 else random.choice(KEY_LENGTHS)
        return Material(random, passphrase, length)


def stream_id(random: Random, target: Target, role: str) -> bytes:
    """A Stream ID in one of its forms."""
    key = target.keys.get(role)
    if role == "request" and key is None and random.random() < 0.3:
        return target.name.encode()
    parts = [f"r={target.name}"] + ([f"m={role}"] if role == "publish" or random.random() < 0.5 else [])
    parts += [f"k={key}"] if key is not None and random.random() < 0.95 else []
    parts += random.sample(["u=somebody", "h=10.0.0.1", "part", "s=1=2", "k=late"], random.choice((0, 0, 1, 2)))
    return b"#!::" + ",".join(parts).encode()


class Caller:
    """A caller, from its first handshake to its end. Its numbers count without bound; `began` is the moment of its timestamp 0, and its
    clock is slow by `skew` millionths."""

    role = ""

    def __init__(self, world: World, target: Target, peer: Address, socket_id: int) -> None:
        self.world, self.random, self.target, self.peer, self.socket_id = world, world.random, target, peer, socket_id
        self.initial = self.beginning(packets.NUMBERS, 60)
        self.first_stamp = self.beginning(packets.WORDS, 4_000_000)
        self.began = world.now
        self.skew = self.random.choice(world.plot.skews)
        self.stream_id = stream_id(self.random, target, self.role)
        self.mtu = self.random.choice((1500, 1500, 1500, 9000, 1400, 76))
        self.window = self.random.choice((USUAL_WINDOW, USUAL_WINDOW, 25600, 40, 3))
        self.delays = self.random.choice(((120, 120), (20, 300), (0, 0), (1500, 20)))
        self.congestion = self.random.choice((b"", b"", b"live" if target.mode == "live" else b"file"))
        self.material = target.material(self.random, self.role)
        self.state = State.SILENT
        self.session = 0
        self.is_mute = False
        self.rests_until = 0
        self.lingers = 0
        self.hurry = 1.0

    def beginning(self, end: int, nearly: int) -> int:
        """Where numbers begin that go round at an end: any number, or by the plot one that is nearly there."""
        if self.world.plot.near_wraps:
            return end - self.random.randint(1, nearly)
        return self.random.choice((0, 5, self.random.randrange(end)))

    # ---- handshakes ----

    def stamp(self, moment: int | None = None) -> int:
        """The timestamp of a packet that is sent at a moment, now if none is given."""
        time = (self.world.now if moment is None else moment) - self.began
        return (self.first_stamp + time - time * self.skew // SECOND) % packets.WORDS

    def flags(self) -> int:
        """The flags of its conclusion."""
        return packets.FLAGS[self.target.mode] | self.random.choice((0, 4, 0x80))

    def blocks(self) -> bytes:
        """The blocks of its conclusion."""
        text = self.plain_blocks()
        if not self.target.passphrases:
            return text
        keys = material.blocks(self.random, self.material)
        return text + keys if self.random.random() < 0.8 else keys + text

    def plain_blocks(self) -> bytes:
        """Those without a KMREQ."""
        flags = self.flags()
        text = packets.hsreq(flags, *self.delays) + packets.block(packets.STREAM_ID, packets.text_words(self.stream_id))
        if self.congestion:
            text += packets.block(packets.CONGESTION, packets.text_words(self.congestion))
        return text

    def handshake(self, version: int, kind: int, cookie: int, blocks: bytes = b"") -> bytes:
        body = packets.handshake(version, 5, self.initial % packets.NUMBERS, self.mtu, self.window, kind, self.socket_id, cookie, blocks)
        return packets.control(packets.HANDSHAKE, 0, self.stamp(), 0, body)

    def cookie(self) -> int:
        return packets.cookie(self.world.secret, *self.peer, self.world.now // 60_000_000)

    def call(self) -> None:
        """The next handshake: an induction, and then conclusions until one is answered."""
        if self.state == State.SILENT:
            self.send(self.handshake(4, packets.INDUCTION, 0))
            self.state = State.BEGUN
        else:
            self.send(self.handshake(5, packets.CONCLUSION, self.cookie(), self.blocks()))
            self.state = State.ASKED if self.state == State.BEGUN else self.state

    # ---- packets ----

    def send(self, datagram: bytes) -> None:
        self.world.network.send_up(self, datagram)

    def send_control(self, kind: int, information: int = 0, body: bytes = b"", subtype: int = 0) -> None:
        self.send(packets.control(kind, information, self.stamp(), self.session, body, subtype))

    def hear(self, datagram: bytes) -> None:
        """Takes a packet for this caller's socket ID."""
        packet = packets.read(datagram)
        if isinstance(packet, packets.Control) and packet.kind == packets.HANDSHAKE:
            found = packets.read_handshake(packet.body)
            if found is not None and found.kind == packets.CONCLUSION:
                self.opened(found.socket_id)
            elif found is not None and found.kind != packets.INDUCTION and self.state == State.ASKED:
                self.state = State.ENDED
        elif isinstance(packet, packets.Control) and packet.kind == packets.SHUTDOWN:
            self.state = State.ENDED
        elif isinstance(packet, packets.Control):
            self.on_control(packet)
        elif packet is not None:
            self.on_data(packet)

    def act(self) -> None:
        """Does what is next. Now and then a caller rests, falls silent, ends, or repeats its conclusion."""
        if self.is_mute or self.state == State.ENDED:
            return
        if self.state != State.OPEN:
            self.call()
        elif self.lingers:
            self.linger()
        elif self.random.random() < self.world.plot.ends * self.hurry:
            self.is_mute = self.random.random() < 0.3
            if not self.is_mute:
                self.end()
        elif self.random.random() < 0.01:
            self.call()
        elif self.random.random() < 0.02:
            self.send_control(packets.KEEPALIVE)
        elif self.world.now >= self.rests_until:
            self.stream()
            if self.random.random() < 0.01:
                self.rests_until = self.world.now + self.random.randint(50_000, 2_000_000)

    def opened(self, session: int) -> None:
        """A session is open, which may be that of before."""
        self.state, self.session = State.OPEN, session

    def end(self) -> None:
        self.send_control(packets.SHUTDOWN)
        self.state = State.ENDED

    def linger(self) -> None:
        """Something that a caller doesn't send after its SHUTDOWN."""
        raise NotImplementedError

    def stream(self) -> None:
        """What a caller with a session does."""
        raise NotImplementedError

    def number(self) -> int:
        """How far its numbers have come."""
        raise NotImplementedError

    def on_control(self, packet: packets.Control) -> None:
        pass

    def on_data(self, packet: packets.Data) -> None:
        pass


class Publisher(Caller):
    """Sends payloads in bursts. What it sent it can send again, or give up."""

    role = "publish"

    def __init__(self, world: World, target: Target, peer: Address, socket_id: int) -> None:
        super().__init__(world, target, peer, socket_id)
        self.next = self.base = self.initial
        self.room = 32
        self.flight: dict[int, tuple[int, bytes]] = {}
        self.is_reckless = self.random.random() < 0.1

    def end(self) -> None:
        """Often a burst comes just before the SHUTDOWN, and now and then a packet that is due long after it."""
        if self.world.plot.is_libsrt and self.random.random() < 0.3:
            self.end_at_once()
        else:
            if self.random.random() < 0.5:
                self.send_new(self.random.randint(1, 70), 1)
            if self.random.random() < 0.2:
                self.send_early(6_000_000)
            super().end()
        if self.random.random() < self.world.plot.lingers:
            self.state, self.lingers = State.OPEN, self.random.randint(1, 12)

    def end_at_once(self) -> None:
        """All from the last ACK on, also what was left out, and a last burst reach the gateway without the line, often the first packet of
        the burst behind the others. The SHUTDOWN follows, often just when a packet is due."""
        count = self.random.choice((1, 3, 30, 75, 75))
        before, burst = list(range(self.base, self.next)), list(range(self.next, self.next + count))
        for number in before + burst:
            self.flight.setdefault(number, (self.stamp(), self.random.randbytes(self.random.choice((1, 30)))))
        for number in before + (burst[1:] + burst[:1] if self.random.random() < 0.6 else burst):
            self.world.arrive(self.peer, self.data(number, False))
            self.world.serve()
        self.next += count
        self.world.wait_for(self)
        self.world.arrive(self.peer, packets.control(packets.SHUTDOWN, 0, self.stamp(), self.session))
        self.state = State.ENDED

    def linger(self) -> None:
        self.lingers -= 1
        if self.random.random() < 0.4:
            self.call()
        elif self.random.random() < 0.6:
            self.send_control(self.random.choice((packets.SHUTDOWN, packets.SHUTDOWN, packets.KEEPALIVE)))
        else:
            self.stream()
        if not self.lingers:
            self.state = State.ENDED

    def opened(self, session: int) -> None:
        """In another session than that of before it sends its payloads from the first one on."""
        if self.session not in (0, session):
            self.next = self.base = self.initial
            self.flight.clear()
            self.lingers = 0
        super().opened(session)

    def stream(self) -> None:
        """A burst of new packets, most often short, and no more than the gateway has room for, but for reckless ones. In a long one every
        second number may be missing. Who has keys renews them now and then."""
        if self.material is not None and self.random.random() < 0.03:
            self.renew(self.material)
        is_long = self.random.random() < 0.03
        self.send_new(70 if is_long else self.random.choice((1, 1, 1, 1, 2, 2, 3, 5)), 2 if is_long and self.random.random() < 0.2 else 1)

    def renew(self, its: Material) -> None:
        """A KMREQ with new keys, or one with something wrong. It may go on under the new key before that is answered."""
        chance = self.random.random()
        if chance < 0.7:
            self.send_control(packets.USER_DEFINED, 0, its.renewed(), packets.KMREQ)
        elif chance < 0.8:
            its.turn()
        else:
            message = material.changed(self.random, its.message(its.current)) if chance < 0.9 else material.other(self.random, its)
            self.send_control(packets.USER_DEFINED, 0, message, self.random.choice((packets.KMREQ, packets.KMREQ, packets.KMRSP, 0, 5)))

    def send_new(self, count: int, stride: int) -> None:
        """New packets, each by a stride past the one before."""
        for _ in range(count):
            if self.next - self.base >= self.room and not self.is_reckless:
                break
            self.send_early(self.random.choice((0, 0, 0, -1000, -30_000, 200_000)))
            self.next += stride - 1
            if self.random.random() < 0.01:
                self.next += self.random.choice((1, 5, 40))

    def send_early(self, early: int) -> None:
        """A new packet whose timestamp is ahead of its time, or, if that is below 0, behind it."""
        size = self.random.choice((1, 4, 10, 30, 30, 33, self.random.choice((200, 1456))))
        self.flight[self.next] = (self.stamp(self.world.now + early), self.random.randbytes(size))
        self.send_number(self.next, False)
        self.next += 1

    def number(self) -> int:
        return self.next

    def data(self, number: int, again: bool) -> bytes:
        stamp, payload = self.flight[number]
        flags = WHOLE_MESSAGE
        if self.material is not None:
            which, payload = self.material.encrypted(number % packets.NUMBERS, payload)
            flags |= which << 27
        return packets.data(number % packets.NUMBERS, 1 + number % 1000, stamp, self.session, payload, again, flags)

    def send_number(self, number: int, again: bool) -> None:
        self.send(self.data(number, again))

    def on_control(self, packet: packets.Control) -> None:
        """Full ACKs are confirmed, and NAKs bring resends and drop requests, most often. A KMRSP with a message turns the key."""
        if packet.kind == packets.USER_DEFINED and packet.subtype == packets.KMRSP and len(packet.body) > 4 and self.material is not None:
            self.material.turn()
        if packet.kind == packets.ACK:
            fields = packets.words_of(packet.body)
            self.base = max(self.base, packets.near(fields[0], self.base))
            if len(fields) >= 4:
                self.room = fields[3]
            if packet.info and self.random.random() < 0.8:
                self.confirm(packet.info)
        if packet.kind == packets.NAK:
            for first, last in packets.runs_of(packet.body):
                self.answer_loss(packets.near(first, self.base), packets.near(last, self.base))

    def confirm(self, number: int) -> None:
        """An ACKACK, by some plots now and then with a timestamp that is far from its time."""
        stamp = self.stamp()
        if self.random.random() < self.world.plot.lies:
            stamp += self.random.choice((-50_000, 50_000, 700_000, packets.WORDS // 2, self.random.randrange(packets.WORDS)))
        self.send(packets.control(packets.ACKACK, number, stamp % packets.WORDS, self.session))

    def answer_loss(self, first: int, last: int) -> None:
        if self.random.random() < 0.2:
            self.send_control(packets.DROPREQ, 1, packets.words(first % packets.NUMBERS, last % packets.NUMBERS))
        elif self.random.random() < 0.8:
            for number in range(first, min(last, first + 30) + 1):
                if number in self.flight:
                    self.send_number(number, True)


class Subscriber(Caller):
    """Receives, acknowledges, and asks for what is missing."""

    role = "request"

    def __init__(self, world: World, target: Target, peer: Address, socket_id: int) -> None:
        super().__init__(world, target, peer, socket_id)
        self.front = self.top = self.initial
        self.waiting: set[int] = set()
        self.acks = 0
        self.pace = self.random.choice((1.0, 1.0, 1.0, 1.0, 0.2, 0.0))
        self.is_slow = self.random.random() < world.plot.slow
        self.reports = self.random.random() >= world.plot.unreported
        self.holds_until = 0
        self.confirms = self.material is None or self.random.random() < 0.9
        if self.is_slow:
            self.pace, self.window, self.hurry = 0.5, self.random.choice((2, 3, 10)), 0.2

    def number(self) -> int:
        return self.front

    def flags(self) -> int:
        return super().flags() & ~packets.PERIODIC_NAK | (packets.PERIODIC_NAK if self.reports else 0)

    def on_data(self, packet: packets.Data) -> None:
        number = packets.near(packet.number, self.front)
        if number >= self.front:
            self.waiting.add(number)
            self.top = max(self.top, number + 1)
        self.pass_waiting()

    def on_control(self, packet: packets.Control) -> None:
        if packet.kind == packets.DROPREQ:
            _, last = packets.words_of(packet.body)[:2]
            self.front = max(self.front, packets.near(last, self.front) + 1)
            self.pass_waiting()
        if packet.kind == packets.USER_DEFINED and packet.subtype == packets.KMREQ and self.confirms:
            self.confirm(packet.body)

    def confirm(self, message: bytes) -> None:
        """Most often the KMRSP to a KMREQ, with the same message; or one with another, or nothing."""
        chance = self.random.random()
        wrong = (packets.words(0x03000000), packets.words(0x04000000), message[:-1] + bytes([message[-1] ^ 1]), message[:-4], message + bytes(4), b"")
        if chance < 0.7:
            self.send_control(packets.USER_DEFINED, 0, message, packets.KMRSP)
        elif chance < 0.8:
            self.send_control(packets.USER_DEFINED, 0, self.random.choice(wrong), packets.KMRSP)
        elif chance < 0.85:
            self.send_control(packets.USER_DEFINED, 0, message, self.random.choice((packets.KMREQ, 0)))

    def pass_waiting(self) -> None:
        while self.front in self.waiting:
            self.waiting.discard(self.front)
            self.front += 1

    def missing(self) -> list[tuple[int, int]]:
        """Numbers that haven't come, each as a run."""
        numbers = [it for it in range(self.front, self.top) if it not in self.waiting][:40]
        return [(it, it) for it in numbers]

    def report(self, runs: list[tuple[int, int]]) -> None:
        """A NAK of runs of numbers."""
        words = [(first % packets.NUMBERS, last % packets.NUMBERS) for first, last in runs]
        self.send_control(packets.NAK, 0, packets.loss_list(words))

    def stream(self) -> None:
        """An ACK of some form, or a NAK, as often as the pace says. Without any pace the session is kept alive, and now and then long gone
        numbers are asked for. A slow one acknowledges nothing for some seconds now and then."""
        if self.is_slow and self.holds():
            return
        if self.pace == 0.0 and self.random.random() < 0.05:
            self.send_control(packets.KEEPALIVE)
            self.report([(self.top - self.random.randint(1, 9000), self.top - 1)])
        if self.random.random() >= self.pace:
            return
        if self.missing() and self.random.random() < 0.6:
            self.report(self.missing())
        elif self.random.random() < 0.1:
            first = self.front - self.random.randint(1, 50)
            self.report([(first, first + self.random.randint(0, 80))])
        else:
            self.acknowledge()

    def holds(self) -> bool:
        """Whether it says only that it is there."""
        if self.random.random() < 0.04:
            self.holds_until = self.world.now + self.random.randint(1_000_000, 7_000_000)
        if self.world.now < self.holds_until:
            self.send_control(packets.KEEPALIVE)
        return self.world.now < self.holds_until

    def acknowledge(self) -> None:
        """A Full ACK, a Light one, or one of another length; most often of what came, now and then beside it."""
        self.acks += 1
        number = self.front + self.random.choice((0, 0, 0, 0, 0, 0, 1, 3, -2))
        window = self.window if self.is_slow else self.random.choice((8192, 30, 2))
        more = (self.random.choice((20_000, 100_000, 0)), self.random.choice((1000, 50_000)), window, 0, 0, 0)
        length = self.random.choice((0, 0, 1, 2, 3, 6, 6))
        body = packets.words(number % packets.NUMBERS, *more[:length]) + self.random.choice((b"", b"", b"ab"))
        self.send_control(packets.ACK, self.acks if length and self.random.random() < 0.8 else 0, body)

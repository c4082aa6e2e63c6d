"""A line between callers and the gateway that loses, doubles and reorders datagrams by a seeded generator. It can make a caller's clock
slow."""
import heapq
import random
import select
import socket
import struct
import threading
import time

import packets
from machine import drops_of, family_of

FAR_LOSS = 0.05
FAR_DELAY = 0.01  # One way, in seconds.
MILLION = 1_000_000


class Proxy(threading.Thread):
    """Forwards datagrams in both directions. `loss`, `double` and `late` are probabilities from 0 to 1, and may be set while
    it runs. Each datagram takes `delay` seconds; a late one is held for at most `hold` seconds more, so that others overtake it. What
    `spares` says yes to isn't lost. `there` counts the datagrams that went to the gateway, `back_here` those that came from it. `seen` is
    called with each of these: whether it goes there, and its bytes."""

    def __init__(self, target, seed, loss=0.0, double=0.0, late=0.0, hold=0.02, seen=lambda goes_there, datagram: None, delay=0.0, spares=lambda datagram: False):
        super().__init__(daemon=True)
        self.target, self.chance, self.seen, self.delay, self.spares = target, random.Random(seed), seen, delay, spares
        self.loss, self.double, self.late, self.hold = loss, double, late, hold
        self.front = socket.socket(socket.AF_INET, socket.SOCK_DGRAM)
        self.front.setsockopt(socket.SOL_SOCKET, socket.SO_RCVBUF, 1 << 22)
        self.front.bind(("127.0.0.1", 0))
        self.address = self.front.getsockname()
        self.backs, self.peers, self.held, self.count = {}, {}, [], 0
        self.lost = self.doubled = self.delayed = self.passed = self.there = self.back_here = 0
        self.stops = threading.Event()
        self.start()

    def back(self, peer):
        """The socket that forwards a caller's datagrams to the gateway."""
        if peer not in self.backs:
            back = socket.socket(family_of(self.target[0]), socket.SOCK_DGRAM)
            back.setsockopt(socket.SOL_SOCKET, socket.SO_RCVBUF, 1 << 22)
            back.connect(self.target)
            self.backs[peer], self.peers[back] = back, peer
        return self.backs[peer]

    def hand(self, out, peer, datagram):
        if peer is None:
            self.seen(True, datagram)
        try:
            out.sendto(datagram, peer) if peer else out.send(datagram)
            self.there += peer is None
        except OSError:
            pass

    def take(self, out, peer, datagram):
        if self.chance.random() < self.loss and not self.spares(datagram):
            self.lost += 1
            return
        copies = 1
        if self.chance.random() < self.double:
            self.doubled, copies = self.doubled + 1, 2
        for _ in range(copies):
            self.passed, time_taken = self.passed + 1, self.delay
            if self.chance.random() < self.late:
                self.delayed += 1
                time_taken += self.hold * self.chance.random()
            if time_taken:
                self.count += 1
                heapq.heappush(self.held, (time.monotonic() + time_taken, self.count, out, peer, datagram))
            else:
                self.hand(out, peer, datagram)

    def run(self):
        while not self.stops.is_set():
            wait = 0.05
            while self.held and self.held[0][0] <= time.monotonic():
                self.hand(*heapq.heappop(self.held)[2:])
            if self.held:
                wait = min(wait, max(0, self.held[0][0] - time.monotonic()))
            for ready in select.select([self.front, *self.peers], [], [], wait)[0]:
                try:
                    if ready is self.front:
                        datagram, peer = ready.recvfrom(2048)
                        self.take(self.back(peer), None, datagram)
                    else:
                        datagram = ready.recv(2048)
                        self.back_here += 1
                        self.seen(False, datagram)
                        self.take(self.front, self.peers[ready], datagram)
                except OSError:
                    pass

    def drops(self):
        """How many of the gateway's datagrams the kernel dropped at this line."""
        return sum(drops_of(it.getsockname()[1]) for it in self.peers)

    def stop(self):
        self.stops.set()
        self.join(5)
        for one in [self.front, *self.peers]:
            one.close()


class SlowClock(Proxy):
    """A line that makes the clock of its only caller slow by `skew` millionths. It rewrites the timestamps of all packets that the caller
    sends, counted from that of its first conclusion. What is sent before the conclusion keeps its timestamp."""

    def __init__(self, target, seed, skew, **others):
        self.skew, self.conclusion = skew, None
        super().__init__(target, seed, **others)

    def take(self, out, peer, datagram):
        super().take(out, peer, datagram if peer else self.slowed(datagram))

    def slowed(self, datagram):
        packet = packets.read(datagram)
        if packet is None:
            return datagram
        if self.conclusion is None and is_conclusion(packet):
            self.conclusion = packet.stamp
        if self.conclusion is None:
            return datagram
        time_since = packets.near(packet.stamp, self.conclusion, packets.WORDS) - self.conclusion
        stamp = (packet.stamp - time_since * self.skew // MILLION) % packets.WORDS
        return datagram[:8] + struct.pack("!I", stamp) + datagram[12:]


def is_conclusion(packet):
    """Whether a packet is a handshake's conclusion."""
    handshake = packets.read_handshake(packet.body) if isinstance(packet, packets.Control) and packet.kind == packets.HANDSHAKE else None
    return handshake is not None and handshake.kind == packets.CONCLUSION


def opens_or_ends(datagram):
    """Whether a datagram is a handshake, or a SHUTDOWN, which nobody sends twice."""
    packet = packets.read(datagram)
    return isinstance(packet, packets.Control) and packet.kind in (packets.HANDSHAKE, packets.SHUTDOWN)


def far_line(target, seed):
    """A line that loses 5 % both ways and takes 20 ms for a round trip. Sessions open and end on it without loss."""
    return Proxy(target, seed, loss=FAR_LOSS, delay=FAR_DELAY, spares=opens_or_ends)

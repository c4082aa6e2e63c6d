"""The line between callers and the gateway of a random tape: it loses, repeats and reorders."""
from __future__ import annotations

import heapq
from typing import TYPE_CHECKING, NamedTuple

from callers import Address, Caller

if TYPE_CHECKING:
    from world import World


class Transit(NamedTuple):
    """A datagram on its way to a caller, or, if that is None, to the gateway. `order` makes each different from all others."""

    due: int
    order: int
    caller: Caller | None
    peer: Address
    datagram: bytes


class Network:
    """What is on its way, by the moment at which it comes."""

    def __init__(self, world: World) -> None:
        self.world = world
        self.on_the_way: list[Transit] = []
        self.count = 0

    def delay(self) -> int:
        random = self.world.random
        return random.randint(0, 60_000) if random.random() < self.world.plot.delays else random.choice((0, 0, 200, 1000, 3000))

    def put(self, caller: Caller | None, peer: Address, datagram: bytes) -> None:
        """Puts a datagram on its way; it may be lost, or come twice."""
        random, plot = self.world.random, self.world.plot
        copies = 0 if random.random() < plot.loss else 2 if random.random() < plot.repeats else 1
        for _ in range(copies):
            self.count += 1
            heapq.heappush(self.on_the_way, Transit(self.world.now + self.delay(), self.count, caller, peer, datagram))

    def send_up(self, caller: Caller, datagram: bytes) -> None:
        """A caller sends a datagram to the gateway."""
        self.put(None, caller.peer, datagram)

    def send_down(self, peer: Address, datagram: bytes) -> None:
        """The gateway sends a datagram to a caller, by its socket ID."""
        socket_id = int.from_bytes(datagram[12:16], "big")
        for caller in self.world.callers:
            if caller.peer == peer and caller.socket_id == socket_id:
                self.put(caller, peer, datagram)

    def arrive(self) -> None:
        """All that is due arrives."""
        while self.on_the_way and self.on_the_way[0].due <= self.world.now:
            it = heapq.heappop(self.on_the_way)
            if it.caller:
                it.caller.hear(it.datagram)
            else:
                self.world.arrive(it.peer, it.datagram)

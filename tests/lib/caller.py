"""SRT callers in the publisher's and the subscriber's role, written from draft-sharabayko-srt-01 alone.

Each caller is a thread with one UDP socket. It counts the datagrams that it sent (`given`) and received (`taken`). It numbers
packets from its initial number on without a limit, and writes the numbers modulo 2^31. Sections named in comments are the
draft's."""
import collections
import itertools
import random
import select
import socket
import struct
import threading
import time
import traceback

import packets
from machine import family_of

SECOND = 1_000_000


def now():
    """The time in microseconds, by the clock that all callers share."""
    return time.monotonic_ns() // 1000


class Refused(Exception):
    """The handshake was refused with this code (section 4.3)."""

    def __init__(self, code):
        super().__init__(f"refused with {code}")
        self.code = code


class Silent(Exception):
    """No answer came in time."""


class Caller(threading.Thread):
    """What both roles share: the handshake, timestamps, KEEPALIVE and the end of a session. Its clock is slow by `skew` millionths."""

    def __init__(self, address, stream_id=None, mode="live", receiver_ms=120, sender_ms=0, mtu=1500, window=8192,
                 initial=None, version=5, flags=None, asks=True, more=b"", congestion=None, source=None, skew=0):
        super().__init__(daemon=True)
        self.socket = socket.socket(family_of(address[0]), socket.SOCK_DGRAM)
        self.socket.setsockopt(socket.SOL_SOCKET, socket.SO_RCVBUF, 1 << 22)
        if source is not None:
            self.socket.bind((source, 0))
        self.socket.connect(address)
        self.socket.setblocking(False)
        self.here = self.socket.getsockname()
        self.began, self.skew = now(), skew
        self.mode, self.mtu, self.window, self.version = mode, mtu, window, version
        self.socket_id = random.getrandbits(30) + 1
        self.initial = random.getrandbits(30) if initial is None else initial
        self.extension = (1 if asks else 0) | (0 if stream_id is None else 4)
        request = packets.hsreq(packets.FLAGS[mode] if flags is None else flags, receiver_ms, sender_ms) if asks else b""
        stream = stream_id.encode() if isinstance(stream_id, str) else stream_id
        self.blocks = packets.extensions(request, stream, congestion) + more
        self.answer, self.cookie, self.peer_id = None, 0, 0
        self.rtt, self.variance = 100_000, 50_000
        self.heard = self.sent = self.kept_alive = self.given = self.taken = 0
        self.handshakes = collections.Counter()
        self.stops, self.shut, self.error = threading.Event(), threading.Event(), None

    # The handshake (section 4.3.1).

    def stamp(self):
        time = now() - self.began
        return (time - time * self.skew // SECOND) % packets.WORDS

    def send(self, datagram):
        try:
            self.socket.send(datagram)
            self.sent, self.given = now(), self.given + 1
        except (ConnectionRefusedError, BlockingIOError):
            pass

    def send_control(self, kind, info=0, body=b""):
        self.send(packets.control(kind, info, self.stamp(), self.peer_id, body))

    def receive(self, seconds):
        """The next packet, or None if none comes within `seconds`."""
        if not select.select([self.socket], [], [], max(0, seconds))[0]:
            return None
        try:
            datagram = self.socket.recv(2048)
        except (ConnectionRefusedError, BlockingIOError):
            return None
        self.taken += 1
        return packets.read(datagram)

    def asked(self, body, wanted, until):
        """Sends a handshake every 250 ms until an answer of the wanted type comes. Raises Refused, or Silent after `until`."""
        while now() < until:
            self.send(packets.control(packets.HANDSHAKE, 0, self.stamp(), 0, body))
            self.handshakes[wanted] += 1
            again = min(until, now() + SECOND // 4)
            while now() < again:
                packet = self.receive((again - now()) / SECOND)
                if not isinstance(packet, packets.Control) or packet.kind != packets.HANDSHAKE:
                    continue
                answer = packets.read_handshake(packet.body)
                if packet.destination != self.socket_id or answer is None:
                    continue
                if answer.kind == wanted:
                    return answer
                if 1000 <= answer.kind < 2000:
                    raise Refused(answer.kind)
        raise Silent()

    def induce(self, seconds=5):
        """Makes the induction, which gives the cookie."""
        body = packets.induction(self.initial, self.mtu, self.window, self.socket_id)
        answer = self.asked(body, packets.INDUCTION, now() + int(seconds * SECOND))
        self.cookie = answer.cookie
        return answer

    def conclusion(self):
        """The body of the conclusion, with the cookie of the last induction."""
        return packets.handshake(self.version, self.extension, self.initial, self.mtu, self.window, packets.CONCLUSION,
                                 self.socket_id, self.cookie, self.blocks)

    def conclude(self, seconds=5):
        """Makes the conclusion, which opens the session."""
        self.answer = self.asked(self.conclusion(), packets.CONCLUSION, now() + int(seconds * SECOND))
        self.peer_id, self.heard = self.answer.socket_id, now()
        return self.answer

    def call(self, seconds=5):
        """Opens the session, and returns the conclusion's answer. Doesn't start the caller's thread."""
        until = now() + int(seconds * SECOND)
        self.induce(seconds)
        return self.conclude((until - now()) / SECOND)

    def delays(self):
        """The receiver's and the sender's delay of the answer, in milliseconds (section 4.4)."""
        return struct.unpack("!2H", self.answer.blocks[packets.HSRSP][8:12])

    # The session.

    def run(self):
        try:
            while not self.stops.is_set() and not self.shut.is_set():
                self.on_time()
                packet = self.receive(self.rest())
                for _ in range(64):
                    if packet is None:
                        break
                    self.on_packet(packet)
                    packet = self.receive(0)
        except Exception as error:  # It is raised again at the session's end, in the thread that asks for it.
            traceback.print_exc()
            self.error = error

    def rest(self):
        """The seconds until there is something to do."""
        return 0.005

    def on_packet(self, packet):
        if packet.destination != self.socket_id:
            return
        self.heard = now()
        if isinstance(packet, packets.Data):
            self.on_data(packet)
        elif packet.kind == packets.SHUTDOWN:
            self.shut.set()
        elif packet.kind == packets.KEEPALIVE:
            self.kept_alive += 1
        else:
            self.on_control(packet)

    def on_data(self, packet):
        pass

    def on_control(self, packet):
        pass

    def on_time(self):
        if now() - self.sent >= SECOND:
            self.send_control(packets.KEEPALIVE)

    def sample(self, trip):
        """Adds the time of a round trip, in microseconds, to both means (section 4.10)."""
        self.variance = (3 * self.variance + abs(self.rtt - trip)) // 4
        self.rtt = (7 * self.rtt + trip) // 8

    def stop(self):
        """Ends the thread, and sends nothing to the peer. Raises the thread's error, if it had one."""
        self.stops.set()
        if self.ident is not None:
            self.join(10)
        if self.error is not None:
            raise self.error

    def close(self):
        """Ends the session with a SHUTDOWN."""
        self.stop()
        self.send_control(packets.SHUTDOWN)
        self.socket.close()


class Publisher(Caller):
    """Sends the payloads of an iterator, `burst` of them every `interval` microseconds, or with 0 as fast as the flow window allows."""

    def __init__(self, address, stream_id, payloads, interval=10_000, burst=1, **others):
        super().__init__(address, stream_id, **others)
        self.payloads, self.interval, self.burst = iter(payloads), interval, burst
        self.base = self.next = self.initial
        self.flight, self.lost = {}, set()
        self.room = self.delivered = 0
        self.due = self.grown = 0
        self.exhausted, self.resent, self.dropped = False, 0, 0

    def call(self, seconds=5):
        answer = super().call(seconds)
        self.room, self.due, self.grown = answer.window, now(), now()
        return answer

    def rest(self):
        if self.exhausted or self.next - self.base >= self.room:
            return 0.002
        return min(0.005, max(0, (self.due - now()) / SECOND))

    def message(self, number):
        return 1 + (number - self.initial) % packets.MESSAGES

    def send_data(self, number, again=False):
        stamp, payload = self.flight[number]
        self.send(packets.data(number % packets.NUMBERS, self.message(number), stamp, self.peer_id, payload, again))

    def on_time(self):
        super().on_time()
        self.expire()
        if self.flight and now() - max(self.sent, self.grown) >= self.rtt + 4 * self.variance + 20_000:
            self.lost.update(self.flight)
        for number in sorted(self.lost)[:64]:
            self.lost.discard(number)
            self.resent += 1
            self.send_data(number, again=True)
        for _ in range(64):
            if self.exhausted or now() < self.due or self.next - self.base >= self.room:
                break
            payload = next(self.payloads, None)
            if payload is None:
                self.exhausted = True
                break
            self.flight[self.next] = (self.stamp(), payload)
            self.send_data(self.next)
            self.next += 1
            if (self.next - self.initial) % self.burst == 0:
                self.due = self.due + self.interval if self.interval else now()

    def expire(self):
        """Gives up live packets that are too old, and sends a drop request for them (section 3.2.9)."""
        if self.mode != "live":
            return
        oldest = self.stamp() - max(SECOND, 1250 * self.delays()[0])
        gone = [number for number, (stamp, _) in self.flight.items() if stamp < oldest]
        if gone:
            first, last = min(gone), max(gone)
            body = struct.pack("!2I", first % packets.NUMBERS, last % packets.NUMBERS)
            self.send_control(packets.DROPREQ, self.message(first), body)
            self.dropped += len(gone)
            self.advance(last + 1)

    def advance(self, to):
        """Forgets all packets below `to`."""
        for number in range(self.base, min(to, self.next)):
            self.flight.pop(number, None)
            self.lost.discard(number)
        if to > self.base:
            self.base, self.grown = to, now()

    def on_control(self, packet):
        if packet.kind == packets.ACK:
            words = packets.words_of(packet.body)
            to = packets.near(words[0], self.base)
            if packet.info:
                self.send_control(packets.ACKACK, packet.info)
            if len(words) >= 4:
                self.rtt, self.variance, self.room = words[1:4]
            if self.base <= to <= self.next:
                self.advance(to)
            if to == self.next and len(words) >= 4 and words[3] >= self.answer.window:
                self.delivered = to
        elif packet.kind == packets.NAK:
            for first, last in packets.runs_of(packet.body):
                first, last = packets.near(first, self.base), packets.near(last, self.base)
                self.lost.update(number for number in range(first, last + 1) if number in self.flight)

    def wait_all(self, seconds):
        """Waits until all payloads are sent and acknowledged, for at most `seconds`. Returns whether they are."""
        return self.wait(seconds, lambda: self.exhausted and not self.flight)

    def wait_delivered(self, seconds):
        """Waits until an ACK shows that the peer's window is free again, for at most `seconds`. Returns whether one did."""
        return self.wait(seconds, lambda: self.exhausted and self.delivered == self.next)

    def wait(self, seconds, test):
        until = now() + int(seconds * SECOND)
        while now() < until and not test() and self.is_alive():
            time.sleep(0.005)
        return test()


class Subscriber(Caller):
    """Receives packets, acknowledges them, sends NAKs for lost ones, and keeps payloads in order.

    `got` has a pair for each payload: the payload, and the moment when its packet came, in microseconds. A payload is
    added once each one before it was added or dropped by the sender."""

    def __init__(self, address, stream_id, **others):
        super().__init__(address, stream_id, **others)
        self.front = self.top = self.initial
        self.waiting, self.gone = {}, set()
        self.got, self.dropped, self.repeats, self.asked_again = [], 0, 0, 0
        self.ack_number, self.acks, self.acked, self.confirmed = 0, {}, 0, None
        self.nak, self.rates = 0, (0, 0, 0)

    def on_data(self, packet):
        number = packets.near(packet.number, self.front)
        if number < self.front or number in self.waiting:
            self.repeats += 1
            return
        self.waiting[number] = (packet.payload, now())
        if number > self.top:
            self.ask([(self.top, number - 1)])
        self.top = max(self.top, number + 1)
        self.advance()

    def advance(self):
        while self.front in self.waiting or self.front in self.gone:
            if self.front in self.waiting:
                self.got.append(self.waiting.pop(self.front))
            else:
                self.dropped += 1
            self.gone.discard(self.front)
            self.front += 1

    def ask(self, runs):
        self.asked_again += 1
        self.send_control(packets.NAK, 0, packets.loss_list([(a % packets.NUMBERS, b % packets.NUMBERS) for a, b in runs]))

    def gaps(self):
        runs = []
        for number in range(self.front, self.top):
            if number in self.waiting or number in self.gone:
                continue
            if runs and runs[-1][1] == number - 1:
                runs[-1] = (runs[-1][0], number)
            else:
                runs.append((number, number))
        return runs[:32]

    def on_control(self, packet):
        if packet.kind == packets.ACKACK and packet.info in self.acks:
            moment, self.confirmed = self.acks.pop(packet.info)
            self.sample(now() - moment)
        elif packet.kind == packets.DROPREQ and len(packet.body) >= 8:
            first, last = struct.unpack_from("!2I", packet.body)
            first, last = packets.near(first, self.front), packets.near(last, self.front)
            self.gone.update(number for number in range(max(first, self.front), last + 1) if number not in self.waiting)
            self.top = max(self.top, last + 1)
            self.advance()

    def on_time(self):
        super().on_time()
        if now() - self.acked >= 10_000 and self.confirmed != self.front:
            self.ack_number += 1
            self.acks[self.ack_number] = (now(), self.front)
            self.acks.pop(self.ack_number - 64, None)
            room = max(2, self.window - len(self.waiting))
            words = (self.front % packets.NUMBERS, self.rtt, self.variance, room, *self.rates)
            self.send_control(packets.ACK, self.ack_number, struct.pack("!7I", *words))
            self.acked = now()
        if now() - self.nak >= max((self.rtt + 4 * self.variance) // 2, 20_000):
            runs = self.gaps()
            if runs:
                self.ask(runs)
            self.nak = now()

    def wait(self, seconds, count):
        """Waits until `count` payloads are in `got`, for at most `seconds`. Returns whether they are."""
        until = now() + int(seconds * SECOND)
        while now() < until and len(self.got) < count and self.is_alive():
            time.sleep(0.005)
        return len(self.got) >= count


def start_all(*callers):
    """Opens the session of each caller, one after the other, and starts it."""
    for one in callers:
        one.call()
        one.start()


# Payloads that have their number and the moment when they were sent.

def payload(index, size=1316):
    return struct.pack("!2Q", index, now()) + bytes([index % 251]) * (size - 16)


def stream(count, first=0, size=1316):
    """`count` payloads with the numbers from `first` on. Each is made when it is taken."""
    return (payload(index, size) for index in range(first, first + count))


def endless(over, first=0):
    """Payloads with the numbers from `first` on, until the event `over` is set. Each is made when it is taken."""
    return itertools.takewhile(lambda _: not over.is_set(), map(payload, itertools.count(first)))


def indexes(got):
    """The numbers of payloads. Raises ValueError if one has other bytes than were sent."""
    found = []
    for body, _ in got:
        index, _ = struct.unpack_from("!2Q", body)
        if body[16:] != bytes([index % 251]) * (len(body) - 16):
            raise ValueError(f"payload {index} has other bytes than were sent")
        found.append(index)
    return found


def delays_of(got):
    """The microseconds that each payload took from its publisher to its subscriber."""
    return [came - struct.unpack_from("!2Q", body)[1] for body, came in got]

"""The status page as a server of HTTP: right requests, wrong ones, and hostile clients beside a stream that loses nothing."""
from __future__ import annotations

import base64
import errno
import hashlib
import os
import random
import re
import resource
import socket
import time
from contextlib import ExitStack, contextmanager
from typing import Callable, Iterator

from apart import Apart
from cases import case
from expecting import expect
from machine import drops_of
from page import Address, Malformed, Page, all_of, answer_at, exchanged, request_for
from running import STOP_SECONDS, Run, Shown, expect_polite, live

PATHS = {
    "/": "text/html; charset=utf-8",
    "/metrics": "text/plain; version=0.0.4; charset=utf-8",
    "/status.json": "application/json",
    "/events.json": "application/json",
    "/history.json": "application/json",
    "/healthz": "text/plain; charset=utf-8",
}
ACCEPT = "Accept: text/html,application/xml;q=0.9,*/*;q=0.8\r\n"
METHODS = ("POST", "PUT", "DELETE", "PATCH", "OPTIONS", "TRACE", "BREW", "get")
CONNECTIONS = 16  # As many as are served at once.
SECONDS = 2.0  # A connection is closed after so long.
SLACK = 1.0
INTERVAL = 1053  # Microseconds: 950 packets of 1316 bytes a second are 10 Mbit/s.
LONG = 100_000_000
LISTENING = "0A"  # A state of /proc/net/tcp.


def descriptors(pid: int) -> int:
    """How many descriptors a process has open."""
    return len(os.listdir(f"/proc/{pid}/fd"))


@case("the status page answers each path by GET and HEAD")
def answers_paths():
    with Shown([live("studio")], "--no-time") as run:
        run.is_up()
        for path, kind in PATHS.items():
            whole, head = run.page.ask(path), run.page.ask(path, "HEAD")
            expect((whole.status, head.status) == (200, 200), f"{path} is answered with {whole.status} and {head.status}")
            expect(whole.fields.get("content-type") == kind, f"{path} is of the type {whole.fields.get('content-type')}")
            expect(whole.body and head.body == b"", f"{path} has {len(whole.body)} bytes, and {len(head.body)} by HEAD")
            fixed = [{name: text for name, text in it.fields.items() if name not in ("content-length", "date")} for it in (whole, head)]
            expect(fixed[0] == fixed[1] and whole.fields.keys() == head.fields.keys(), f"{path}: {whole.fields}, and by HEAD {head.fields}")
        still = run.page.ask("/")
        expect(still.body == run.page.ask("/").body, "the page isn't the same twice")
        expect(run.page.ask("/", "HEAD").fields["content-length"] == str(len(still.body)), "HEAD tells another length than GET")
        expect_polite(run.stop(), ["studio"])


def digest_of(page: str, tag: str) -> str:
    """The SHA-256 of what stands between this tag and its end, as a policy names it."""
    found = re.findall(rf"<{tag}>(.*?)</{tag}>", page, re.DOTALL)
    expect(len(found) == 1, f"the page has {len(found)} times <{tag}>")
    return "'sha256-" + base64.b64encode(hashlib.sha256(found[0].encode()).digest()).decode() + "'"


@case("the policy of the page for people names its script and its style")
def policy_names_script():
    with Shown([live("studio")], "--no-time") as run:
        run.is_up()
        answer = run.page.ask("/")
        page, policy = answer.text(), answer.fields["content-security-policy"]
        for tag in ("script", "style"):
            expect(f"{tag}-src {digest_of(page, tag)};" in policy, f"the policy names another {tag}: {policy}")


@case("the status page takes requests of older and simpler clients")
def answers_simple_requests():
    requests = {
        "HTTP/1.0": b"GET /healthz HTTP/1.0\r\n\r\n",
        "what a browser sends": request_for("/healthz", more=f"{ACCEPT}Accept-Encoding: gzip\r\nConnection: keep-alive\r\n"),
        "a header without a space behind the colon": b"GET /healthz HTTP/1.1\r\nHost:localhost\r\n\r\n",
    }
    with Shown([live("studio")], "--no-time") as run:
        run.is_up()
        for name, request in requests.items():
            answer, rest = answer_at(exchanged(run.page.address, request))
            expect(answer.status == 200 and not rest, f"{name} is answered with {answer.status}, then {rest[:40]!r}")
        with socket.create_connection(run.page.address, 5) as connection:
            for byte in request_for("/healthz"):
                connection.send(bytes([byte]))
                time.sleep(0.002)
            slow, _ = answer_at(all_of(connection))
        with socket.create_connection(run.page.address, 5) as connection:
            connection.sendall(request_for("/healthz"))
            connection.shutdown(socket.SHUT_WR)
            closed, _ = answer_at(all_of(connection))
        expect((slow.status, closed.status) == (200, 200), f"byte by byte, and half closed: {slow.status}, {closed.status}")
        run.stop()


WRONG = {
    "another path": (request_for("/nowhere"), {404}),
    "a path beside the page": (request_for("/../etc/passwd"), {400, 404}),
    "a path of 1,000 bytes": (request_for("/" + "a" * 1_000), {404, 414, 431}),
    "no request line": (b"hello\r\n\r\n", {400}),
    "a line of one word": (b"GET\r\n\r\n", {400}),
    "a line without a version": (b"GET /metrics\r\n\r\n", {400}),
    "a version of another protocol": (b"GET /metrics RTSP/1.0\r\n\r\n", {400, 505}),
    "HTTP/2 from the start": (b"PRI * HTTP/2.0\r\n\r\nSM\r\n\r\n", {400, 405, 505}),
    "TLS": (bytes.fromhex("16030100c8010000c40303") + bytes(200) + b"\r\n\r\n", {400}),
    "a header of 100 KB": (request_for("/metrics", more="".join(f"X-{index}: {'b' * 90}\r\n" for index in range(1_000))), {400, 431}),
}


def wrong_of_request(address: Address, request: bytes, statuses: set[int]) -> str:
    """What is wrong with the answer to a wrong request, or an empty text. One that is too long may be cut off."""
    came = exchanged(address, request)
    if not came and len(request) > 8_192:
        return ""
    try:
        answer, rest = answer_at(came)
    except Malformed as why:
        return str(why)
    return "" if answer.status in statuses and not rest else f"it is answered with {answer.status}, then {rest[:40]!r}"


@case("the status page refuses wrong requests")
def refuses_wrong_requests():
    with Shown([live("studio")], "--no-time") as run:
        run.is_up()
        for name, (request, statuses) in WRONG.items():
            wrong = wrong_of_request(run.page.address, request, statuses)
            expect(not wrong, f"{name}: {wrong}")
        for method in METHODS:
            for path in PATHS:
                answer, _ = answer_at(exchanged(run.page.address, request_for(path, method, "Content-Length: 0\r\n")))
                expect(answer.status == 405, f"{method} {path} is answered with {answer.status}")
                allowed = {it.strip() for it in answer.fields.get("allow", "").split(",")}
                expect(allowed == {"GET", "HEAD"}, f"{method} {path}: allowed are {allowed}")
        expect(run.page.health() == 200, "it isn't well afterwards")
        run.stop()


# How long a connection may last, and how many there may be.


def seconds_to_close(connection: socket.socket, piece: bytes, pause: float) -> float:
    """Sends a piece again and again until the peer closes the connection. Returns the seconds that this took."""
    began = time.monotonic()
    connection.settimeout(pause)
    while time.monotonic() < began + 10:
        try:
            connection.send(piece)
            if not connection.recv(1 << 16):
                break
        except socket.timeout:
            continue
        except OSError:
            break
    return time.monotonic() - began


@case("the status page closes a connection after two seconds, whatever comes over it")
def closes_slow_connections():
    with Shown([live("studio")], "--no-time") as run:
        run.is_up()
        for name, first, piece, pause in (("nothing", b"", b"", 0.1), ("half a request", b"GET /met", b"", 0.1),
                                          ("a header without an end", b"GET /metrics HTTP/1.1\r\n", b"X: y\r\n", 0.1)):
            with socket.create_connection(run.page.address, 5) as connection:
                connection.sendall(first)
                spent = seconds_to_close(connection, piece, pause)
            expect(spent <= SECONDS + SLACK, f"{name}: the connection is closed after {spent:.1f} s")
            expect(spent >= SECONDS - SLACK, f"{name}: the connection is closed after {spent:.1f} s already")
        run.stop()


def is_closed(connection: socket.socket, seconds: float) -> bool:
    """Whether the peer closes a connection within so many seconds, without a byte."""
    connection.settimeout(seconds)
    try:
        return connection.recv(1) == b""
    except socket.timeout:
        return False
    except ConnectionResetError:
        return True


@case("the status page serves sixteen connections at once, and closes others")
def serves_sixteen():
    with Shown([live("studio")], "--no-time") as run:
        run.is_up()
        expect(run.page.health() == 200, "it isn't well")
        before, most = descriptors(run.process.pid), 0
        with ExitStack() as stack:
            held = [stack.enter_context(socket.create_connection(run.page.address, 5)) for _ in range(CONNECTIONS)]
            for it in held:
                it.sendall(b"GET /healthz HTTP/1.1\r\n")
            time.sleep(0.3)
            others = [stack.enter_context(socket.create_connection(run.page.address, 5)) for _ in range(2 * CONNECTIONS)]
            for _ in range(30):
                most = max(most, descriptors(run.process.pid) - before)
                time.sleep(0.01)
            expect(all(is_closed(it, 0.5) for it in others), "a connection beyond sixteen isn't closed at once")
            # One more may be seen while it is accepted and closed.
            expect(CONNECTIONS <= most <= CONNECTIONS + 1, f"{most} connections are open at once")
            expect(all(is_closed(it, SECONDS + SLACK) for it in held), "one of the sixteen isn't closed")
            expect(run.page.health() == 200, "who comes then isn't served")
        expect_polite(run.stop(), ["studio"])


@case("a stop while connections of the status page are open")
def stops_beside_connections():
    with Shown([live("studio")], "--no-time") as run, ExitStack() as stack:
        run.is_up()
        for _ in range(CONNECTIONS):
            stack.enter_context(socket.create_connection(run.page.address, 5)).sendall(b"GET /healthz HTTP/1.1\r\n")
        time.sleep(0.2)
        end = run.stop()
        expect(end.seconds <= STOP_SECONDS, f"it took {end.seconds:.2f} s")
        expect_polite(end, ["studio"])
    with Run([live("studio")], "--no-time", status="{}:{}".format(*run.page.address)) as again:
        again.is_up()
        expect(run.page.health() == 200, "the next run at the same address isn't well")
        again.stop()


# Hostile clients.


def swallow(action: Callable[[], object]) -> None:
    """Does something that may fail because the peer closes the connection."""
    try:
        action()
    except OSError as why:
        if why.errno not in (errno.ECONNRESET, errno.EPIPE, errno.ECONNREFUSED, errno.ETIMEDOUT, None):
            raise


def half_requests(address: Address) -> None:
    with ExitStack() as stack:
        for _ in range(40):
            stack.enter_context(socket.create_connection(address, 5)).sendall(b"GET /metr")
        time.sleep(1.5)


def long_line(address: Address) -> None:
    with socket.create_connection(address, 5) as connection:
        connection.settimeout(4)
        swallow(lambda: connection.sendall(b"a" * LONG))


def long_header(address: Address) -> None:
    with socket.create_connection(address, 5) as connection:
        connection.settimeout(4)
        swallow(lambda: connection.sendall(b"GET / HTTP/1.1\r\nX: " + b"a" * LONG))


def many_connections(address: Address) -> None:
    soft, hard = resource.getrlimit(resource.RLIMIT_NOFILE)
    resource.setrlimit(resource.RLIMIT_NOFILE, (min(hard, 4_096), hard))
    with ExitStack() as stack:
        for _ in range(1_000):
            connection = stack.enter_context(socket.socket(socket.AF_INET, socket.SOCK_STREAM))
            connection.setblocking(False)
            connection.connect_ex(address)
        time.sleep(1.5)
    resource.setrlimit(resource.RLIMIT_NOFILE, (soft, hard))


def reads_nothing(address: Address) -> None:
    with ExitStack() as stack:
        for _ in range(20):
            connection = stack.enter_context(socket.socket(socket.AF_INET, socket.SOCK_STREAM))
            connection.setsockopt(socket.SOL_SOCKET, socket.SO_RCVBUF, 2_048)
            connection.connect(address)
            swallow(lambda it=connection: it.sendall(request_for("/status.json")))
        time.sleep(1.5)


def unknown_methods(address: Address) -> None:
    for index in range(100):
        swallow(lambda: exchanged(address, request_for("/metrics", f"M{index}"), 3))


def binary_junk(address: Address) -> None:
    chance = random.Random(5)
    for length in (1, 3, 16, 64, 1_000, 100_000) * 5:
        swallow(lambda: exchanged(address, chance.randbytes(length) + b"\r\n\r\n", 3))


def pipelined_requests(address: Address) -> None:
    for _ in range(20):
        swallow(lambda: exchanged(address, request_for("/status.json") * 100, 3))


def closed_at_once(address: Address) -> None:
    for _ in range(1_000):
        connection = socket.create_connection(address, 5)
        connection.setsockopt(socket.SOL_SOCKET, socket.SO_LINGER, bytes([1, 0, 0, 0, 0, 0, 0, 0]))  # It ends with a reset.
        swallow(lambda it=connection: it.send(b"GET / HTTP/1.1\r\n\r\n"))
        connection.close()


ATTACKS = (half_requests, long_line, long_header, many_connections, reads_nothing, unknown_methods, binary_junk, pipelined_requests,
           closed_at_once)


@contextmanager
def stream_beside(run: Run, name: str) -> Iterator[None]:
    """A stream of 10 Mbit/s on a route while the body runs. It loses nothing."""
    stream = Apart(run.address, name, INTERVAL)
    try:
        yield
        found, lost = stream.end(), drops_of(run.address[1])
        expect(not found.wrong, f"{found.wrong}; the kernel dropped {lost} datagrams")
        expect(found.given_up == lost == 0, f"{found.given_up} packets were given up, and the kernel dropped {lost} datagrams")
        expect(found.count >= 1_000, f"the stream had {found.count} packets only")
    finally:
        stream.kill()


def seconds_to_health(page: Page) -> float:
    """How long it takes until /healthz is answered with 200. Until the page sees that others are gone it closes a connection."""
    began = time.monotonic()
    while time.monotonic() < began + 10:
        try:
            if page.health(1.0) == 200:
                break
        except (Malformed, OSError):
            time.sleep(0.01)
    return time.monotonic() - began


@case("the status page and hostile clients beside a stream of 10 Mbit/s that loses nothing")
def hostile_clients():
    others = [live(f"r{index}", buffer=190, sessions=2, inbox=16) for index in range(100)]
    with Shown([live("studio", latency_ms=500, buffer=4_096, inbox=4_096, outbox=4_096), *others], "--no-time") as run:
        run.is_up()
        before = descriptors(run.process.pid)
        with stream_beside(run, "studio"):
            for attack in ATTACKS:
                began = time.monotonic()
                attack(run.page.address)
                ended = time.monotonic()
                spent = seconds_to_health(run.page)
                expect(spent <= 1, f"after {attack.__name__} it is well after {spent:.2f} s only")
                print(f"  {attack.__name__}: {ended - began:.1f} s, then well within {1000 * spent:.0f} ms")
        time.sleep(SECONDS + SLACK)
        left = descriptors(run.process.pid)
        expect(left <= before, f"{left} descriptors are open, and {before} were before")
        end = run.stop()
        expect_polite(end, ["studio", *(f"r{index}" for index in range(100))])
        expect(end.report["full"] == end.report["lost"] == end.report["faults"] == 0, f"{end.report}")


@case("the status page answers the first of pipelined requests whole")
def pipelined():
    with Shown([live("studio")], "--no-time") as run:
        run.is_up()
        came = exchanged(run.page.address, request_for("/status.json") + request_for("/nowhere") + b"junk")
        answer, rest = answer_at(came)
        expect(answer.status == 200 and answer.body.endswith(b"}\n"), f"the first answer is {answer.status}, {answer.body[-40:]!r}")
        if rest:
            second, _ = answer_at(rest)
            expect(second.status == 404, f"the second answer is {second.status}")
        run.stop()


# The address.


@case("the status page is warned of where others can reach it")
def warns_of_others():
    with Shown([live("studio")], "--no-time") as run:
        run.is_up()
        expect(not any("warning: status" in it for it in run.texts()), f"it warns of an address of loopback: {run.texts()}")
        run.stop()
    port = run.page.address[1]
    with Run([live("studio")], "--no-time", status=f"0.0.0.0:{port}") as run:
        run.is_up()
        run.line(r"warning: status\b.*", 1)
        run.stop()


def listens(pid: int) -> list[str]:
    """The TCP sockets of a process that wait for connections, as /proc/net/tcp has their addresses."""
    its = {os.readlink(f"/proc/{pid}/fd/{it}") for it in os.listdir(f"/proc/{pid}/fd")}
    with open("/proc/net/tcp") as file:
        rows = [it.split() for it in file.readlines()[1:]]
    return [it[1] for it in rows if it[3] == LISTENING and f"socket:[{it[9]}]" in its]


@case("the status page is there only where its key is")
def no_page():
    with Shown([live("studio")], "--no-time") as run:
        run.is_up()
        expect(len(listens(run.process.pid)) == 1, f"it listens at {listens(run.process.pid)}")
        run.stop()
    with Run([live("studio")], "--no-time") as run:
        run.is_up()
        expect(not listens(run.process.pid), f"it listens at {listens(run.process.pid)}")
        run.stop()

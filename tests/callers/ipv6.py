"""Callers over IPv6, and over both families at one port. Each case has a gateway of its own; those that need further addresses play in a
network of their own."""
from __future__ import annotations

import ctypes
import functools
import re
import socket
import subprocess
import tempfile
import threading
import time

import tools
from access import closed, opens
from caller import Caller, Publisher, Silent, Subscriber, start_all, stream
from cases import case, continuous, encoder, tools_relay
from expecting import expect, expect_refusal, expect_run, publish, refusal, request
from libsrt import FILE, Transfer, files
from machine import free_port
from page import Page
from proxy import Proxy
from running import Run, Skipped, configuration, expect_polite, flooded, live
from tree import PROGRAM

PEER, RESOURCE = 1002, 1003
ONE, OTHER, OUTSIDE = "fd00:1:2:3::1", "fd00:1:2:3::2", "fd00:1:2:4::1"  # Two addresses of one /64, and one of another.
NEW_NETWORK = 0x40000000  # CLONE_NEWNET


@functools.cache
def has_ipv6():
    """Whether this machine has the loopback address of IPv6."""
    try:
        with socket.socket(socket.AF_INET6, socket.SOCK_DGRAM) as probe:
            probe.bind(("::1", 0))
    except OSError:
        return False
    return True


class Bound(Run):
    """A gateway at an IPv6 address, which callers call at `called`. Its status page, if there is one, is at [::1]."""

    def __init__(self, bind, routes, called="::1", is_shown=False):
        if not has_ipv6():
            raise Skipped("[::1] can't be bound")
        port = free_port()
        self.page = Page(("::1", free_port(socket.SOCK_STREAM)))
        status = f"[::1]:{self.page.address[1]}" if is_shown else ""
        text = configuration(routes, port, status=status).replace('bind = "127.0.0.1:', f'bind = "[{bind}]:')
        super().__init__(routes, "--no-time", port=port, text=text)
        self.address = (called, port)
        self.is_up()

    def over(self, host):
        """The gateway's address as a caller of another family or address calls it."""
        return host, self.address[1]


def played_apart(play):
    """Plays a case in a network of its own, in which the loopback has ONE, OTHER and OUTSIDE."""
    wrong = []

    def apart():
        try:
            if ctypes.CDLL(None).unshare(NEW_NETWORK) != 0:
                raise Skipped("a network of its own can't be had")
            for words in ("link set lo up", *(f"-6 addr add {it}/64 dev lo nodad" for it in (ONE, OTHER, OUTSIDE))):
                if subprocess.run(["ip", *words.split()], capture_output=True).returncode:
                    raise Skipped("`ip` can't add addresses")
            play()
        except Exception as why:
            wrong.append(why)

    one = threading.Thread(target=apart)
    one.start()
    one.join()
    if wrong:
        raise wrong[0]


def apart(play):
    """A case that plays in a network of its own."""
    return lambda _: played_apart(play)


# One address.


@case("a publisher and players at [::1], over lines that lose 5 %")
def over_loopback(_):
    with Bound("::1", [live("studio", latency_ms=400)]) as run:
        lines = [Proxy(run.address, seed, loss=0.05) for seed in (1, 2, 3)]
        publisher = Publisher(lines[0].address, publish("studio"), stream(600), 4_000, receiver_ms=400)
        players = [Subscriber(it.address, request("studio"), receiver_ms=400) for it in lines[1:]]
        start_all(*players, publisher)
        for one in players:
            one.wait(10, 600)
        closed(publisher, *players)
        for at, one in enumerate(players):
            expect_run(one.got, 0, 600, f"player {at}")
        expect(all(it.lost > 10 for it in lines), f"the lines lost {[it.lost for it in lines]} packets")
        expect_polite(run.stop(), ["studio"])


@case("the log has a caller's IPv6 address in brackets, and the gateway's")
def lines_of_log(_):
    with Bound("::1", [live("studio")]) as run:
        run.line(rf"serving at \[::1\]:{run.address[1]}, .*", 1)
        viewer = opens(Subscriber(run.address, "studio"), "a viewer")
        stranger = Caller(run.address, "#!::r=nobody")
        expect_refusal(PEER, stranger, "an unknown name")
        run.line(rf"studio: subscriber \[::1\]:{viewer.here[1]} opened.*", 2)
        run.line(rf'\[::1\]:{stranger.here[1]} refused, 1002 PEER, asked for "nobody", unknown name', 2)
        closed(viewer)
        run.line(rf"studio: subscriber \[::1\]:{viewer.here[1]} ended, .*, its peer sent a SHUTDOWN, .*", 2)


@case("srt-live-transmit at [::1], to two players", needs=[tools.SRT])
def transmit_over_loopback(_):
    with Bound("::1", [live("studio")]) as run:
        tools_relay(tools.srt(run.address, streamid=publish("studio")), [tools.srt(run.address, streamid="studio")] * 2, 240)


@case("ffmpeg publishes at [::1], and ffmpeg plays", needs=[tools.FFMPEG])
def ffmpeg_over_loopback(_):
    with Bound("::1", [live("studio")]) as run:
        viewer = opens(Subscriber(run.address, "studio"), "a viewer")
        viewer.start()
        source = tools.srt(run.address, streamid="studio")
        words = ["-hide_banner", "-loglevel", "error", "-analyzeduration", "1000000", "-i", source, "-t", "2", "-c", "copy", "-f", "framecrc", "-"]
        with tools.Tool([tools.FFMPEG, *words]) as player:
            time.sleep(0.5)
            with encoder(tools.srt(run.address, streamid=publish("studio"), pkt_size=1316), 6):
                player.ended(10)
        closed(viewer)
    frames = [it for it in player.output.decode(errors="replace").splitlines() if not it.startswith("#")]
    expect(len(frames) >= 40, f"{len(frames)} frames came of two seconds of stream: {player.errors()[-300:]!r}")
    found, breaks = continuous(b"".join(body for body, _ in viewer.got))
    expect(found >= 500 and breaks == 0, f"{found} packets of a transport stream came, with {breaks} breaks")


@case("srt-file-transmit to srt-file-transmit at [::1]", needs=[FILE])
def file_over_loopback(_):
    """Its packets of 1456 bytes go in two fragments where a link takes 1500 bytes; the loopback takes them whole."""
    with Bound("::1", [files("archive")]) as run, Transfer(400_000, "archive") as transfer:
        receiver = transfer.receiver(run.address)
        run.line(r"archive: subscriber \S+ opened.*", 10)
        sender = transfer.sender(run.address)
        expect(sender.ended(20) and receiver.ended(20), f"the tools go on, {len(transfer.received())} bytes were received")
        expect(transfer.received() == transfer.contents, "the receiver has other bytes")


@case("the status page at [::1] shows a caller over IPv6")
def page_over_loopback(_):
    with Bound("::1", [live("studio")], is_shown=True) as run:
        viewer = opens(Subscriber(run.address, "studio"), "a viewer")
        time.sleep(1.2)
        shown = [it["peer"] for it in run.page.state()["routes"][0]["sessions"]]
        expect(shown == [f"[::1]:{viewer.here[1]}"], f"the page shows {shown}")
        expect(f'peer="[::1]:{viewer.here[1]}"' in run.page.right("/metrics"), "the metrics don't have it")
        closed(viewer)


@case("datagrams that the kernel dropped at an IPv6 socket are counted")
def drops_over_loopback(_):
    with Bound("::1", [live("studio")]) as run:
        dropped = flooded(run)
        if not dropped:
            raise Skipped("the kernel drops nothing")
        run.line(rf"datagrams dropped by the kernel {dropped}", 2)


# Both families at one port.


def play_both_families(run):
    """An encoder over IPv4, and players over both families, which get the same payloads."""
    publisher = Publisher(run.over("127.0.0.1"), publish("studio"), stream(400), 4_000)
    players = [Subscriber(run.over(host), request("studio")) for host in ("127.0.0.1", "::1")]
    start_all(*players, publisher)
    for one in players:
        one.wait(8, 400)
    for one, host in zip(players, ("127.0.0.1", "[::1]")):
        expect_run(one.got, 0, 400, f"the player at {host}")
        run.line(rf"studio: subscriber {re.escape(host)}:{one.here[1]} opened.*", 2)
    closed(publisher, *players)


@case("an encoder over IPv4 and players over both families, at [::]")
def both_families(_):
    with Bound("::", [live("studio")]) as run:
        run.line(rf"serving at \[::\]:{run.address[1]}, .*", 1)
        play_both_families(run)
        expect_polite(run.stop(), ["studio"])


@case("ffmpeg over IPv4 to players over both families, at [::]", needs=[tools.FFMPEG])
def ffmpeg_both_families(_):
    with Bound("::", [live("studio")]) as run:
        viewers = [opens(Subscriber(run.over(host), "studio"), host) for host in ("127.0.0.1", "::1")]
        for one in viewers:
            one.start()
        with encoder(tools.srt(run.over("127.0.0.1"), streamid=publish("studio"), pkt_size=1316), 3):
            for one in viewers:
                one.wait(6, 200)
        closed(*viewers)
    for one in viewers:
        found, breaks = continuous(b"".join(body for body, _ in one.got))
        expect(found >= 500 and breaks == 0, f"{found} packets of a transport stream came, with {breaks} breaks")


@case("lists by family: an IPv4 caller is in no IPv6 network, and an IPv6 caller in no IPv4 one")
def lists_by_family(_):
    lists = {"six": ["::/0"], "four": ["0.0.0.0/0"], "both": ["::/0", "0.0.0.0/0"], "one": ["::1"]}
    rows = {"six": (PEER, 0), "four": (0, PEER), "both": (0, 0), "one": (PEER, 0)}
    with Bound("::", [live(name, publish_from=given) for name, given in lists.items()]) as run:
        for name, codes in rows.items():
            for host, wanted in zip(("127.0.0.1", "::1"), codes):
                caller = Caller(run.over(host), publish(name))
                found = refusal(caller.call)
                expect(found == wanted, f"{host} at {name}: {found}, and not {wanted}")
                if not found:
                    closed(caller)


# In a network of its own.


@case("at [::], with net.ipv6.bindv6only set, both families are served", needs=["ip"])
@apart
def both_families_by_the_option():
    if subprocess.run(["sh", "-c", "echo 1 >/proc/sys/net/ipv6/bindv6only"], capture_output=True).returncode:
        raise Skipped("the option can't be set")
    with Bound("::", [live("studio")]) as run:
        play_both_families(run)


@case("sessions_per_address counts the callers of a /64 together", needs=["ip"])
@apart
def sessions_of_a_site():
    with Bound("::", [live("studio", sessions=5, sessions_per_address=2, callers="libsrt")]) as run:
        # Each calls the address that it has: the kernel answers it from there.
        first = [opens(Subscriber(run.over(it), "studio", source=it), it) for it in (ONE, OTHER)]
        for it in (ONE, OTHER):
            expect_refusal(RESOURCE, Subscriber(run.over(it), "studio", source=it), f"a third of the same /64, {it}")
        elsewhere = opens(Subscriber(run.over(OUTSIDE), "studio", source=OUTSIDE), "one of another /64")
        closed(*first, elsewhere, opens(Subscriber(run.over("127.0.0.1"), "studio"), "one over IPv4"))


@case("with several addresses, an answer from [::] leaves from another one than was called, and from a published one from that", needs=["ip"])
@apart
def several_addresses():
    with Bound("::", [live("studio")], called=OTHER) as run:
        caller = Subscriber(run.address, "studio", source=ONE)
        try:
            caller.call(1)
            closed(caller)
            raise Skipped("the kernel answers from the address that was called")
        except Silent:
            pass
    with Bound(OTHER, [live("studio")], called=OTHER) as run:
        closed(opens(Subscriber(run.address, "studio", source=ONE), "a caller of the published address"))


@case("an IPv6 address that isn't the machine's is a socket fault")
def address_of_others(_):
    if not has_ipv6():
        raise Skipped("[::1] can't be bound")
    with tempfile.NamedTemporaryFile("w", suffix=".toml") as file:
        file.write(configuration([live("studio")], free_port()).replace('bind = "127.0.0.1:', 'bind = "[2001:db8::7]:'))
        file.flush()
        it = subprocess.run([PROGRAM, "run", file.name], capture_output=True, text=True, timeout=20)
    expect((it.returncode, it.stdout) == (1, "socket fault\n"), f"it ended with {it.returncode} and printed {it.stdout!r}")
    expect("[2001:db8::7]:" in it.stderr and "Cannot assign requested address" in it.stderr, f"it says {it.stderr!r}")

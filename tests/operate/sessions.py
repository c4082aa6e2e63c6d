"""The log: each session's opening and end, take-overs, refusals, warnings, faults of the socket and what the kernel dropped."""
import re
import socket
import struct
import time

import packets
from caller import Caller, Publisher, Subscriber, start_all, stream
from cases import case
from expecting import expect, expect_refusal, expect_run, publish, request
from lines import REFUSED_BLOCKS, ended_line, opened_line, refused_line, took_over_line
from machine import free_port
from proxy import Proxy
from running import Run, Skipped, expect_polite, files, flooded, live
from tree import TOP

LOOK = 3.0  # Two looks at the routes, and some time for a busy machine. A line that is there sooner is found sooner.
IDLE = 5.0


def opens(run, route, role, caller, latency_ms, standby=False):
    """Opens a session and starts its caller. Returns between which moments; its line is waited for."""
    before = time.monotonic()
    caller.call()
    began = before, time.monotonic()
    caller.start()
    run.line(opened_line(route, role, caller, latency_ms, standby), LOOK)
    return began


def closes(caller):
    """Ends a caller's session. Returns between which moments."""
    before = time.monotonic()
    caller.close()
    return before, time.monotonic()


def expect_lasted(found, began, ended):
    """Expects that a session's line says how long it lasted, to 300 ms."""
    lasted, least, most = int(found["after"]), 1000 * (ended[0] - began[1]), 1000 * (ended[1] - began[0])
    expect(least - 300 <= lasted <= most + 300, f"it says that the session lasted {lasted} ms, and it were {least:.0f} to {most:.0f}")


def counts_of(found):
    return [int(found[it]) for it in ("packets", "bytes", "lost", "resent")]


@case("a publisher and a subscriber open and end, a standby takes over")
def opens_and_ends():
    count = 300
    with Run([live("studio")], "--no-time") as run:
        run.is_up()
        subscriber = Subscriber(run.address, request("studio"), receiver_ms=250)
        opened = opens(run, "studio", "subscriber", subscriber, 250)
        main = Publisher(run.address, publish("studio"), stream(count), 4_000, sender_ms=300)
        began = opens(run, "studio", "publisher", main, 300)
        backup = Publisher(run.address, publish("studio"), [])
        opens(run, "studio", "publisher", backup, 120, standby=True)
        expect(main.wait_delivered(10) and subscriber.wait(5, count), "the stream doesn't flow")
        closed = closes(main)
        number, found = run.line(ended_line("studio", "publisher", main, "its peer sent a SHUTDOWN"), LOOK)
        expect_lasted(found, began, closed)
        # Nothing is lost, and nothing counts as resent that the publisher didn't send again: nothing at all, unless the machine is busy.
        *received, resent = counts_of(found)
        expect(received == [count, 1316 * count, 0], f"the publisher sent {count} packets: {found[0]}")
        expect(resent <= main.resent, f"the publisher sent {main.resent} packets again: {found[0]}")
        over, _ = run.line(took_over_line("studio", backup), LOOK)
        expect(over > number, "the take-over is told before the end")
        time.sleep(1)
        expect(run.find(took_over_line("studio", main)) is None, "the first publisher took over from nobody")
        closed = closes(subscriber)
        _, found = run.line(ended_line("studio", "subscriber", subscriber, "its peer sent a SHUTDOWN"), LOOK)
        expect_lasted(found, opened, closed)
        *sent, resent = counts_of(found)
        expect(sent == [count, 1316 * count, 0], f"the subscriber received {count} packets: {found[0]}")
        expect(resent >= subscriber.repeats, f"the subscriber got {subscriber.repeats} packets twice: {found[0]}")
        backup.close()
        run.line(ended_line("studio", "publisher", backup, "its peer sent a SHUTDOWN"), LOOK)
        expect_polite(run.stop(), ["studio"])
        expect(len(run.lines) == 10, f"it says more: {run.texts()}")


@case("sessions of a route in buffer mode have no latency")
def opens_in_buffer_mode():
    with Run([live("studio"), files("files")], "--no-time") as run:
        run.is_up()
        for role, one in (("publisher", Publisher(run.address, publish("files"), [], mode="buffer", congestion=b"file")),
                          ("subscriber", Subscriber(run.address, "files", mode="buffer", congestion=b"file"))):
            opens(run, "files", role, one, None)
            one.close()
            run.line(ended_line("files", role, one, "its peer sent a SHUTDOWN"), LOOK)
        run.stop()


@case("a session that falls silent ends after five seconds")
def ends_by_silence():
    with Run([live("studio")], "--no-time") as run:
        run.is_up()
        callers = [("publisher", Publisher(run.address, publish("studio"), [])), ("subscriber", Subscriber(run.address, "studio"))]
        began = [opens(run, "studio", role, it, 120) for role, it in callers]
        time.sleep(0.5)
        for _, one in callers:
            one.stop()
        for (role, one), (first, last) in zip(callers, began):
            _, found = run.line(ended_line("studio", role, one, "nothing arrived from its peer"), IDLE + LOOK)
            heard = one.sent / 1e6  # The clock of callers is time.monotonic().
            lasted, least, most = int(found["after"]) / 1000, heard - last + IDLE, heard - first + IDLE
            expect(least - 0.3 <= lasted <= most + 0.8, f"the session of the {role} lasted {lasted} s, and it were {least:.2f} to {most:.2f}")
        run.stop()


@case("a session whose window is lost, and one whose route closes")
def ends_otherwise():
    with Run([live("studio", buffer=190), live("guest", close_round=1_500)], "--no-time") as run:
        run.is_up()
        guest, one = Subscriber(run.address, "guest"), Publisher(run.address, publish("studio"), [])
        opens(run, "guest", "subscriber", guest, 120)
        opens(run, "studio", "publisher", one, 120)
        one.send(packets.data((one.initial + 1_000) % packets.NUMBERS, 1, one.stamp(), one.peer_id, bytes(1316)))
        _, found = run.line(ended_line("studio", "publisher", one, "its window was lost"), LOOK)
        expect(counts_of(found)[:2] == [0, 0], f"it received nothing: {found[0]}")
        run.line(ended_line("guest", "subscriber", guest, "its route was closed"), 20)
        expect(guest.shut.wait(1), "the caller of the route that closed got no SHUTDOWN")
        one.stop()
        run.stop()


@case("a session whose slot is taken again between two looks")
def slot_taken_again():
    with Run([live("studio")], "--no-time") as run:
        run.is_up()
        for _ in range(5):
            first, second = Subscriber(run.address, "studio"), Subscriber(run.address, "studio")
            opens(run, "studio", "subscriber", first, 120)
            first.close()
            second.call()
            run.line(opened_line("studio", "subscriber", second, 120), LOOK)
            run.line(ended_line("studio", "subscriber", first, "its peer sent a SHUTDOWN"), 0)
            second.close()
            run.line(ended_line("studio", "subscriber", second, "its peer sent a SHUTDOWN"), LOOK)
        run.stop()


@case("a session counts what is lost and resent on a bad line")
def counts_losses():
    count = 800
    with Run([live("studio", latency_ms=500)], "--no-time") as run:
        run.is_up()
        there, back = Proxy(run.address, 21), Proxy(run.address, 22)
        publisher, subscriber = Publisher(there.address, publish("studio"), stream(count), 4_000), Subscriber(back.address, "studio")
        start_all(subscriber, publisher)
        there.loss = back.loss = 0.05
        expect(publisher.wait_delivered(15) and subscriber.wait(10, count), "the stream doesn't flow")
        there.loss = back.loss = 0
        expect_run(subscriber.got, 0, count)
        time.sleep(0.7)
        for one in (publisher, subscriber):
            one.close()
        lines = {role: run.line(rf"studio: {role} .* ended, .*, after \d+ ms, (\d+) packets, (\d+) bytes, (\d+) lost, (\d+) resent", LOOK)[1] for role in ("publisher", "subscriber")}
        found = {role: [int(it) for it in line.groups()] for role, line in lines.items()}
        for role, counts in found.items():
            expect(counts[:3] == [count, 1316 * count, 0], f"the {role}'s line says {counts}, and {count} packets came through")
        # What the subscriber got twice was sent again. Of the publisher's packets those count that came beside the received ones.
        expect(found["subscriber"][3] >= max(1, subscriber.repeats), f"the subscriber had {subscriber.repeats} repeats: {found}")
        expect(found["publisher"][3] <= publisher.resent, f"the publisher sent {publisher.resent} again: {found}")
        for line in (there, back):
            line.stop()
        run.stop()


def conclusions(caller):
    """How often a caller made its conclusion: again each 250 ms until an answer is there."""
    return caller.handshakes[packets.CONCLUSION]


@case("the lobby's refusals, with the name that was asked for")
def lobby_refuses():
    with Run([live("studio")], "--no-time") as run:
        run.is_up()
        unknown = "unknown name"
        asked_in_all = 0
        kinds = [(1002, dict(stream_id="nowhere"), "nowhere", unknown), (1002, dict(stream_id=publish("no/where")), "no/where", unknown),
                 (1002, dict(stream_id='a"b\\c'), "a\\x22b\\x5cc", unknown), (1002, dict(stream_id="studi\u00e9"), "studi\\xc3\\xa9", unknown),
                 (1002, dict(stream_id=b"new\nline\x1b"), "new\\x0aline\\x1b", unknown), (1002, dict(), "", "no valid name")]
        for code, words, asked, by in kinds:
            run.pace_refusals()
            caller = Caller(run.address, **words)
            expect_refusal(code, caller, f"{words}")
            asked_in_all += conclusions(caller)
            run.line(refused_line(code, caller, asked, by), LOOK)
        for code, words in ((1004, dict(asks=False)), (1008, dict(version=4)), *((code, dict(more=more)) for code, more in REFUSED_BLOCKS.items())):
            run.pace_refusals()
            caller = Caller(run.address, "studio", **words)
            expect_refusal(code, caller, f"{words}")
            asked_in_all += conclusions(caller)
            run.line(refused_line(code, caller, None), LOOK)
        end = run.stop()
        expect_polite(end, ["studio"])
        refused = [it for it in run.texts() if " refused, " in it]
        expect(len(refused) == asked_in_all, f"{len(refused)} refusals are told: {refused}")


@case("a route's refusals")
def route_refuses():
    with Run([live("studio", sessions=3), files("files")], "--no-time") as run:
        run.is_up()
        held = [*(Publisher(run.address, publish("studio"), []) for _ in range(2)), Subscriber(run.address, "studio")]
        start_all(*held)
        asked_in_all = 0
        for code, words in ((1003, dict(stream_id="studio")), (1002, dict(stream_id=publish("studio"))), (1004, dict(stream_id=publish("files"), mode="buffer", mtu=75)),
                            (1012, dict(stream_id="files"))):
            caller = Caller(run.address, **words)
            expect_refusal(code, caller, f"{words}")
            asked_in_all += conclusions(caller)
            run.line(refused_line(code, caller, "files" if "files" in words["stream_id"] else "studio"), LOOK)
        end = run.stop()
        for one in held:
            one.stop()
        expect_polite(end, ["studio", "files"])
        refused = [it for it in run.texts() if " refused, " in it]
        expect(len(refused) == asked_in_all and not any("unseen" in it for it in run.texts()), f"refusals are told as {run.texts()}")


@case("sessions that come and go between two looks are counted")
def comes_and_goes():
    count = 30
    with Run([live("studio")], "--no-time") as run:
        run.is_up()
        for _ in range(count):
            one = Subscriber(run.address, "studio")
            one.call()
            one.close()
            time.sleep(0.02)
        end = run.stop()
        expect_polite(end, ["studio"])
        texts = run.texts()
        seen = [re.fullmatch(r"studio: subscriber \S+ opened, (socket 0x[0-9a-f]{8}), .*", it) for it in texts]
        gone = [re.fullmatch(r"studio: subscriber \S+ ended, (socket 0x[0-9a-f]{8}), .*", it) for it in texts]
        unseen = [re.fullmatch(r"studio: (\d+) sessions opened and ended unseen", it) for it in texts]
        told = [it[1] for it in seen if it]
        expect(sorted(told) == sorted(it[1] for it in gone if it), f"openings and ends aren't of the same sessions: {texts}")
        passed = sum(int(it[1]) for it in unseen if it)
        expect(len(told) + passed == count and passed > 0, f"{count} sessions came and went, {len(told)} are told and {passed} counted: {texts}")


@case("warnings of the configuration follow the start")
def warns():
    with open(f"{TOP}/examples/gateway.toml") as file:
        port = free_port()
        text = re.sub(r'bind = "[^"]*"', f'bind = "127.0.0.1:{port}"', file.read())
    with Run(text=text, port=port) as run:
        run.is_up()
        _, found = run.line(r"(?:(\S+): )?warning: secret: it is that of examples/gateway\.toml, .*", 1)
        expect(run.texts()[1] == found[0], f"it isn't the second line: {run.texts()}")
        run.stop()


# What the system does.


@case("datagrams that the kernel dropped are counted")
def kernel_drops():
    with Run([live("studio")], "--no-time") as run:
        run.is_up()
        dropped = flooded(run)
        if not dropped:
            raise Skipped("the kernel drops nothing")
        run.line(rf"datagrams dropped by the kernel {dropped}", LOOK)
        time.sleep(0.8)
        end = run.stop()
        expect_polite(end, ["studio"])
        expect(end.report["read"] == 12_000 - dropped, f"{end.report}, and {dropped} were dropped")
        told = [it for it in run.texts() if "dropped by the kernel" in it]
        expect(len(told) == 1, f"they are told as {told}")


def spoofed(source, target, body):
    """A datagram of IPv4 and UDP from an address and port that aren't ours."""
    words = struct.pack("!4H", source[1], target[1], 8 + len(body), 0)
    head = struct.pack("!BBHHHBBH4s4s", 0x45, 0, 28 + len(body), 0, 0, 64, socket.IPPROTO_UDP, 0, socket.inet_aton(source[0]), socket.inet_aton(target[0]))
    return head + words + body


@case("a send that the socket refuses is told as a fault")
def socket_faults():
    """An induction whose source port is 0 gets an answer that can't be sent."""
    try:
        raw = socket.socket(socket.AF_INET, socket.SOCK_RAW, socket.IPPROTO_RAW)
    except PermissionError:
        raise Skipped("raw sockets aren't allowed") from None
    with raw, Run([live("studio")], "--no-time") as run:
        run.is_up()
        body = packets.induction(1, 1500, 8192, 7)
        raw.sendto(spoofed(("127.0.0.1", 0), run.address, packets.control(packets.HANDSHAKE, 0, 0, 0, body)), run.address)
        run.line("socket faults 1", LOOK)
        end = run.stop()
        expect_polite(end, ["studio"])
        expect(end.report["faults"] == 1 and end.report["lost"] == 1, f"{end.report}")

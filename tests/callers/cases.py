"""The cases. Each is a function of the gateway's address, and has the routes that it names to itself. It raises Wrong if it
fails."""
import random
import socket
import struct
import threading
import time

import tools
import packets
from caller import Caller, Publisher, Silent, Subscriber, delays_of, endless, indexes, now, payload, start_all, stream
from expecting import Wrong, accepted, expect, expect_delays, expect_refusal, expect_run, publish, refusal, request
from gateway import Gateway, files, live, report
from proxy import Proxy

CASES = []
LONG_CASES = []


def case(name, *routes, needs=()):
    """Adds a case to the list. It is skipped if one of the tools `needs` isn't installed."""
    def adding(play):
        CASES.append((name, routes, needs, play))
        return play
    return adding


def long_case(name, *routes, needs=()):
    """Adds a case that is played with `--long` alone."""
    def adding(play):
        LONG_CASES.append((name, routes, needs, play))
        return play
    return adding


def relay(address, name, count=300, interval=5_000, subscribers=1, towards=None, least_ms=120):
    """Plays a publisher and subscribers of a route. Each subscriber must get each payload once, in order and in time."""
    publisher = Publisher(address, publish(name), stream(count), interval)
    others = [Subscriber(towards or address, request(name)) for _ in range(subscribers)]
    for one in [publisher, *others]:
        one.call()
    for one in [*others, publisher]:
        one.start()
    publisher.wait_delivered(count * interval / 1e6 + 10)
    for index, one in enumerate(others):
        one.wait(5, count)
        one.close()
        expect_run(one.got, 0, count, f"subscriber {index}")
        expect_delays(one.got, least_ms)
    publisher.close()
    return publisher, others


def expect_all(publisher, subscriber, count, least_ms=None, seconds=5):
    """Ends both sessions once the subscriber has so many payloads, and expects that these are all of the stream, none of them sooner than this
    delay if one is given."""
    subscriber.wait(seconds, count)
    subscriber.close()
    publisher.close()
    expect_run(subscriber.got, 0, count)
    if least_ms is not None:
        expect_delays(subscriber.got, least_ms)


# Streams.


@case("publish and subscribe on one route", live("one"))
def one_route(address):
    publisher, (subscriber,) = relay(address, "one")
    expect(publisher.dropped == 0 and subscriber.dropped == 0, "packets were dropped")


@case("three subscribers at once", live("three"))
def three_subscribers(address):
    relay(address, "three", subscribers=3)


TEN = [f"ten/{index}" for index in range(10)]


@case("ten routes at once", *map(live, TEN))
def ten_routes(address):
    count = 150
    publishers = [Publisher(address, publish(name), stream(count, 1000 * at), 10_000) for at, name in enumerate(TEN)]
    subscribers = [Subscriber(address, request(name)) for name in TEN]
    for one in publishers + subscribers:
        one.call()
    for one in subscribers + publishers:
        one.start()
    for at, one in enumerate(subscribers):
        one.wait(10, count)
        one.close()
        expect_run(one.got, 1000 * at, count, f"the subscriber of {TEN[at]}")
    for one in publishers:
        one.close()


@case("the subscriber comes first", live("first"))
def subscriber_first(address):
    subscriber = Subscriber(address, request("first"))
    subscriber.call()
    subscriber.start()
    until = time.monotonic() + 3
    while time.monotonic() < until and not subscriber.kept_alive:
        time.sleep(0.01)
    expect(subscriber.kept_alive >= 1, "no KEEPALIVE is received within a second or so")
    publisher = Publisher(address, publish("first"), stream(200), 5_000)
    publisher.call()
    publisher.start()
    expect_all(publisher, subscriber, 200, least_ms=120)


@case("a publisher comes back", live("back"))
def publisher_comes_back(address):
    subscriber = Subscriber(address, request("back"))
    subscriber.call()
    subscriber.start()
    for first in (0, 100, 200):
        publisher = Publisher(address, publish("back"), stream(100, first), 5_000)
        publisher.call()
        publisher.start()
        expect(publisher.wait_delivered(5), "the publisher's window didn't become free")
        publisher.close()
    subscriber.wait(5, 300)
    subscriber.close()
    expect_run(subscriber.got, 0, 300)


@case("a backup encoder takes over", live("backup"))
def backup_takes_over(address):
    """The subscriber gets the main encoder's payloads, 0 to 99, and then those that the backup sends from its end on."""
    subscriber = Subscriber(address, request("backup"))
    over = threading.Event()
    main = Publisher(address, publish("backup"), stream(100), 5_000)
    backup = Publisher(address, publish("backup"), endless(over, 1000), 5_000)
    for one in (subscriber, main, backup):
        one.call()
    expect_refusal(1002, Publisher(address, publish("backup"), stream(1), 5_000), "a third publisher")
    for one in (subscriber, main, backup):
        one.start()
    try:
        expect(main.wait_delivered(5), "the main encoder's window didn't become free")
        main.close()
        subscriber.wait(10, 200)
    finally:
        over.set()
    expect(backup.wait_delivered(10), "the backup's window didn't become free")
    end = 1000 + backup.next - backup.initial
    backup.close()
    time.sleep(0.2)
    subscriber.close()
    found = indexes(subscriber.got)
    expect(found[:100] == list(range(100)), f"of the main encoder's payloads {len([index for index in found if index < 1000])} came")
    rest = found[100:]
    expect(len(rest) >= 100 and rest == list(range(end - len(rest), end)), f"of the backup's payloads came {len(rest)}, {rest[:1]} to {rest[-1:]}")
    expect_delays(subscriber.got, 120)


@case("a publisher's last payloads at its SHUTDOWN are given up", live("tail", latency_ms=1000))
def tail(address):
    subscriber = Subscriber(address, request("tail"))
    publisher = Publisher(address, publish("tail"), stream(100), 5_000)
    start_all(subscriber, publisher)
    expect(publisher.wait_all(5), "packets weren't acknowledged")
    publisher.close()
    time.sleep(1.2)
    subscriber.close()
    expect(len(subscriber.got) < 100, "the payloads came although the publisher had ended before their time")


@case("a session nobody hears of for five seconds ends", live("idle"))
def idle_session(address):
    silent = [Publisher(address, publish("idle"), stream(10), 5_000) for _ in range(2)]
    start_all(*silent)
    for one in silent:
        one.wait_all(2)
        one.stop()
    first, last = min(one.sent for one in silent), max(one.sent for one in silent)
    later = Publisher(address, publish("idle"), stream(50), 5_000)
    later.induce()
    while now() - first < 4_500_000:
        expect(refusal(lambda: later.conclude(1)) == 1002, "a third publisher was accepted beside two open ones")
        time.sleep(0.5)
    time.sleep(max(0, (last + 5_500_000 - now()) / 1e6))
    expect(refusal(lambda: later.conclude(2)) == 0, "the sessions were still open after five seconds and a half")
    later.close()


# Handshakes.


@case("the delays of both sides", live("delays"))
def delays(address):
    for receiver, sender, answered in ((120, 0, (120, 120)), (20, 20, (120, 120)), (500, 300, (300, 500)), (0, 1000, (1000, 120))):
        one = Subscriber(address, request("delays"), receiver_ms=receiver, sender_ms=sender)
        one.call()
        expect(one.delays() == answered, f"delays {receiver} and {sender}: answered {one.delays()}, and not {answered}")
        one.close()


@case("a publisher asks for a longer delay", live("slow"))
def longer_delay(address):
    publisher = Publisher(address, publish("slow"), stream(150), 5_000, sender_ms=400)
    subscriber = Subscriber(address, "slow", receiver_ms=300)
    start_all(publisher, subscriber)
    expect(publisher.delays() == (400, 120) and subscriber.delays() == (120, 300), "the delays are answered otherwise")
    expect_all(publisher, subscriber, 150, least_ms=400)


@case("answers as the draft has them", live("answers"))
def answers(address):
    one = Subscriber(address, request("answers"), initial=0x7FFFFFFF, mtu=1400, congestion=b"live")
    first = one.induce()
    expect(first[:7] == (5, 0, 0x4A17, 0x7FFFFFFF, 1500, 8192, packets.INDUCTION), f"the induction is answered with {first}")
    second = one.conclude()
    expect(second[:7] == (5, 0, 5, 0x7FFFFFFF, 1400, 1024, packets.CONCLUSION), f"the conclusion is answered with {second}")
    hsrsp = struct.pack("!2I2H", 0x00010500, 0x3F, 120, 120)
    expect(second.blocks == {packets.HSRSP: hsrsp, packets.CONGESTION: packets.text_words(b"live")}, f"its blocks are {second.blocks}")
    expect(one.conclude() == second, "the conclusion again is answered otherwise")
    one.close()


FORMS = ["forms", "#!::r=forms", "#!::r=forms,m=request", "#!::m=request,r=forms", "#!::u=anna,r=forms,h=host.example,t=stream", b"forms\0\0\0"]


@case("forms of the Stream ID", live("forms", sessions=10))
def stream_ids(address):
    publisher = Publisher(address, "#!::u=anna,m=publish,t=stream,r=forms", stream(100), 5_000)
    subscribers = [Subscriber(address, form) for form in FORMS]
    for one in [*subscribers, publisher]:
        one.call()
    for one in [*subscribers, publisher]:
        one.start()
    for form, one in zip(FORMS, subscribers):
        one.wait(5, 100)
        one.close()
        expect_run(one.got, 0, 100, f"the subscriber with {form!r}")
    publisher.close()


@case("refusals, each with its code", live("codes", sessions=3), files("codes.files"))
def refusals(address):
    unknown = ["nowhere", "#!::m=publish", "#!::r=", "#!::r=codes,m=bidirectional", "#!::r=codes,r=codes", "#!::r=nowhere,m=publish", b"\xff\xfe", b""]
    for text in unknown:
        expect_refusal(1002, Caller(address, text), f"Stream ID {text!r}")
    expect_refusal(1002, Caller(address), "no Stream ID")
    expect_refusal(1004, Caller(address, "codes", asks=False), "no HSREQ")
    expect_refusal(1004, Caller(address, "codes", initial=0x80000000), "an initial number of 32 bits")
    expect_refusal(1004, Caller(address, "codes", mtu=75), "an MTU of 75")
    expect_refusal(1004, Caller(address, "codes", window=0), "a flow window of 0")
    expect_refusal(1004, Caller(address, "codes.files", mode="buffer", mtu=1499), "a buffer-mode subscriber with an MTU of 1499")
    expect_refusal(1008, Caller(address, "codes", version=4), "version 4")
    expect_refusal(1011, Caller(address, "codes", more=packets.block(packets.KMREQ, bytes(56))), "key material")
    expect_refusal(1014, Caller(address, "codes", more=packets.block(packets.FILTER, b"cef\0")), "a packet filter")
    expect_refusal(1015, Caller(address, "codes", more=packets.block(packets.GROUP, bytes(8))), "a group")
    expect_refusal(1012, Caller(address, "codes", mode="buffer"), "buffer mode on a live route")
    expect_refusal(1012, Caller(address, "codes.files", mode="live"), "live mode on a route in buffer mode")
    open_callers = [Publisher(address, publish("codes"), []) for _ in range(2)]
    for one in open_callers:
        one.call()
    expect_refusal(1002, Publisher(address, publish("codes"), []), "a third publisher")
    open_callers.append(Subscriber(address, request("codes")))
    open_callers[-1].call()
    expect_refusal(1003, Subscriber(address, request("codes")), "a fourth session of three")
    for one in open_callers:
        one.close()


@case("a wrong cookie isn't answered", live("cookie"))
def wrong_cookie(address):
    one = Subscriber(address, request("cookie"))
    one.induce()
    one.cookie ^= 1
    try:
        one.conclude(0.8)
        raise Wrong("a conclusion with a wrong cookie was answered")
    except Silent:
        pass
    one.cookie ^= 1
    one.conclude()
    one.close()


# Lines that lose, double and reorder.


def over_a_line(address, name, least_ms, counts, **chances):
    """Plays a stream whose publisher and subscriber each have a line of their own, which is bad for the middle part."""
    before, during = 200, 1000
    there, back = Proxy(address, 1), Proxy(address, 2)
    publisher = Publisher(there.address, publish(name), stream(before + during + 150), 4_000)
    subscriber = Subscriber(back.address, request(name), receiver_ms=500)
    start_all(publisher, subscriber)
    subscriber.wait(10, before)
    for line in (there, back):
        for chance, value in chances.items():
            setattr(line, chance, value)
    subscriber.wait(20, before + during)
    for line in (there, back):
        line.loss = line.double = line.late = 0
    subscriber.wait(5, before + during + 150)
    subscriber.close()
    publisher.close()
    for line in (there, back):
        line.stop()
        found = getattr(line, counts)
        expect(found >= 30, f"the line made only {found} packets {counts}")
    expect_run(subscriber.got, 0, before + during + 150)
    expect_delays(subscriber.got, least_ms)
    late = [it for it in delays_of(subscriber.got) if it > 1000 * (least_ms + 500)]
    expect(not late, f"{len(late)} payloads came too late to be played")
    return publisher, subscriber


@case("5 % lost both ways", live("lossy", latency_ms=500))
def loss(address):
    publisher, subscriber = over_a_line(address, "lossy", 500, "lost", loss=0.05)
    expect(publisher.resent >= 20 and subscriber.asked_again >= 10, "next to nothing was sent again")
    expect(publisher.dropped == 0 and subscriber.dropped == 0, "packets were dropped")


@case("20 % doubled", live("doubled", latency_ms=500))
def doubles(address):
    _, subscriber = over_a_line(address, "doubled", 500, "doubled", double=0.2)
    expect(subscriber.repeats >= 100, f"only {subscriber.repeats} packets came twice")


@case("packets out of order", live("disorder", latency_ms=500))
def disorder(address):
    over_a_line(address, "disorder", 500, "delayed", late=0.2)


@case("garbage beside a stream", live("calm"), live("pelted"))
def garbage(address):
    chance = random.Random(3)
    thrower = socket.socket(socket.AF_INET, socket.SOCK_DGRAM)
    publisher = Publisher(address, publish("calm"), stream(300), 5_000)
    subscriber = Subscriber(address, request("calm"))
    start_all(publisher, subscriber)
    theirs = 0x00100000 | publisher.peer_id & 0x000FFFFF
    while publisher.is_alive() and not publisher.exhausted:
        for _ in range(8):
            body = bytes(chance.getrandbits(8) for _ in range(chance.choice((0, 3, 15, 16, 20, 64, 96, 200))))
            first, destination = chance.choice((0, 0x80000000, 0x80020000, 0x80030000, 0x80070000)), chance.choice((0, theirs, theirs + 1, publisher.peer_id, subscriber.peer_id))
            thrower.sendto(body if chance.random() < 0.3 else struct.pack("!4I", first, 0, 0, destination) + body, address)
        time.sleep(0.004)
    expect_all(publisher, subscriber, 300)


# Buffer mode.


def pieces(contents, size=1456):
    return [contents[at:at + size] for at in range(0, len(contents), size)]


def hand_over(address, name, contents, towards=None, seconds=20):
    """Sends a file through a route in buffer mode. It must come out byte for byte."""
    publisher = Publisher(towards or address, publish(name), pieces(contents), 0, mode="buffer", congestion=b"file")
    subscriber = Subscriber(towards or address, request(name), mode="buffer", congestion=b"file")
    start_all(subscriber, publisher)
    expect(publisher.wait_delivered(seconds), f"after {seconds} s the file is not delivered: {len(subscriber.got)} pieces came")
    publisher.close()
    subscriber.wait(5, len(pieces(contents)))
    subscriber.close()
    came = b"".join(body for body, _ in subscriber.got)
    expect(came == contents, f"{len(came)} bytes came of {len(contents)}, or others")


@case("a file in buffer mode, byte for byte", files("file"))
def a_file(address):
    hand_over(address, "file", random.Random(4).randbytes(2_000_000))


@case("a file in buffer mode over a line that loses 5 %", files("lossy.file"))
def a_file_with_loss(address):
    line = Proxy(address, 5, loss=0.05, late=0.1)
    hand_over(address, "lossy.file", random.Random(6).randbytes(300_000), line.address, 30)
    line.stop()
    expect(line.lost >= 10, f"the line lost only {line.lost} packets")


@case("a file waits for its subscriber", files("waiting", buffer=32))
def a_file_waits(address):
    publisher = Publisher(address, publish("waiting"), stream(200), 0, mode="buffer", congestion=b"file")
    publisher.call()
    publisher.start()
    time.sleep(0.5)
    expect(publisher.next - publisher.initial == 32, f"{publisher.next - publisher.initial} packets were sent into a window of 32")
    subscriber = Subscriber(address, request("waiting"), mode="buffer", congestion=b"file")
    subscriber.call()
    subscriber.start()
    expect_all(publisher, subscriber, 200, seconds=10)


# The program.


@case("serve ends in time, with its report")
def ends_in_time(_):
    rounds = 400
    gateway = Gateway([live("short")], rounds)
    expect(gateway.is_up(), "it doesn't come up")
    publisher, subscriber = Publisher(gateway.address, publish("short"), stream(60), 2_000), Subscriber(gateway.address, "short")
    start_all(subscriber, publisher)
    ended = gateway.ended(rounds * 0.010 + 10)
    for one in (subscriber, publisher):
        one.stop()
    expect(ended is not None, f"{rounds} rounds took over {rounds * 0.010 + 10} s")
    status, output, errors = ended
    expect(status == 0 and not errors and output.endswith("\n"), f"status {status}, {output!r}, {errors!r}")
    counts = report(output[:-1])
    expect(counts is not None, f"the report is {output!r}")
    outcomes = sum(counts[it] for it in ("answered", "accepted", "full", "dropped", "memory"))
    expect(counts["read"] == outcomes, f"the outcomes of arrivals aren't as many as were read: {output!r}")
    expect(counts["answered"] >= 2 and counts["accepted"] >= 2 and counts["sent"] >= 4, f"it served nobody: {output!r}")
    expect(counts["faults"] == 0 and counts["memory"] == 0, f"it had faults: {output!r}")


@case("serve of no rounds reports zeros")
def no_rounds(_):
    ended = Gateway([live("none")], 0).ended(10)
    zeros = "read 0 answered 0 accepted 0 full 0 dropped 0 memory 0 sent 0 lost 0 faults 0\n"
    expect(ended == (0, zeros, ""), f"it ended with {ended}")


@case("a port that is taken is a socket fault")
def port_taken(_):
    with socket.socket(socket.AF_INET, socket.SOCK_DGRAM) as taker:
        taker.bind(("127.0.0.1", 0))
        ended = Gateway([live("none")], 3, port=taker.getsockname()[1]).ended(10)
    expect(ended == (1, "socket fault\n", ""), f"it ended with {ended}")


@case("each thread that can't be started is a thread fault, and nothing is read")
def no_thread(_):
    workers = 3
    every = workers + 2  # the workers, the thread that starts them, and the one that ticks
    gateways = [Gateway([live("none", buffer=32, sessions=1, inbox=16, outbox=16)], 100, workers, threads=count) for count in range(every)]
    callers = [Caller(gateway.address) for gateway in gateways]
    answers = 0
    until = time.monotonic() + 30
    while time.monotonic() < until and any(gateway.runs() for gateway in gateways):
        for one in callers:
            one.send(packets.control(packets.HANDSHAKE, 0, 0, 0, packets.handshake(4, 2, 1, 1500, 8192, packets.INDUCTION, 1, 0)))
            answers += one.receive(0) is not None
        time.sleep(0.002)
    for count, gateway in enumerate(gateways):
        ended = gateway.ended(0.1)
        expect(ended == (1, "thread fault\n", ""), f"with room for {count} of {every} threads it ended with {ended}")
    expect(answers == 0, f"{answers} inductions were answered")
    gateway = Gateway([live("none")], 300, workers, threads=every)
    expect(gateway.is_up(), "it doesn't come up with room for all threads")
    expect((gateway.ended(20) or [None])[0] == 0, "it has a fault with room for all threads")


@case("511 routes and 16 workers")
def many_routes(_):
    names = [f"r{index}" for index in range(511)]
    gateway = Gateway([live(name, buffer=64, sessions=2, inbox=16, outbox=64) for name in names], workers=16)
    try:
        expect(gateway.is_up(20), "it doesn't come up")
        for name in ("r0", "r255", "r510"):
            relay(gateway.address, name, 100)
        expect(gateway.runs(), "it ended")
    finally:
        gateway.kill()


@case("a route opens and closes by round, and its neighbour loses nothing")
def opens_and_closes(_):
    """With a stream on the other route a second has 1000 rounds or some more, so that the route opens after about four
    seconds, and closes some eight seconds later. The neighbour's stream goes on until all of that has happened."""
    gateway = Gateway([live("steady"), live("guest", open_round=4_000, close_round=12_000)])
    over = threading.Event()
    publisher, subscriber = Publisher(gateway.address, publish("steady"), endless(over), 5_000), Subscriber(gateway.address, "steady")
    guest, taker = Publisher(gateway.address, publish("guest"), stream(1_000_000), 5_000), Subscriber(gateway.address, "guest")
    try:
        expect(gateway.is_up(), "it doesn't come up")
        expect_refusal(1002, taker, "a call before the route opened")
        start_all(publisher, subscriber)
        expect(accepted(taker), "the route doesn't open")
        guest.call()
        for one in (taker, guest):
            one.start()
        for one, who in ((taker, "subscriber"), (guest, "publisher")):
            expect(one.shut.wait(60), f"the {who} got no SHUTDOWN when the route closed")
        expect(len(taker.got) >= 100, f"only {len(taker.got)} payloads came before the route closed")
        expect_run(taker.got, 0, len(taker.got), "the subscriber of the route that closed")
        expect_refusal(1002, Caller(gateway.address, "guest"), "a call after the route closed")
        time.sleep(0.5)
        over.set()
        expect(publisher.wait_delivered(10), "the neighbour's window didn't become free")
        count = publisher.next - publisher.initial
        subscriber.wait(5, count)
        for one in (subscriber, publisher):
            expect(not one.shut.is_set() and one.dropped == 0, "the neighbour's session ended, or packets were dropped")
            one.close()
        expect_run(subscriber.got, 0, count, "the neighbour's subscriber")
        expect(gateway.runs(), "it ended")
    finally:
        for one in (publisher, subscriber, guest, taker):
            one.stop()
        gateway.kill()


# Real callers.


def settle(outlets, inlet, first=0):
    """Feeds a tool until something has come out at each outlet. Returns the number of the next payload."""
    for index in range(first, first + 2000):
        inlet.feed([payload(index)], 0.005)
        if all(it.got for it in outlets):
            return index + 1
    raise Wrong("nothing came out within ten seconds")


def expect_stream(outlet, end, who="the tool"):
    """Expects an unbroken run of payloads at the outlet, the last with the number `end` - 1."""
    found = indexes(list(outlet.got))
    expect(found and found == list(range(found[0], end)), f"{who} got {len(found)} payloads, {found[:1]} to {found[-1:]}, with gaps or others")


def tools_relay(source, sinks, least_ms, count=400, calm=None, slack_ms=100):
    """Plays an srt-live-transmit that publishes to `source`, and one that subscribes at each of `sinks`."""
    inlet, outlets = tools.Inlet(), [tools.Outlet() for _ in sinks]
    ran = [tools.transmit(inlet.address, source)]
    ran += [tools.transmit(sink, outlet.address) for sink, outlet in zip(sinks, outlets)]
    try:
        first = settle(outlets, inlet)
        if calm is not None:
            inlet.feed(stream(200, first), 0.004)
            first += 200
            calm(True)
        inlet.feed(stream(count, first), 0.004)
        if calm is not None:
            calm(False)
            inlet.feed(stream(100, first + count), 0.004)
            count += 100
        wait = time.monotonic() + 5
        while time.monotonic() < wait and any(indexes(it.got[-1:]) != [first + count - 1] for it in outlets):
            time.sleep(0.02)
        for at, outlet in enumerate(outlets):
            expect_stream(outlet, first + count, f"player {at}")
            expect_delays(list(outlet.got), least_ms, slack_ms)
    finally:
        for one in ran:
            one.end()


@case("srt-live-transmit to srt-live-transmit", live("slt"), needs=[tools.SRT])
def transmit_to_transmit(address):
    tools_relay(tools.srt(address, streamid=publish("slt")), [tools.srt(address, streamid="slt")], 240)


@case("srt-live-transmit to three of them", live("slt3"), needs=[tools.SRT])
def transmit_to_three(address):
    sinks = [tools.srt(address, streamid=form) for form in ("slt3", "#!::r=slt3", request("slt3"))]
    tools_relay(tools.srt(address, streamid=publish("slt3")), sinks, 240)


@case("srt-live-transmit with delays of its own", live("slt.delays"), needs=[tools.SRT])
def transmit_delays(address):
    source = tools.srt(address, streamid=publish("slt.delays"), latency=300)
    sink = tools.srt(address, streamid="slt.delays", rcvlatency=250)
    tools_relay(source, [sink], 550)


@case("srt-live-transmit over lines that lose 5 %", live("slt.lossy", latency_ms=500), needs=[tools.SRT])
def transmit_loss(address):
    there, back = Proxy(address, 7), Proxy(address, 8)

    def bad(yes):
        there.loss = back.loss = 0.05 if yes else 0

    source = tools.srt(there.address, streamid=publish("slt.lossy"))
    tools_relay(source, [tools.srt(back.address, streamid="slt.lossy", latency=500)], 1000, 1000, bad)
    for line in (there, back):
        line.stop()
        expect(line.lost >= 20, f"the line lost only {line.lost} packets")


@case("srt-live-transmit over lines that double and reorder", live("slt.mixed"), needs=[tools.SRT])
def transmit_mixed(address):
    there, back = Proxy(address, 9), Proxy(address, 10)

    def bad(yes):
        there.double = back.double = 0.2 if yes else 0
        there.late = back.late = 0.1 if yes else 0

    source = tools.srt(there.address, streamid=publish("slt.mixed"))
    tools_relay(source, [tools.srt(back.address, streamid="slt.mixed")], 240, 400, bad)
    for line in (there, back):
        line.stop()
        expect(line.doubled >= 30, f"the line doubled only {line.doubled} packets")


@case("srt-live-transmit comes back as publisher", live("slt.back"), needs=[tools.SRT])
def transmit_comes_back(address):
    outlet = tools.Outlet()
    with tools.transmit(tools.srt(address, streamid="slt.back"), outlet.address):
        next_one = 0
        for _ in range(2):
            inlet, heard = tools.Inlet(), len(outlet.got)
            with tools.transmit(inlet.address, tools.srt(address, streamid=publish("slt.back"))):
                for next_one in range(next_one, next_one + 2000):
                    inlet.feed([payload(next_one)], 0.005)
                    if len(outlet.got) >= heard + 100:
                        break
                expect(len(outlet.got) >= heard + 100, "the stream doesn't come out")
            next_one += 1
    found = indexes(list(outlet.got))
    expect(found == sorted(set(found)), "payloads came twice or out of order")


REASONS = [
    (dict(streamid="nowhere"), "Peer rejected connection"),
    (dict(streamid="slt.codes", passphrase="a-passphrase"), "Password required or unexpected"),
    (dict(streamid="slt.codes", transtype="file", messageapi=0), "MessageAPI/StreamAPI collision"),
    (dict(streamid="slt.codes", packetfilter="fec,cols:10"), "Packet Filter settings error"),
    (dict(streamid=publish("slt.codes")), "Peer rejected connection"),
    (dict(streamid="slt.codes"), "Resource allocation failure"),
]


@case("srt-live-transmit reports each refusal", live("slt.codes", sessions=3), needs=[tools.SRT])
def transmit_refusals(address):
    held = [*(Publisher(address, publish("slt.codes"), []) for _ in range(2)), Subscriber(address, "slt.codes")]
    start_all(*held)
    for options, reason in REASONS:
        with tools.transmit(tools.srt(address, **options), "file://con") as tool:
            expect(tool.wait_errors(f"REJECT reported from HS processing: {reason}", 5), f"{options} isn't refused with {reason!r}: {tool.errors()[-300:]!r}")
    for one in held:
        one.close()


@case("a file by srt-live-transmit, byte for byte", files("slt.file"), needs=[tools.SRT])
def transmit_file(address):
    contents = random.Random(11).randbytes(100_000)
    mode = dict(transtype="file", messageapi=0)
    player = tools.transmit(tools.srt(address, streamid="slt.file", **mode), "file://con")
    source = tools.transmit("file://con", tools.srt(address, streamid=publish("slt.file"), **mode), fed=True)
    with player, source:
        for one, text in ((source, "SRT target connected"),):
            expect(one.wait_errors(text, 5), f"a session doesn't open: {one.errors()[-300:]!r}")
        source.feed(contents)
        until = time.monotonic() + 40
        while len(player.output) < len(contents) and time.monotonic() < until:
            source.feed(bytes(1316))  # It keeps back what it has read until more comes.
            time.sleep(0.05)
    came = bytes(player.output[:len(contents)])
    expect(came == contents, f"{len(came)} bytes came of {len(contents)}, or others")


def continuous(contents):
    """The number of packets of a transport stream, and of breaks in its continuity counters (ISO 13818-1, 2.4.3)."""
    counters, breaks, packets = {}, 0, 0
    for at in range(0, len(contents) - 187, 188):
        if contents[at] != 0x47:
            return packets, breaks + 1
        packets += 1
        pid = (contents[at + 1] & 0x1F) << 8 | contents[at + 2]
        if pid == 0x1FFF or not contents[at + 3] & 0x10:
            continue
        counter = contents[at + 3] & 0x0F
        breaks += pid in counters and counter != (counters[pid] + 1) % 16
        counters[pid] = counter
    return packets, breaks


def encoder(sink, seconds):
    source = f"testsrc=size=320x240:rate=25:duration={seconds}"
    words = ["-hide_banner", "-loglevel", "error", "-re", "-f", "lavfi", "-i", source, "-c:v", "mpeg2video", "-b:v", "1M", "-f", "mpegts", sink]
    return tools.Tool([tools.FFMPEG, *words])


@case("ffmpeg publishes, a caller of our own takes its stream", live("ff.one"), needs=[tools.FFMPEG])
def ffmpeg_publishes(address):
    subscriber = Subscriber(address, request("ff.one"))
    subscriber.call()
    subscriber.start()
    with encoder(tools.srt(address, streamid=publish("ff.one"), pkt_size=1316), 3):
        subscriber.wait(6, 200)
    subscriber.close()
    packets, breaks = continuous(b"".join(body for body, _ in subscriber.got))
    expect(packets >= 500 and breaks == 0, f"{packets} packets of a transport stream came, with {breaks} breaks")


@case("ffmpeg to ffmpeg", live("ff.two"), needs=[tools.FFMPEG])
def ffmpeg_to_ffmpeg(address):
    words = ["-hide_banner", "-loglevel", "error", "-analyzeduration", "1000000", "-i", tools.srt(address, streamid="ff.two"), "-t", "2", "-c", "copy", "-f", "framecrc", "-"]
    with tools.Tool([tools.FFMPEG, *words]) as player:
        time.sleep(0.5)
        with encoder(tools.srt(address, streamid=publish("ff.two"), pkt_size=1316), 6):
            player.ended(10)
    frames = [it for it in player.output.decode(errors="replace").splitlines() if not it.startswith("#")]
    expect(len(frames) >= 40, f"{len(frames)} frames came of two seconds of stream: {player.errors()[-300:]!r}")

"""The balancer's recipe of docs/operating/scaling.md: nginx's stream module over UDP, hashed by source address, in front of two
gateways."""
import os
import re
import shutil
import signal
import subprocess
import tempfile
import threading
import time

from caller import Publisher, Refused, Silent, Subscriber, endless, indexes, stream
from cases import case
from documents import block_of
from expecting import Wrong, expect, expect_run, publish
from machine import free_port
from running import STOP_SECONDS, Run, Skipped, expect_polite, live

NGINX = "nginx"
MODULE = "/usr/lib/nginx/modules/ngx_stream_module.so"
FAIL_SECONDS = 10  # The `fail_timeout` of a server that didn't answer, nginx's usual one.
OPENED = r"studio: (?:publisher|subscriber) \S+ opened(?: as standby)?, socket .*"


class Balancer:
    """An nginx in front of gateways, with the document's configuration but for addresses and ports."""

    def __init__(self, gateways):
        self.address = ("127.0.0.1", free_port())
        self.room = tempfile.mkdtemp(prefix="srtgw-nginx-")
        text = block_of("stream {")
        for name, gateway in zip(("192.0.2.11:9000", "192.0.2.12:9000"), gateways):
            expect(name in text, f"the recipe lacks {name}")
            text = text.replace(name, f"127.0.0.1:{gateway.address[1]}")
        expect("listen 9000 udp" in text, "the recipe lacks `listen 9000 udp`")
        text = text.replace("listen 9000 udp", f"listen 127.0.0.1:{self.address[1]} udp")
        load = f"load_module {MODULE};\n" if os.path.exists(MODULE) else ""
        fore = f"worker_processes 2;\ndaemon off;\nmaster_process on;\npid {self.room}/pid;\nevents {{ worker_connections 1024; }}\n"
        with open(f"{self.room}/nginx.conf", "w") as it:
            it.write(load + fore + text)
        words = [NGINX, "-p", self.room, "-c", f"{self.room}/nginx.conf", "-e", f"{self.room}/error.log"]
        test = subprocess.run([*words, "-t"], capture_output=True, text=True)
        if test.returncode and "unknown directive \"stream\"" in test.stderr:
            raise Skipped("nginx has no stream module")
        expect(test.returncode == 0, f"nginx doesn't take the recipe: {test.stderr[-300:]}")
        self.process = subprocess.Popen(words, stdin=subprocess.DEVNULL, stdout=subprocess.DEVNULL, stderr=subprocess.DEVNULL)

    def __enter__(self):
        return self

    def __exit__(self, *why):
        self.process.send_signal(signal.SIGTERM)
        try:
            self.process.wait(5)
        except subprocess.TimeoutExpired:
            self.process.kill()
            self.process.wait()
        shutil.rmtree(self.room, ignore_errors=True)


def gateways_up(*ports):
    found = [Run([live("studio", sessions=17)], "--no-time", port=it) for it in (ports or (None, None))]
    for it in found:
        it.is_up()
    return found


def opened_at(gateways):
    """How many sessions each gateway's log has opened."""
    return [sum(bool(re.fullmatch(OPENED, it)) for it in one.texts()) for one in gateways]


def called(caller, seconds=10):
    """Calls again and again until the call is accepted, as callers do, for at most so many seconds. Returns how long it took."""
    began = time.monotonic()
    while time.monotonic() < began + seconds:
        try:
            caller.call(1)
            return time.monotonic() - began
        except (Silent, Refused):
            time.sleep(0.05)
    raise Wrong(f"no call of {seconds} seconds was accepted")


def address_for(balancer, gateways, which):
    """A source address whose callers reach the gateway with this number."""
    for last in range(2, 60):
        before = opened_at(gateways)
        one = Subscriber(balancer.address, "studio", source=f"127.0.0.{last}")
        called(one)
        until = time.monotonic() + 3
        while opened_at(gateways) == before and time.monotonic() < until:
            time.sleep(0.02)
        one.close()
        if opened_at(gateways)[which] > before[which]:
            return f"127.0.0.{last}"
    raise Wrong(f"of 58 addresses none reached gateway {which}")


def started(*callers):
    for one in callers:
        called(one)
        one.start()
    return callers


@case("behind a balancer callers of one address meet, those of others don't", needs=[NGINX])
def callers_meet():
    count = 400
    gateways = gateways_up()
    try:
        with Balancer(gateways) as balancer:
            here, there = (address_for(balancer, gateways, it) for it in (0, 1))
            players = [Subscriber(balancer.address, "studio", source=here) for _ in range(3)]
            far = Subscriber(balancer.address, "studio", source=there)
            encoder = Publisher(balancer.address, publish("studio"), stream(count), 4_000, source=here)
            started(*players, far, encoder)
            expect(encoder.wait_delivered(10), "the encoder's window doesn't become free")
            for one in players:
                one.wait(5, count)
                expect_run(one.got, 0, count, "a player of the encoder's address")
            expect(not far.got and not far.shut.is_set(), f"a player of the other gateway got {len(far.got)} payloads")
            # An encoder that publishes to each gateway serves the callers of both.
            second = Publisher(balancer.address, publish("studio"), stream(count), 4_000, source=there)
            started(second)
            far.wait(10, count)
            expect_run(far.got, 0, count, "a player of the other gateway")
            for one in (*players, far, encoder, second):
                one.close()
        for one in gateways:
            expect_polite(one.stop(), ["studio"])
    finally:
        for one in gateways:
            one.kill()


@case("behind a balancer a gateway stops, and its callers go on at the other one", needs=[NGINX])
def gateway_goes():
    gateways = gateways_up()
    over = threading.Event()
    try:
        with Balancer(gateways) as balancer:
            here, there = (address_for(balancer, gateways, it) for it in (0, 1))
            calm = started(Subscriber(balancer.address, "studio", source=there), Publisher(balancer.address, publish("studio"), endless(over), 4_000, source=there))
            moved = started(Subscriber(balancer.address, "studio", source=here), Publisher(balancer.address, publish("studio"), endless(over, 1 << 20), 4_000, source=here))
            time.sleep(1)
            end = gateways[0].stop()
            expect(end.seconds <= STOP_SECONDS, f"it took {end.seconds:.2f} s")
            expect_polite(end, ["studio"])
            for one in moved:
                expect(one.shut.wait(1), "a caller got no SHUTDOWN through the balancer")
                one.stop()
            # It calls again from the same address: the balancer asks the gateway that is gone once more, and then the other one.
            again = [Subscriber(balancer.address, "studio", source=here), Publisher(balancer.address, publish("studio"), endless(over, 1 << 21), 4_000, source=here)]
            took = [called(it) for it in again]
            expect(max(took) <= 5, f"callers were taken again after {took} s")
            print(f"  callers of the gateway that stopped were taken by the other one after {took[0]:.2f} and {took[1]:.2f} s")
            for one in again:
                one.start()
            # At that gateway an encoder is active already, so this one stands by there: its player gets what the first one sends.
            expect(again[0].wait(10, 200), "the stream doesn't go on at the other gateway")
            expect(indexes(again[0].got[:1])[0] < 1 << 20, "the player gets its own encoder's stream, though another one is active")
            over.set()
            time.sleep(1)
            found = indexes(calm[0].got)
            expect(found == list(range(found[0], found[0] + len(found))), "callers of the other gateway lost something")
            for one in (*calm, *again):
                one.close()
        expect_polite(gateways[1].stop(), ["studio"])
    finally:
        over.set()
        for one in gateways:
            one.kill()


@case("behind a balancer a gateway comes back, and gets the new callers of its addresses", needs=[NGINX])
def gateway_comes_back():
    gateways = gateways_up()
    over = threading.Event()
    try:
        with Balancer(gateways) as balancer:
            here = address_for(balancer, gateways, 0)
            gateways[0].stop()
            encoder, player = Publisher(balancer.address, publish("studio"), endless(over), 4_000, source=here), Subscriber(balancer.address, "studio", source=here)
            started(encoder, player)
            expect(player.wait(10, 200), "the stream doesn't go on at the other gateway")
            back = Run([live("studio", sessions=17)], "--no-time", port=gateways[0].address[1])
            gateways.append(back)
            back.is_up()
            time.sleep(FAIL_SECONDS + 2)
            late = Subscriber(balancer.address, "studio", source=here)
            started(late)
            back.line(OPENED, 2)
            time.sleep(1)
            expect(not late.got, "a caller that came after it was back got a stream of the other gateway")
            before = len(player.got)
            expect(player.wait(5, before + 100) and not player.shut.is_set(), "a session of the other gateway ended")
            over.set()
            for one in (encoder, player, late):
                one.close()
    finally:
        over.set()
        for one in gateways:
            one.kill()

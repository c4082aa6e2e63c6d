"""What PROTOCOL says isn't here, where no case of a caller or of the command line shows it already."""
import os
import stat
import time

import packets
from caller import Caller, Publisher, Subscriber, start_all, stream
from cases import case
from expecting import expect, expect_run, publish
from running import Run, live

WAVE = 0  # The type of a rendezvous caller's first handshake (section 4.3.2).
PARTS = (0x80000000, 0x00000000, 0x40000000)  # PP of a message's first, middle and last packet (section 3.1).


@case("a caller in rendezvous mode gets no answer")
def rendezvous():
    with Run([live("studio")], "--no-time") as run:
        run.is_up()
        caller = Caller(run.address, "studio")
        for version, kind in ((5, WAVE), (5, packets.CONCLUSION)):
            body = packets.handshake(version, 0, caller.initial, 1500, 8192, kind, caller.socket_id, 0x1234567)
            caller.send(packets.control(packets.HANDSHAKE, 0, caller.stamp(), 0, body))
            expect(caller.receive(1) is None, f"a handshake of type {kind} is answered")
        caller.call()
        caller.close()
        end = run.stop()
        expect(end.report["dropped"] >= 2, f"the handshakes weren't dropped: {end.report}")


class InParts(Publisher):
    """A publisher whose packets are the first, middle and last ones of messages, in turn."""

    def send_data(self, number, again=False):
        sent, body = self.flight[number]
        flags = PARTS[(number - self.initial) % 3]
        self.send(packets.data(number % packets.NUMBERS, self.message(number), sent, self.peer_id, body, again, flags))


@case("each packet of a message of several is a payload of its own")
def messages_of_several_packets():
    with Run([live("studio")], "--no-time") as run:
        run.is_up()
        player, encoder = Subscriber(run.address, "studio"), InParts(run.address, publish("studio"), stream(90), 4_000)
        start_all(player, encoder)
        expect(player.wait(10, 90), f"{len(player.got)} of 90 payloads were received")
        expect_run(player.got, 0, 90)
        for one in (encoder, player):
            one.close()
        run.stop()


@case("nothing of a stream is stored")
def nothing_is_stored():
    with Run([live("studio")], "--no-time") as run:
        run.is_up()
        player, encoder = Subscriber(run.address, "studio"), Publisher(run.address, publish("studio"), stream(100), 4_000)
        start_all(player, encoder)
        expect(player.wait(10, 50), "the stream doesn't flow")
        folder = f"/proc/{run.process.pid}/fd"
        files = [os.readlink(f"{folder}/{it}") for it in os.listdir(folder) if stat.S_ISREG(os.stat(f"{folder}/{it}").st_mode)]
        expect(player.wait(10, 100) and not files, f"the gateway has open files: {files}")
        for one in (encoder, player):
            one.close()
        time.sleep(0.2)
        run.stop()
        expect(os.listdir(run.room) == ["gateway.toml"], f"it left {os.listdir(run.room)}")

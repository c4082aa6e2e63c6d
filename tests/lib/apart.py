"""A stream of callers of our own that runs in a process of its own: what the tests' process does meanwhile holds up none of them."""
from __future__ import annotations

import multiprocessing
from typing import NamedTuple

from caller import Publisher, Subscriber, endless, start_all
from expecting import Wrong, expect, expect_run, publish

SECONDS_TO_OPEN = 30
SECONDS_TO_END = 30


class Streamed(NamedTuple):
    """What became of a stream: what is wrong with what its subscriber received, if anything, how many packets were sent, and how many
    were given up."""

    wrong: str
    count: int
    given_up: int


def play(address, name, interval, over, told):
    """Plays a publisher and a subscriber of a route until `over` is set. `told` gets a word when their sessions are open, and a Streamed
    at the end."""
    publisher, subscriber = Publisher(address, publish(name), endless(over), interval), Subscriber(address, name)
    wrong = ""
    try:
        start_all(subscriber, publisher)
        told.put("open")
        over.wait()
        expect(publisher.wait_delivered(10), "the stream stops")
        count = publisher.next - publisher.initial
        subscriber.wait(5, count)
        expect_run(subscriber.got, 0, count)
    except Exception as why:
        wrong = str(why) if isinstance(why, Wrong) else f"{type(why).__name__}: {why}"
    finally:
        for one in (publisher, subscriber):
            one.close()
    told.put(Streamed(wrong, publisher.next - publisher.initial, publisher.dropped + subscriber.dropped))


class OwnProcess:
    """A function that runs in a process of its own: `of` with these arguments, an Event and a Queue. It puts "open" into the queue once
    its sessions are open, or what is wrong, and its result once the event is set."""

    def __init__(self, what, of, *args):
        context = multiprocessing.get_context("spawn")
        self.over, self.told = context.Event(), context.Queue()
        self.process = context.Process(target=of, args=(*args, self.over, self.told), daemon=True)
        self.process.start()
        found = self.told.get(timeout=SECONDS_TO_OPEN)
        expect(found == "open", f"{what} doesn't open: {found}")

    def end(self):
        """Ends it, and returns its result."""
        self.over.set()
        found = self.told.get(timeout=SECONDS_TO_END)
        self.process.join(5)
        return found

    def kill(self):
        self.process.kill()


class Apart(OwnProcess):
    """A stream in a process of its own, with a packet each `interval` microseconds."""

    def __init__(self, address, name, interval):
        super().__init__("the stream", play, address, name, interval)

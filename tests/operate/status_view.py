"""The status page as a person sees it, in a Chromium without a window."""
from __future__ import annotations

import json
import threading
import time
from contextlib import contextmanager
from typing import Iterator, NamedTuple

from browser import CHROMIUM, Browser, shown_in
from caller import Caller, Publisher, Subscriber, endless, start_all
from cases import case
from changing import changed, refused, text_of, tiny
from expecting import Wrong, expect, publish
from lines import peer_of
from running import Run, Shown, expect_polite, live

IS_GONE = "document.body.innerText.includes('no answer')"
SIZES = ((1280, 800), (390, 844))  # A desk's window and a telephone's.
UPDATE = 5.0  # What happens is shown within so many seconds.
LINES = 100  # A picture with text and a table has more different lines than that.
LONGEST = "99.99 Mbit/s"  # No bit rate above the routes has a longer text.
OPENS = "document.querySelectorAll('.route').forEach(it => it.open = true)"


class Scene(NamedTuple):
    """Who is on the air at the route `studio`."""

    publisher: Publisher
    standby: Publisher
    subscribers: list[Subscriber]

    def callers(self) -> list[Caller]:
        return [self.publisher, self.standby, *self.subscribers]


@contextmanager
def on_the_air(run: Run) -> Iterator[Scene]:
    """A publisher, one that stands by, and two subscribers."""
    over = threading.Event()
    publishers = [Publisher(run.address, publish("studio"), endless(over), 4_000) for _ in range(2)]
    scene = Scene(*publishers, [Subscriber(run.address, "studio") for _ in range(2)])
    try:
        start_all(*scene.callers())
        yield scene
    finally:
        over.set()
        for it in scene.callers():
            it.close()


def address_of(run: Shown) -> str:
    return "http://{}:{}/".format(*run.page.address)


def expect_text(browser: Browser, wanted: list[str], seconds: float = UPDATE) -> None:
    """Expects that the page shows these texts, within so many seconds."""
    until = time.monotonic() + seconds
    while True:
        missing = [it for it in wanted if it not in browser.text()]
        if not missing:
            return
        if time.monotonic() >= until:
            raise Wrong(f"the page lacks {missing}: {browser.text()[:500]!r}")
        time.sleep(0.05)


def expect_without(browser: Browser, text: str) -> None:
    """Expects that the page doesn't show a text any more, within UPDATE."""
    until = time.monotonic() + UPDATE
    while text in browser.text():
        expect(time.monotonic() < until, f"the page still has {text!r}")
        time.sleep(0.05)


def expect_fits(browser: Browser, width: int, height: int) -> None:
    """Expects that the page is no wider than the window, that a picture of it isn't empty, and that nothing failed in it."""
    wide = browser.value("document.documentElement.scrollWidth")
    expect(wide <= width, f"the page is {wide} pixels wide in a window of {width}")
    overflows = f"it => (it.textContent = {json.dumps(LONGEST)}, it.scrollWidth > it.clientWidth)"
    narrow = browser.value(f"[...document.querySelectorAll('#sums b')].slice(-2).filter({overflows}).length")
    expect(narrow == 0, f"{narrow} bit rates of the gateway have no room for {LONGEST}")
    found = shown_in(browser.picture())
    expect(found[:2] == (width, height) and found[2] >= LINES, f"the picture is {found[0]} x {found[1]}, with {found[2]} different lines")
    expect(not browser.complaints, f"the browser complains: {browser.complaints}")


@case("the status page in a browser: who is on the air, at a desk and on a telephone", needs=[CHROMIUM])
def shows_who_is_on_the_air():
    with Shown([live("studio"), live("evening")], "--no-time") as run:
        run.is_up()
        with on_the_air(run) as scene:
            for width, height in SIZES:
                with Browser(width, height) as browser:
                    browser.opens(address_of(run))
                    expect_text(browser, ["studio", "on air +1", "2 players", "1 route is on the air, and none needs attention"], 10)
                    browser.value(OPENS)
                    expect_text(browser, [*map(peer_of, scene.callers()), "Standby", "Last hour: "])
                    browser.value("document.getElementById('log').open = true")
                    expect_text(browser, [f"studio: publisher {peer_of(scene.publisher)} opened"])
                    expect("evening" in browser.value("document.body.textContent"), "the route without callers isn't there")
                    time.sleep(UPDATE)
                    expect_fits(browser, width, height)
                    loaded = browser.value("performance.getEntriesByType('resource').map(it => it.name)")
                    others = [it for it in loaded if not it.startswith(address_of(run))]
                    expect(not others, f"it loads {others} from elsewhere")
        expect_polite(run.stop(), ["studio", "evening"])


@case("the status page in a browser follows what happens", needs=[CHROMIUM])
def follows_what_happens():
    with Shown([live("studio")], "--no-time") as run, Browser(*SIZES[0]) as browser:
        run.is_up()
        browser.opens(address_of(run))
        expect_text(browser, ["running"], 10)
        with on_the_air(run) as scene:
            expect_text(browser, ["on air"])
            browser.value(OPENS)
            expect_text(browser, list(map(peer_of, scene.callers())))
            scene.subscribers[0].stop()
            late = Subscriber(run.address, "studio")
            start_all(late)
            expect_text(browser, [peer_of(late)])
            late.close()
            expect_without(browser, peer_of(late))
        expect_without(browser, peer_of(scene.publisher))
        expect(not browser.complaints, f"the browser complains: {browser.complaints}")
        run.stop()


@case("the status page in a browser begins with the routes that need attention", needs=[CHROMIUM])
def begins_with_what_needs_attention():
    for width, height in SIZES:
        with Shown([live("studio"), live("evening")], "--no-time") as run, Browser(width, height) as browser:
            run.is_up()
            browser.opens(address_of(run))
            expect_text(browser, ["No route is on the air", "Nobody is connected", "#!::r=NAME,m=publish"], 10)
            with on_the_air(run):
                waiting = Subscriber(run.address, "evening")
                start_all(waiting)
                expect_text(browser, ["1 of 2 routes needs attention", "no encoder, 1 player waits"], 10)
                first = browser.value("document.querySelector('.route').className + ' ' + document.querySelector('.route .name').innerText")
                expect(first == "route bad evening", f"the first route is {first!r}")
                expect_fits(browser, width, height)
                waiting.close()
                expect_text(browser, ["1 route is on the air, and none needs attention"], 10)
            expect_text(browser, ["encoder gone since", "off air"], 10)
            run.stop()


def class_of(browser: Browser, text: str) -> str:
    """The class of the part of the page that has just this text."""
    return browser.value(f"[...document.querySelectorAll('.mark, #facts div')].find(it => it.innerText === {json.dumps(text)})?.className ?? 'none'")


@case("the status page in a browser tells of changed configurations and of the indexes that are left", needs=[CHROMIUM])
def tells_of_changes():
    steady = [live("studio"), live("evening")]
    for width, height in SIZES:
        with Shown(steady, "--no-time") as run, Browser(width, height) as browser:
            run.is_up()
            browser.opens(address_of(run))
            expect_text(browser, ["running", "509\nIndexes left"], 10)
            expect("configuration" not in browser.text(), f"it tells of changes before there are any: {browser.text()[:300]!r}")
            changed(run, [*steady, *(tiny(f"r{at}") for at in range(9))], (2, 9, 0, 0))
            expect_text(browser, ["1 × configuration changed", "500\nIndexes left"])
            refused(run, text_of(run, [live("studio", sessions=40)]), ".*")
            expect_text(browser, ["1 × configuration not taken, see the log"])
            found = [class_of(browser, it) for it in ("1 × configuration changed", "1 × configuration not taken, see the log", "500\nIndexes left")]
            expect([it.split() for it in found] == [["mark"], ["mark", "warn"], []], f"the parts are of the classes {found}")
            changed(run, [*steady, *(tiny(f"s{at}") for at in range(389))], (2, 389, 9, 0), 10)
            expect_text(browser, ["2 × configuration changed", "111\nIndexes left"])
            expect(class_of(browser, "111\nIndexes left") == "bad", "few indexes are shown as many")
            expect_fits(browser, width, height)
            run.stop()


@case("the status page in a browser says that the gateway is gone, and goes on when it is back", needs=[CHROMIUM])
def says_that_it_is_gone():
    with Browser(*SIZES[0]) as browser:
        with Shown([live("studio")], "--no-time") as run:
            run.is_up()
            browser.opens(address_of(run))
            expect_text(browser, ["running"], 10)
            time.sleep(UPDATE)
            expect(not browser.value(IS_GONE), f"it says that the gateway is gone: {browser.text()[:300]!r}")
            run.stop()
            expect(browser.waits(IS_GONE, UPDATE), f"it doesn't say that the gateway is gone: {browser.text()[:300]!r}")
        with Run([live("studio")], "--no-time", port=run.address[1], status="{}:{}".format(*run.page.address)) as again:
            again.is_up()
            expect(browser.waits(f"!({IS_GONE})", UPDATE), f"it says so still: {browser.text()[:300]!r}")
            again.stop()

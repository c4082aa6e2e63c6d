"""Encrypted sessions beside those in clear: what the log, the metrics, the JSON and the page say of their keys."""
from __future__ import annotations

import re
import time

import packets
from browser import CHROMIUM, Browser
from caller import Caller
from cases import case
from expecting import expect, publish
from lines import opened_line, peer_of
from objects import Objects, expect_same
from running import Shown, live
from status import LOOK, session_in, snapshot
from status_view import OPENS, SIZES, address_of, expect_fits, expect_text

SECURED = dict(publish_passphrase="correct horse battery", request_passphrase="hold the line please")
# The contents of KMREQs: an encoder's key of 16 bytes and a player's of 24, wrapped by these passphrases.
ENCODER_KEYS = bytes.fromhex("1220290100000000020002000000040400112233445566778899aabbccddeeff097ad2a296802dd03b3cad778b2ef5ec61782692f95549e2")
PLAYER_KEYS = bytes.fromhex("12202901000000000200020000000406ffeeddccbbaa9988776655443322110055d5c0a04098090aa97287b4eba8443d46d8ba88121ed8187cffdf8e770d9860")
TABLES = [live("studio", **SECURED), live("clear")]
# Of each caller its route, its role, its Stream ID, its KMREQ and the bytes of its keys.
CALLERS = [
    ("studio", "publisher", publish("studio"), packets.block(packets.KMREQ, ENCODER_KEYS), 16),
    ("studio", "subscriber", "studio", packets.block(packets.KMREQ, PLAYER_KEYS), 24),
    ("clear", "publisher", publish("clear"), b"", None), ("clear", "subscriber", "clear", b"", None),
]
# Of each session on the page: its caller, and the title of the lock in front of it, if there is one.
LOCKS = """[...document.querySelectorAll('.session')].map(it => {
  const lock = it.querySelector('.lock'), box = lock.getBoundingClientRect();
  return [it.querySelector('.who').innerText.split('\\n')[0].trim(), box.width > 0 && box.height > 0 ? lock.title : null];
})"""


def opened(run):
    """Callers with open sessions, each with its route, its role and the bytes of its keys."""
    found = []
    for route, role, stream_id, more, length in CALLERS:
        caller = Caller(run.address, stream_id, more=more)
        caller.call()
        found.append((caller, route, role, length))
    return found


def text_of(caller, route, role, length):
    """The form of the line of an opening."""
    return opened_line(route, role, caller, 120) + (f", encrypted with AES-{8 * length}" if length else "")


@case("encrypted sessions are told from those in clear: in the log, the metrics and the JSON")
def tells_keys():
    with Shown(TABLES, "--no-time") as run:
        run.is_up()
        callers = opened(run)
        for it in callers:
            run.line(text_of(*it), LOOK)
        time.sleep(LOOK)
        seen = snapshot(run.page)
        for caller, route, role, length in callers:
            shown = session_in(seen.state, route, caller).get("key_length_bytes")
            expect(shown == length, f"the JSON has keys of {shown} bytes of the {role} of {route}, and they have {length}")
            labels = frozenset(dict(route=route, role=role, session=f"{caller.peer_id:08x}", peer=peer_of(caller)).items())
            shown = seen.metrics.samples.get("srtgw_session_key_length_bytes", {}).get(labels)
            expect(shown == length, f"the metrics have keys of {shown} bytes of the {role} of {route}, and they have {length}")
        for it in callers:
            it[0].close()
        run.stop()


@case("encrypted sessions in a log of objects")
def tells_keys_in_objects():
    with Objects(TABLES) as run:
        run.is_up()
        callers = opened(run)
        for it in callers:
            run.line(text_of(*it), LOOK)
        told = {it["socket"]: it for it in run.objects() if it["event"] == "opened"}
        for caller, route, role, length in callers:
            one = told[f"0x{caller.peer_id:08x}"]
            expect_same(one)
            expect(one.get("key_length_bytes") == length, f"the {role} of {route} has keys of {length} bytes: {one}")
        for it in callers:
            it[0].close()
        run.stop()


@case("the status page in a browser has a lock at each encrypted session", needs=[CHROMIUM])
def shows_locks():
    for width, height in SIZES:
        with Shown(TABLES, "--no-time") as run, Browser(width, height) as browser:
            run.is_up()
            browser.opens(address_of(run))
            expect_text(browser, ["running"], 10)
            callers = opened(run)
            expect_text(browser, ["studio", "clear"])
            browser.value(OPENS)
            expect_text(browser, [peer_of(it[0]) for it in callers])
            found = {re.sub(r"\s", "", who): title for who, title in browser.value(LOCKS)}
            wanted = {peer_of(it[0]): f"encrypted with AES-{8 * it[3]}" if it[3] else None for it in callers}
            expect(found == wanted, f"locks are {found}, and right are {wanted}")
            expect_fits(browser, width, height)
            for it in callers:
                it[0].close()
            run.stop()

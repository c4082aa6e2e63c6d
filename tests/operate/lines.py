"""The forms of the log's lines about callers, with what these callers know of themselves."""
import re

import packets

NAMES = {1001: "SYSTEM", 1002: "PEER", 1003: "RESOURCE", 1004: "ROGUE", 1005: "BACKLOG", 1006: "IPE", 1007: "CLOSE", 1008: "VERSION", 1009: "RDVCOOKIE",
         1010: "BADSECRET", 1011: "UNSECURE", 1012: "MESSAGEAPI", 1013: "CONGESTION", 1014: "FILTER", 1015: "GROUP"}
# Extension blocks of a conclusion that is refused for them, by the code.
REFUSED_BLOCKS = {1011: packets.block(packets.KMREQ, bytes(32)), 1014: packets.block(packets.FILTER, packets.text_words(b"fec,cols:10")),
                  1015: packets.block(packets.GROUP, bytes(8))}


def peer_of(caller):
    """A caller's address and port."""
    host, port = caller.here
    return f"{host}:{port}"


def opened_line(route, role, caller, latency_ms, standby=False):
    """The form of a session's opening. `latency_ms` is None in buffer mode."""
    latency = "" if latency_ms is None else f", latency {latency_ms} ms"
    return re.escape(f"{route}: {role} {peer_of(caller)} opened{' as standby' if standby else ''}, socket 0x{caller.peer_id:08x}{latency}")


def ended_line(route, role, caller, reason):
    """The form of a session's end, with the form of its reason. Groups: after (ms), packets, bytes, lost, resent. Behind it stands what was
    followed of a publisher's clock, if it was."""
    front = re.escape(f"{route}: {role} {peer_of(caller)} ended, socket 0x{caller.peer_id:08x}, ")
    counts = r"(?P<after>\d+) ms, (?P<packets>\d+) packets, (?P<bytes>\d+) bytes, (?P<lost>\d+) lost, (?P<resent>\d+) resent"
    return front + rf"{reason}, after " + counts + r"(?:, clock drift -?\d+ ppm, correction -?\d+ us)?"


def took_over_line(route, caller):
    return re.escape(f"{route}: publisher {peer_of(caller)} took over, socket 0x{caller.peer_id:08x}")


TROUBLES = {"misdirected": ("subscriber", "sends data, but has not asked to publish (m=publish)"),
            "full_window": ("publisher", "fills its window and waits, buffer is too small"),
            "late": ("publisher", "sends packets that arrive too late")}


def trouble_line(route, trouble, caller):
    """The form of what is wrong with a session, from whatever address its packets come."""
    role, words = TROUBLES[trouble]
    return rf"{re.escape(route)}: {role} \S+ {re.escape(words)}, socket 0x{caller.peer_id:08x}"


def refused_line(code, caller, asked, by=None):
    """The form of a refusal. `asked` is the name that the line shows; None for any. `by`: what stood against the caller, if that is told."""
    name = '(?:, asked for "[^"]*")?' if asked is None else re.escape(f', asked for "{asked}"' if asked else "")
    return re.escape(f"{peer_of(caller)} refused, {code} {NAMES[code]}") + name + (re.escape(f", {by}") if by else "")

"""The numbers of the status page: what the metrics have to say of all that its JSON has."""
from __future__ import annotations

from typing import Any, Iterator

from lines import NAMES
from page import Metrics

CODES = (1002, 1003, 1004, 1008, 1010, 1011, 1012, 1014, 1015)
# What sessions count, by their role: `NAME_total` in the JSON, `srtgw_route_NAME_total` and `srtgw_session_NAME_total` in the metrics.
NAMES_OF = {
    "publisher": ("received_packets", "received_bytes", "delivered_packets", "repeated_packets", "late_packets", "ahead_packets",
                  "reported_lost_packets", "naks_sent", "full_window_acks", "given_up_packets"),
    "subscriber": ("queued_packets", "queued_bytes", "sent_packets", "resent_packets", "naks_taken", "given_up_packets",
                   "misdirected_packets"),
}
# What isn't the same in two scrapes, though nobody sends.
MOVING = ("uptime_seconds", "resident_memory_bytes", "open_seconds", "silent_seconds", "poller_read_datagrams_total",
          "poller_accepted_datagrams_total", "poller_sent_datagrams_total")
Labels = frozenset[tuple[str, str]]
Sample = tuple[str, Labels, float]


def sample(family: str, value: float, **labels: str) -> Sample:
    return family, frozenset(labels.items()), value


def numbers_in(its: dict[str, Any], prefix: str, **labels: str) -> Iterator[Sample]:
    """What the metrics have to say of the numbers of an object: the family, the labels and the value of each."""
    for name, value in its.items():
        if name.startswith("refusals_"):
            code = next(it for it in CODES if name.endswith(f"_{NAMES[it]}"))
            family = f"{prefix}lobby_refusals_total" if prefix == "srtgw_" else f"{prefix}refusals_total"
            yield sample(family, value, code=str(code), reason=NAMES[code], **labels)
        elif name.startswith("process_") or not isinstance(value, (int, float)) or name in MOVING:
            continue  # What the process uses moves, and its metrics have the names that all programs' have.
        elif name.startswith("ends_"):
            yield sample(f"{prefix}ends_total", value, reason=name.removeprefix("ends_"), **labels)
        else:
            yield sample(f"{prefix}{name}", value, **labels)
            if name.startswith("lobby_refused_"):
                yield sample(f"{prefix}lobby_refusal_causes_total", value, cause=name.removeprefix("lobby_refused_").removesuffix("_total"), **labels)


def all_numbers(state: dict[str, Any]) -> Iterator[Sample]:
    """The same of all that the JSON has."""
    yield sample("srtgw_build_info", 1, version=state["version"])
    yield from numbers_in(state, "srtgw_")
    for route in state["routes"]:
        name = route["name"]
        yield from numbers_in(route, "srtgw_route_", route=name)
        for role in NAMES_OF:
            yield sample("srtgw_route_sessions", sum(it["role"] == role for it in route["sessions"]), route=name, role=role)
            yield from numbers_in(route[f"{role}s"], "srtgw_route_", route=name, role=role)
        for it in route["sessions"]:
            yield from numbers_in(it, "srtgw_session_", route=name, role=it["role"], session=it["session"], peer=it["peer"])


def differing(state: dict[str, Any], metrics: Metrics, busy: str = "") -> list[tuple[str, Labels, float | None, float | None]]:
    """The numbers that the JSON and the metrics of one moment have otherwise, without those of the busy route: the family and the labels of
    each, and what either has."""
    said = {(family, labels): value for family, labels, value in all_numbers(state)}
    scraped = {(family, labels): value for family, its in metrics.samples.items() for labels, value in its.items()
               if not family.endswith(MOVING) and not family.startswith("process_")}
    compared = {it for it in said.keys() | scraped.keys() if ("route", busy) not in it[1]}
    return [(*it, said.get(it), scraped.get(it)) for it in sorted(compared, key=str) if said.get(it) != scraped.get(it)]

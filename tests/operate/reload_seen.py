"""What a gateway whose configuration's file changes logs and serves as its status page, compared with a plain model (reload_model.py)."""
from __future__ import annotations

import ctypes
import random
import re
import signal
import time
from collections import Counter
from typing import Any, NamedTuple

import reload_files as files
from expecting import Wrong
from page import Page
from reload_log import ROLES, Journal
from reload_model import Model
from running import SECRET, Run
from status_numbers import differing

SECONDS = 20.0  # Until a line or a number has to be there. One that is there sooner is found sooner.
STEADY = "studio"
LIBC = ctypes.CDLL(None)
PR_SET_PDEATHSIG = 1  # Of Linux.
CONFIG_LINE = r"configuration .*|\S+: closed, (?:it is no longer|to open again) .*|\S+: opened with index .*|\d+ of 511 indexes .*"
REFUSAL_COUNTS = tuple(f"refusals_{it}" for it in ("PEER", "RESOURCE", "ROGUE", "VERSION", "BADSECRET", "UNSECURE", "MESSAGEAPI", "FILTER", "GROUP"))
LOBBY_COUNTS = tuple(f"lobby_refused_{it}_total" for it in ("no_name", "unknown_name", "publish_from", "request_from", "publish_key", "request_key"))
FOR_ALL = ("srtgw_poller_", "srtgw_kernel_")  # Numbers that the steady stream changes, too.
ROUTE_COUNTS = ("opened_sessions_total", "take_overs_total", "refused_sessions_total", "refused_reserved_total", "refused_sessions_per_address_total")


def end_with_parent() -> None:
    """For a process to call before it runs a program: it is killed when the thread that started it ends, in whatever way."""
    LIBC.prctl(PR_SET_PDEATHSIG, signal.SIGKILL)


class Stalled(Exception):
    """The machine was too slow for what is compared: a file was written in place and may have been read before its end, a session may
    have ended by silence, or lines were left out."""


class Plan(NamedTuple):
    """The gateways of a trial: each has a number, by which with the seed all that happens at it is chosen, and makes so many changes."""

    seed: int
    gateways: int
    changes: int
    folder: str | None = None


class Tally(NamedTuple):
    """How often each kind of change and of call occurred, and what became of the states of the file."""

    changes: Counter[str]
    outcomes: Counter[str]
    calls: Counter[str]

    def add(self, other: "Tally") -> None:
        for mine, its in zip(self, other):
            mine.update(its)


def new_tally() -> Tally:
    return Tally(Counter(), Counter(), Counter())


class Compared:
    """A gateway and its model. `done` is the number of the present change, and `what` its kind."""

    run: Run
    page: Page
    model: Model
    journal: Journal
    chance: random.Random

    def __init__(self, plan: Plan, number: int) -> None:
        self.plan, self.number, self.done, self.what = plan, number, 0, "start"
        self.tally, self.next_line, self.taken_lines = new_tally(), 0, 0

    def expect(self, test: bool, text: str) -> None:
        if not test:
            raise Wrong(f"seed {self.plan.seed}, gateway {self.number}, change {self.done} ({self.what}): {text}")

    # The log.

    def config_lines(self) -> list[tuple[int, str]]:
        """The lines about the configuration that weren't compared yet, each with its number."""
        return [(at, text) for at, text in enumerate(self.run.texts(self.next_line), self.next_line) if re.fullmatch(CONFIG_LINE, text)]

    def change_lines(self) -> list[tuple[int, str]]:
        """The lines about the configuration, without those that it is held, which depend on when sessions were looked at last."""
        return [it for it in self.config_lines() if not any(re.fullmatch(form, it[1]) for form in self.model.waits)]

    def expect_lines(self, forms: list[str]) -> None:
        """Expects these lines about the configuration next, in this order, and no others among them."""
        until = time.monotonic() + SECONDS
        found = self.change_lines()
        while len(found) < len(forms) and time.monotonic() < until and self.run.runs():
            time.sleep(0.02)
            found = self.change_lines()
        texts = [text for _, text in found]
        right = len(texts) >= len(forms) and all(re.fullmatch(form, text) for form, text in zip(forms, texts))
        self.expect(right, f"the log has {texts}, and not {forms}")
        if forms:
            self.next_line = found[len(forms) - 1][0] + 1

    def expect_events(self) -> None:
        """Expects that each further line of the log is one that what happened must have."""
        count = len(self.run.lines)
        texts = self.run.texts(self.taken_lines)[:count - self.taken_lines]
        wrong, self.taken_lines = list(self.journal.take(texts)), count
        self.expect(bool(self.journal.slow) or not wrong, f"the log has {'; '.join(wrong)}")

    def raise_if_slow(self, seconds: float = 0.0) -> None:
        """Raises Stalled if the log shows within so many seconds that the machine was too slow."""
        until = time.monotonic() + seconds
        while True:
            self.expect_events()
            if self.journal.slow:
                raise Stalled(self.journal.slow)
            if time.monotonic() >= until:
                return
            time.sleep(0.1)

    def pace(self, most: int) -> None:
        """Waits until the last second has no more lines than so many: the log leaves lines out that are more than 50 in a second."""
        while sum(it.came > time.time() - 1 for it in self.run.lines[-most - 1:]) > most:
            time.sleep(0.02)

    def expect_no_secrets(self) -> None:
        """Expects that no line of the log has the secret or a key of a role."""
        secrets = [SECRET, *files.KEYS]
        found = [it for it in self.run.texts() if any(one in it for one in secrets)]
        self.expect(not found, f"the log has a secret: {found[:2]}")

    # The status page.

    def wanted_counts(self) -> dict[str, int]:
        model = self.model
        return {"configured_routes": len(model.routes), "config_changes_taken_total": model.taken, "config_changes_refused_total": model.refused,
                "used_indexes": model.used}

    def names_of(self, state: dict[str, Any]) -> list[tuple[str, str, int]]:
        return [(it["name"], it["mode"], it["allowed_sessions"]) for it in state["routes"]]

    def expect_page(self, is_silent: bool) -> None:
        """Expects the routes in force, in their order, as soon as the page counts the change; where none is counted, within SECONDS."""
        wanted, names = self.wanted_counts(), [(it.name, it.keys["mode"], it.keys["sessions"]) for it in self.model.routes]
        until = time.monotonic() + SECONDS
        while True:
            state = self.page.state()
            found = {it: state[it] for it in wanted}
            is_late = time.monotonic() >= until
            if is_late or found == wanted and not (is_silent and self.names_of(state) != names):
                break
            time.sleep(0.05)
        self.expect(found == wanted, f"the page counts {found}, and not {wanted}")
        self.expect(self.names_of(state) == names, f"the page has the routes {self.names_of(state)}, and not {names}")
        metrics = self.page.metrics()
        shown = [(labels["route"], int(value)) for labels, value in metrics.found("srtgw_route_allowed_sessions")]
        self.expect(shown == [(name, sessions) for name, _, sessions in names], f"the metrics have the routes {shown}, and not {names}")

    def wrong_numbers(self) -> list[str]:
        """What the page counts in another way than the model."""
        state = self.page.state()
        wrong = self.model.counts.wrong_of(state, (*REFUSAL_COUNTS, *LOBBY_COUNTS))
        for route, shown in zip(self.model.routes, state["routes"]):
            found = route.counts.wrong_of(shown, (*ROUTE_COUNTS, *REFUSAL_COUNTS))
            sessions = {(it["role"], it["peer"], it["session"]) for it in shown["sessions"]}
            open_now = self.journal.open_at(route.index)
            if sessions != open_now or Counter(role for role, _, _ in sessions) != Counter(ROLES[role] for role, _ in route.held):
                found.append(f"{sorted(sessions)} are open, and not {sorted(open_now)}, {route.held}")
            if route.name != STEADY and shown["publishers"]["received_packets_total"] != route.received:
                found.append(f"{shown['publishers']['received_packets_total']} packets were received, and not {route.received}")
            wrong += [f"{route.name}: {it}" for it in found]
        others = [it for it in differing(state, self.page.metrics(), STEADY) if not it[0].startswith(FOR_ALL)]
        return wrong or [f"{it} differ in JSON and metrics" for it in others[:3]]

    def expect_numbers(self) -> None:
        """Expects each route's numbers under its own name; the page's content is half a second old at most."""
        until = time.monotonic() + SECONDS
        wrong = self.wrong_numbers()
        while wrong and time.monotonic() < until:
            time.sleep(0.1)
            wrong = self.wrong_numbers()
        self.expect(not wrong, f"the page counts: {'; '.join(wrong)}")

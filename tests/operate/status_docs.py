"""What docs/operating/metrics.md says of the status page for machines, by Prometheus' own tool and beside the program; the alerts
and the dashboard of operate/."""
from __future__ import annotations

import json
import os
import re
import shutil
import socket
import subprocess
import tempfile
import textwrap
import time
import urllib.parse
import urllib.request
from typing import Any

from cases import case
from documents import OPERATE, PAGES, block_of, names_in_tables
from expecting import expect
from machine import free_port
from page import Page
from running import Shown, live
from tree import read

PROMTOOL = "promtool"
PROMETHEUS = "prometheus"
RULES = "srtgw.rules.yml"
ALERTS = f"{os.path.dirname(os.path.realpath(__file__))}/alerts.yml"
PREFIXES = re.compile("srtgw_(?:session_|(?=route_)|)")


def expect_taken(room: str, *words: str) -> None:
    """Expects that promtool takes the files of a folder."""
    it = subprocess.run([PROMTOOL, *words], cwd=room, capture_output=True, text=True)
    expect(it.returncode == 0, f"promtool {' '.join(words)}: {it.stdout[-800:]}{it.stderr[-300:]}")


@case("the status page's configuration of Prometheus and its alerts, as metrics.md and operate/ have them", needs=[PROMTOOL])
def prometheus_takes_them():
    scrapes, fewer = block_of("scrape_configs:"), block_of("    metric_relabel_configs:")
    with tempfile.TemporaryDirectory(prefix="srtgw-rules-") as room:
        texts = {RULES: read(f"{OPERATE}/{RULES}"), "prometheus.yml": scrapes,
                 "fewer.yml": scrapes.replace("rule_files:", textwrap.indent(fewer, "    ") + "rule_files:")}
        for name, text in texts.items():
            with open(f"{room}/{name}", "w", encoding="utf-8") as file:
                file.write(text)
        shutil.copy(ALERTS, room)
        expect(RULES in scrapes and texts["fewer.yml"] != scrapes, "the blocks of the document don't fit")
        expect_taken(room, "check", "rules", RULES)
        for name in ("prometheus.yml", "fewer.yml"):
            expect_taken(room, "check", "config", name)
        expect_taken(room, "test", "rules", os.path.basename(ALERTS))


class Server:
    """A Prometheus with the document's configuration, but for the address that it scrapes and how often."""

    def __init__(self, page: Page) -> None:
        self.room, port = tempfile.mkdtemp(prefix="srtgw-prometheus-"), free_port(socket.SOCK_STREAM)
        self.address = f"http://127.0.0.1:{port}/api/v1"
        target = "{}:{}".format(*page.address)
        text = block_of("scrape_configs:").replace("127.0.0.1:9001", target).replace("scrape_interval: 5s", "scrape_interval: 1s")
        expect(target in text and "1s" in text, "the document's configuration has another address or interval")
        for name, its in ((RULES, read(f"{OPERATE}/{RULES}")), ("prometheus.yml", text)):
            with open(f"{self.room}/{name}", "w", encoding="utf-8") as file:
                file.write(its)
        words = [PROMETHEUS, "--config.file=prometheus.yml", "--storage.tsdb.path=data", f"--web.listen-address=127.0.0.1:{port}"]
        nothing = dict(stdin=subprocess.DEVNULL, stdout=subprocess.DEVNULL, stderr=subprocess.DEVNULL)
        self.process = subprocess.Popen(words, cwd=self.room, **nothing)

    def __enter__(self) -> Server:
        return self

    def __exit__(self, *why: object) -> None:
        self.process.terminate()
        self.process.wait(20)
        shutil.rmtree(self.room, ignore_errors=True)

    def answer(self, path: str) -> Any:
        """The data of an answer; None while there is none."""
        try:
            with urllib.request.urlopen(f"{self.address}/{path}", timeout=2) as answer:
                return json.load(answer)["data"]
        except OSError:
            return None

    def value(self, expression: str) -> float | None:
        """The value of an expression; None while it has none."""
        data = self.answer(f"query?{urllib.parse.urlencode({'query': expression})}")
        return float(data["result"][0]["value"][1]) if data and data["result"] else None

    def becomes(self, expression: str, wanted: float, seconds: float) -> bool:
        """Waits until an expression has this value, for at most so many seconds. Returns whether it has."""
        until = time.monotonic() + seconds
        while self.value(expression) != wanted and time.monotonic() < until:
            time.sleep(0.2)
        return self.value(expression) == wanted


@case("the status page is scraped by Prometheus, as metrics.md configures it", needs=[PROMETHEUS])
def prometheus_scrapes():
    with Shown([live("studio"), live("evening")], "--no-time") as run:
        run.is_up()
        with Server(run.page) as server:
            expect(server.becomes("srtgw_up", 1, 20), "it isn't scraped, or the metrics say that it is down")
            expect(server.value('up{job="srtgw"}') == 1, "Prometheus says that the target is down")
            found = server.value("count(srtgw_route_sessions)")
            expect(found == 4, f"two roles of two routes are {found} series")
            loaded = server.answer("rules")
            expect(loaded and len(loaded["groups"][0]["rules"]) == 9, f"the rules that it has are {loaded}")
            for expression in expressions_of_dashboard():
                whole = re.sub(r"\$(?:instance|route)\b", ".*", expression)
                expect(server.answer(f"query?{urllib.parse.urlencode({'query': whole})}") is not None, f"Prometheus doesn't take {whole!r}")
            run.stop()
            expect(server.becomes('up{job="srtgw"}', 0, 10), "Prometheus doesn't see that it is gone")


def used_by_alerts() -> set[str]:
    return set(re.findall(r"srtgw_\w+", read(f"{OPERATE}/{RULES}")))


def dashboard() -> Any:
    return json.loads(read(f"{OPERATE}/srtgw-dashboard.json"))


def expressions_of_dashboard() -> list[str]:
    return [target["expr"] for panel in dashboard()["panels"] for target in panel["targets"]]


def used_by_dashboard() -> set[str]:
    """The metrics of the dashboard's panels and variables. Raises Wrong if a panel has none."""
    expressions = expressions_of_dashboard()
    expect(all("srtgw_" in it for it in expressions), "a panel of the dashboard shows no metric")
    queries = [str(it.get("definition", "")) for it in dashboard()["templating"]["list"]]
    return set(re.findall(r"srtgw_\w+", " ".join(expressions + queries)))


def short(family: str) -> str:
    """A family's name as the tables have it: those of sessions and of the gateway without what they all begin with."""
    return PREFIXES.sub("", family, count=1)


@case("the status page's numbers are those that metrics.md explains, and alerts and dashboard use")
def numbers_are_explained():
    with Shown([live("studio")], "--no-time") as run:
        run.is_up()
        kinds = run.page.metrics().kinds
        run.stop()
    text = read(f"{PAGES}/metrics.md")
    explained = names_in_tables(text)
    counts = {it for it in map(short, kinds) if f"route_{it}" in map(short, kinds)}  # They stand for routes and for sessions.
    shown = {it for it in map(short, kinds) if it.removeprefix("route_") not in counts} | counts
    expect(shown == explained, f"not explained are {sorted(shown - explained)}, and not shown {sorted(explained - shown)}")
    for used in (used_by_alerts(), used_by_dashboard()):
        expect(used and used <= set(kinds), f"not shown, and used by alerts or the dashboard: {sorted(used - set(kinds))}")
    alerts = re.findall(r"- alert: (\w+)", read(f"{OPERATE}/{RULES}"))
    rows = re.findall(r"(?m)^\| `([A-Z]\w+)` \|", text)
    expect(alerts == rows, f"the alerts are {alerts}, and metrics.md has rows of {rows}")

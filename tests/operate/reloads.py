"""Random states of the configuration's file against a gateway that runs, compared with a plain model (reload_model.py). After each state
the log's lines, the status page and callers from inside and outside of the lists have to be as the model computes them, and a stream on a
route that is the same in every file has to be whole. tests/operate/random_reloads plays more of them."""
from __future__ import annotations

import copy
import hashlib
import os
import random
import socket
import time
from concurrent.futures import ThreadPoolExecutor
from typing import Callable

import reload_files as files
from cases import case
from changing import SETTLING, OnAir
from expecting import Wrong, expect
from machine import free_port
from page import Page
from reload_log import ROLES, Journal
from reload_model import Call, Model
from reload_probes import Probed
from reload_seen import SECONDS, STEADY, Plan, Stalled, Tally, end_with_parent, new_tally
from rules.configuration import Fault
from running import SECRET, Run, expect_polite
from tree import PROGRAM

LINES = 25  # Lines of a second to which those of a change can be added.
FAULTS_AT = (2, 6)  # The changes of each gateway that are faults in any case.
PORTS = 5  # Pairs of ports that a gateway tries.


def make_folder(path: str) -> None:
    os.unlink(path)
    os.mkdir(path)


def make_pipe(path: str) -> None:
    os.mkfifo(f"{path}.new")
    os.replace(f"{path}.new", path)


def make_loop(path: str) -> None:
    os.symlink(path, f"{path}.new")
    os.replace(f"{path}.new", path)


# What may stand in the file's place, how it is made, and the form of the reason why it can't be read.
UNREADABLE: dict[str, tuple[Callable[[str], None], str]] = {
    "missing": (os.unlink, r"No such file or directory \(os error 2\)"), "a folder": (make_folder, r"Is a directory \(os error 21\)"),
    "a pipe": (make_pipe, "it is a pipe or a device"), "a link to itself": (make_loop, r"Too many levels of symbolic links \(os error 40\)"),
}


class Trial(Probed):
    """A gateway whose configuration's file has one random state after the other. `gone` are routes that it had and has no longer."""

    def __init__(self, plan: Plan, number: int) -> None:
        super().__init__(plan, number)
        self.gone: list[files.Table] = []
        self.faults = 2 * number
        self.prepare()

    def prepare(self) -> None:
        """Chooses ports, and the first configuration."""
        self.chance = random.Random(f"{self.plan.seed} {self.number}")
        self.port, self.page = free_port(), Page(("127.0.0.1", free_port(socket.SOCK_STREAM)))
        self.top = {"secret": SECRET, "bind": f"127.0.0.1:{self.port}", "workers": 2, "status": "{}:{}".format(*self.page.address)}
        self.content = files.text_of(self.chance, self.top, self.first_routes()).encode()
        self.model = Model(self.content)
        self.journal = Journal(self.model.names)

    def started(self) -> Run:
        """A gateway that is up. Others may take its ports before it does."""
        for _ in range(PORTS):
            run = Run((), "--no-time", text=self.content.decode(), port=self.port, limit=end_with_parent)
            run.line("serving at .*|.*Address already in use.*", SECONDS)
            if run.find("serving at .*"):
                return run
            run.kill()
            self.prepare()
        raise Wrong("no port is free")

    def first_routes(self) -> list[files.Table]:
        steady = {"name": STEADY, "mode": "live", "latency_ms": 2000, "buffer": 512, "sessions": 5, "inbox": 256, "outbox": 334}
        names = self.chance.sample(files.NAMES, self.chance.randint(1, 4))
        routes = [steady, *(files.any_route(self.chance, it) for it in names)]
        self.chance.shuffle(routes)
        return routes

    # The file.

    def is_allowed(self, content: bytes) -> bool:
        """Whether, where the file has this content, the model has the steady route as it was, and another one."""
        probe = copy.deepcopy(self.model)
        probe.read(content)
        steady, before = probe.route(STEADY), self.model.route(STEADY)
        return bool(steady and before and steady.index == before.index) and 2 <= len(probe.routes) <= files.MOST_ROUTES

    def write(self, content: bytes, in_place: bool) -> None:
        """Writes the file: in its place, or by renaming another one."""
        self.pace(LINES)
        if os.path.isdir(self.run.file):
            os.rmdir(self.run.file)
        elif os.path.lexists(self.run.file) and not os.path.isfile(self.run.file):
            os.unlink(self.run.file)
        if in_place and os.path.lexists(self.run.file):
            self.overwrite(content)
        else:
            with open(f"{self.run.file}.new", "wb") as it:
                it.write(content)
            os.replace(f"{self.run.file}.new", self.run.file)
        self.keep(content)

    def overwrite(self, content: bytes) -> None:
        """Writes the file in its place, in so short a time that it isn't read meanwhile."""
        file = os.open(self.run.file, os.O_WRONLY)
        try:
            began = time.monotonic()
            os.pwrite(file, content, 0)
            os.ftruncate(file, len(content))
            if time.monotonic() - began > SETTLING:
                raise Stalled("the file was written slowly")
        finally:
            os.close(file)

    def keep(self, content: bytes) -> None:
        if self.plan.folder:
            os.makedirs(self.plan.folder, exist_ok=True)
            with open(f"{self.plan.folder}/{self.plan.seed}_{self.number}_{self.done:04}.toml", "wb") as it:
                it.write(content)

    def compare(self, forms: list[str]) -> None:
        """Compares the gateway with the model, after a state of the file for which the log has these lines."""
        self.expect_lines(forms)
        self.expect_page(not forms)
        self.expect_stays()
        self.call_all()
        self.expect_stays()
        self.expect_numbers()
        self.raise_if_slow()

    def put(self, content: bytes) -> None:
        """Writes this content, and compares."""
        before = self.model.tables
        self.write(content, self.chance.random() < 0.3)
        forms = self.model.read(content)
        names = {it["name"] for it in self.model.tables}
        self.gone = [*(it for it in before if it["name"] not in names), *self.gone][:5]
        self.compare(forms)

    def some(self, make: Callable[[], bytes], is_right: Callable[[bytes], bool] = lambda content: True) -> bytes:
        """The first of many contents that is allowed and right."""
        for _ in range(200):
            content = make()
            if self.is_allowed(content) and is_right(content):
                return content
        raise Wrong("no state of the file is allowed")

    def lines_for(self, content: bytes) -> list[str]:
        return copy.deepcopy(self.model).read(content)

    def changed(self) -> list[files.Table]:
        return files.changed(self.chance, self.model.tables, self.gone, STEADY)

    # Changes.

    def change(self) -> None:
        self.put(self.some(lambda: files.text_of(self.chance, self.top, self.changed()).encode(), lambda it: bool(self.lines_for(it))))

    def other_words(self) -> None:
        self.put(self.some(lambda: files.text_of(self.chance, self.top, files.reordered(self.chance, self.model.tables)).encode()))

    def other_fixed(self) -> None:
        port = free_port()
        self.put(self.some(lambda: files.text_of(self.chance, files.other_fixed(self.chance, self.top, port), self.changed()).encode()))

    def next_fault(self) -> bytes:
        """An invalid file: the kinds of faults follow each other, at other gateways from another one on."""
        kind, self.faults = self.faults, self.faults + 1
        return self.some(lambda: files.faulty(self.chance, self.top, self.changed(), kind), lambda it: "not taken" in "".join(self.lines_for(it)))

    def fault(self) -> None:
        self.put(self.next_fault())

    def no_toml(self) -> None:
        self.put(self.some(lambda: files.broken(self.chance, files.text_of(self.chance, self.top, self.changed())), lambda it: bool(self.lines_for(it))))

    def half(self) -> None:
        """A file of which the first half is read, as a file that is written slowly, and then the rest."""
        whole = self.some(lambda: files.text_of(self.chance, self.top, self.changed()).encode())
        first = self.some(lambda: whole[:self.chance.randrange(len(whole))], lambda it: bool(self.lines_for(it)))
        self.write(first, True)
        forms = self.model.read(first)
        self.expect_lines(forms)
        self.expect_page(not forms)
        self.expect_stays()
        with open(self.run.file, "ab", buffering=0) as it:
            it.write(whole[len(first):])
        self.keep(whole)
        self.compare(self.model.read(whole))

    def unread(self) -> None:
        """A file that is missing, something else or too large, and then another one."""
        if self.model.is_unread:
            return self.change()
        kind = self.chance.choice((*UNREADABLE, "too large"))
        self.tally.outcomes[f"unread, {kind}"] += 1
        if kind == "too large":
            return self.put(files.text_of(self.chance, self.top, self.changed()).encode() + b"#" * 65_536)
        makes, why = UNREADABLE[kind]
        makes(self.run.file)
        self.compare(self.model.unread(why))

    def again(self) -> None:
        """An invalid file, the one in force in other words, and the invalid one again, which is reported again."""
        invalid = self.next_fault()
        self.put(invalid)
        self.other_words()
        self.put(invalid)

    def step(self) -> None:
        kinds = {self.change: 9, self.other_words: 2, self.other_fixed: 2, self.fault: 3, self.no_toml: 2, self.half: 2, self.unread: 1, self.again: 1}
        kind = self.fault if self.done in FAULTS_AT else self.chance.choices(list(kinds), list(kinds.values()))[0]
        self.what = kind.__name__
        self.tally.changes[self.what] += 1
        kind()

    # The whole.

    def play(self) -> Tally:
        """Plays all changes. Raises Wrong at the first difference."""
        with self.started() as self.run:
            self.keep(self.content)
            air = OnAir(self.run, STEADY, 20_000)
            steady = self.model.route(STEADY)
            assert steady
            steady.held += [("request", "127.0.0.1"), ("publish", "127.0.0.1")]
            steady.counts.add("opened_sessions_total", 2, 2)
            for one, role in zip(air.callers(), ("request", "publish")):
                self.journal.open(one, Call(STEADY, role, "127.0.0.1", None, "live"), steady.keys).sent = None
            try:
                self.play_all(air)
            except Stalled as why:
                self.tally.changes["stalled"] += 1
                self.tally.outcomes[f"stalled, {why}"] += 1
            finally:
                air.over.set()
                for it in (*air.callers(), *(it.caller for it in self.stays)):
                    it.stops.set()
        self.tally.outcomes.update(self.model.outcomes)
        return self.tally

    def play_all(self, air: OnAir) -> None:
        self.compare([])
        while self.done < self.plan.changes:
            self.done += 1
            self.step()
        self.what = "end"
        self.finish(air)

    def finish(self, air: OnAir) -> None:
        """Ends all callers and the gateway, and expects that the steady stream was whole."""
        for it in self.stays:
            self.close(it.caller)
        for it in air.callers():
            self.journal.end(it)
        try:
            air.end()
        except Wrong as why:
            self.expect(False, f"the stream of {STEADY}: {why}")
        expect_polite(self.run.stop(), self.model.names)
        self.expect(not self.config_lines(), f"the log has more: {self.config_lines()}")
        self.expect_events()
        missing = list(self.journal.missing())
        self.expect(bool(self.journal.slow) or not missing, "; ".join(missing))
        self.expect_no_secrets()


def played(plan: Plan) -> Tally:
    """Plays the gateways of a plan side by side. Raises Wrong with what is wrong at each."""
    tally, wrong = new_tally(), []
    with ThreadPoolExecutor(plan.gateways) as pool:
        for it in [pool.submit(Trial(plan, number).play) for number in range(plan.gateways)]:
            try:
                tally.add(it.result())
            except Exception as error:
                wrong.append(f"{type(error).__name__}: {error}")
    expect(not wrong, "\n".join(wrong))
    return tally


# The gate's.

GATEWAYS, CHANGES = 6, 9
# What has to occur in the changes of a fixed seed.
OUTCOMES = ("taken", "the same", "unread", "refused FIXED_KEYS", "routes stay", "routes open", "routes close", "routes change",
            *(f"refused {it.name}" for it in Fault))
CALLS = ("0", "1002", "1003", "1012", "1002 unknown name", *(f"1002 not in {it}_from" for it in ROLES), *(f"1002 {it}_key missing or wrong" for it in ROLES))
TRIALS = ("take-over", "no take-over", "drained", "not drained", "resends with a limit", "resends without a limit")  # Half of these at least.


@case("random states of the configuration's file, from a fixed seed, as a plain model has them")
def fixed_seed():
    tally = played(Plan(13, GATEWAYS, CHANGES))
    missing = [it for it in OUTCOMES if not tally.outcomes[it]] + [it for it in CALLS if not tally.calls[it]]
    missing += [it for it in TRIALS if not tally.calls[it] and 2 * sum(tally.calls[one] > 0 for one in TRIALS) < len(TRIALS)]
    expect(not missing or tally.changes["stalled"], f"what never occurred: {missing}; {tally}")


@case("random states of the configuration's file, from another seed for each program, as a plain model has them")
def seed_of_program():
    """The gate's copies have no commit; the program is another one wherever the sources are."""
    with open(PROGRAM, "rb") as it:
        seed = int.from_bytes(hashlib.sha256(it.read()).digest()[:4], "big")
    try:
        played(Plan(seed, GATEWAYS, CHANGES))
    except Wrong as why:
        raise Wrong(f"{why}\ntests/operate/random_reloads --seed {seed} --gateways {GATEWAYS} --changes {GATEWAYS * CHANGES} plays it again") from None

"""The gate. It judges a copy of the tree, and runs its steps beside one another: the proofs, what plays against the program as soon as
that is there, the tests that are only run, the refusals of memory; and, once all is proved, the edits."""
from __future__ import annotations

import os
import re
import shutil
import sys
import threading
import time
from concurrent.futures import ThreadPoolExecutor

import building
import cutting
import minutes
import releases
import snapshot
import steps
import test_proofs
import verdicts
from machine import Meter, free_gigabytes
from parts import LEFT_OUT, OF_FILES, Count, all_of, note_failed
from steps import Ended, Step
from tree import TOP, Crate, crates
from verdicts import Checksums, Verdict

# What plays against the program, in two lanes: most of the time in the last of each, the callers' and the operator's cases, is waiting.
PLAYS = (("explain", "cases", "examples", "package", "callers"), ("model", "hostile", "operate"))
# These play against the clock. A case of theirs that fails can be played alone, since they take names of cases.
BY_CASE = ("callers", "operate")
OF_CASES = r"\w+: (\d+) passed, (\d+) failed, \d+ skipped"
# Time in minutes. No edit begins later than the first of these (the second with few processors), counted from the beginning of the
# edits. With many processors the gate is to be a matter of 75 minutes, also where all is new: so the edits get what is left of the
# third, counted from the gate's beginning, but never less than the fourth. With few it has three hours, and no edit begins after the
# fifth. What is left out is said to be, and stays unknown, so that the next gate tries it.
EDITS_WITHIN, EDITS_WITHIN_FEW = 40, 75
BEGIN_WITHIN_MANY, EDITS_AT_LEAST = 64, 10
BEGIN_WITHIN = 150
# Each step has to end within so many minutes of the gate's beginning, or, where everything is done anew, of the second. One that
# doesn't is ended, and has failed: so the gate says what hung.
ALL_WITHIN, ALL_WITHIN_ANEW = 170, 600
# The processor minutes for proofs of tests whose crate has new content, with many processors and with few. All tests are run; what
# isn't proved of them for want of time is named, isn't counted, and stays unknown.
TESTS_WITHIN, TESTS_WITHIN_FEW = 40, 10
# With fewer processors than this the chain of the proofs leaves none idle.
MANY = 4
# The most memory that a prover takes, for a library and for the tests of the largest crates, and what plays beside it, in gigabytes.
PROVER_GB, TESTS_GB, PLAYS_GB = 4, 6, 3
WITH_LARGE_TESTS = {"srt_serve", "srt_poller", "srt_route"}
BUILT = re.compile(r"rt: (\w+) (?:proved$|is kept: )")
# What `rt ci` says at its end of tests that are proved and failed when it ran them.
TESTS_FAILED = re.compile(r"rt: FAILED:((?: \w+ \(tests\))+)$")


def processors() -> int:
    return len(os.sched_getaffinity(0))


def lanes(gigabytes: int) -> list[str]:
    """Words before those of `rt ci` that make it prove as many crates at once as there are processors, and as memory holds provers of
    so many gigabytes. By itself it reckons with more memory than they take: with 24 GB it left two of four processors idle."""
    number = min(processors(), int((free_gigabytes() - PLAYS_GB) / gigabytes))
    return ["env", f"RT_JOBS={number}"] if number > 1 else []


def edits_within(gone: float) -> float:
    """The minutes for edits if so many of the gate are gone."""
    if processors() < MANY:
        return max(0.0, min(EDITS_WITHIN_FEW, BEGIN_WITHIN - gone))
    return max(0.0, min(EDITS_WITHIN, max(EDITS_AT_LEAST, BEGIN_WITHIN_MANY - gone), BEGIN_WITHIN - gone))


class TreeChanged(Exception):
    """A file changed while the tree was copied."""


class Gate:
    """One run of the gate. `anew` says that it takes nothing as known."""

    def __init__(self, anew: bool) -> None:
        self.anew, self.began, self.commit = anew, time.monotonic(), verdicts.commit()
        content = snapshot.content()
        self.checksums: dict[str, Checksums] = {it.name: verdicts.checksums_of(it) for it in crates().values()}
        self.known = verdicts.known()
        self.room = snapshot.take()
        self.content = snapshot.content(self.room.whole)
        if self.content != content:
            shutil.rmtree(self.room.folder)
            raise TreeChanged("a file changed meanwhile, so run it again")
        self.tested = [it for it in crates().values() if cutting.has_tests(it.folder)]
        self.only_run: list[Crate] = []
        self.left_out: list[str] = []
        self.programs = {it.name for it in crates().values() if building.is_program(it)}
        self.ended: list[Ended] = []
        self.program_is_there, self.proofs_ended, self.is_proved = threading.Event(), threading.Event(), False
        self.failed_tests: list[str] = []

    # Steps.

    def do(self, step: Step, is_live: bool = False) -> Ended:
        """Runs a step of the gate."""
        ended = steps.run(step, self.on_line if is_live else None, self.seconds_left())
        self.ended.append(ended)
        return ended

    def on_line(self, line: str) -> None:
        """Takes a program as soon as a line of `rt ci` says that it is proved and built."""
        found = BUILT.match(line)
        if found and found[1] in self.programs and os.path.isfile(f"{self.room.bare}/crates/{found[1]}/out/{found[1]}"):
            snapshot.take_program(self.room, found[1])
            self.programs.discard(found[1])
            if not self.programs:
                self.program_is_there.set()

    def part(self, name: str) -> Step:
        """A part of bin/test, played in the copy."""
        gives_way = steps.CLOCK_AT if name in BY_CASE else steps.PLAYS_AT
        return Step(name, [f"{self.room.whole}/bin/test", "--only", name], folder=self.room.whole, gives_way=gives_way)

    def look_at_files(self) -> None:
        """What reads files alone, in the tree itself, whose files git knows."""
        with ThreadPoolExecutor(processors()) as pool:
            list(pool.map(self.do, [Step(it, [f"{TOP}/bin/test", "--only", it]) for it in OF_FILES]))

    def leave_out_tests(self) -> None:
        """Cuts the tests that aren't proved in this run off the copy for `rt ci`: those that were proved before at this content, and those
        for which the time doesn't suffice. Says which are which."""
        known = [it for it in self.tested if not self.anew and Verdict(it.name, verdicts.TESTS, self.checksums[it.name].tests) in self.known]
        new = [it for it in self.tested if it not in known]
        minutes_of_tests = TESTS_WITHIN if processors() >= MANY else TESTS_WITHIN_FEW
        late = [] if self.anew else test_proofs.within(new, minutes_of_tests).left_out
        late = [it for it in late if self.is_cut(it)]
        known = [it for it in known if self.is_cut(it)]
        self.only_run = [it for it in self.tested if it in known or it in late]
        self.left_out = [f"tests of {it.name}: run, and not proved at this content" for it in late]
        proved = [it.name for it in self.tested if it not in self.only_run]
        steps.say(f"Tests that are proved in this run: {', '.join(proved) or 'none'}")
        if known:
            names = ", ".join(it.name for it in known)
            steps.say(f"Tests that are run and not proved, since they were proved before at this content: {names}")
        if late:
            names = ", ".join(it.name for it in late)
            steps.say(f"Tests that are run and not proved, since their proofs take more than {minutes_of_tests} processor minutes: {names}")

    def is_cut(self, crate: Crate) -> bool:
        """Cuts a crate's tests off the copy for `rt ci`, or says why they have to stay there, and be proved."""
        why = cutting.cut_or_leave(f"{self.room.bare}/crates/{crate.name}")
        if why:
            steps.say(f"tests of {crate.name}: proved in this run, since {why}")
        return not why

    def prove(self) -> None:
        """Runs `rt ci`: it proves all crates from nothing, and the tests that are left there, runs these and the programs, and tries the
        edits of must-fail/."""
        tested = {it.name for it in self.tested if it not in self.only_run}
        gigabytes = TESTS_GB if tested & WITH_LARGE_TESTS else PROVER_GB
        words = [*lanes(gigabytes), "rt", "ci", *(["--anew"] if self.anew else [])]
        ended = self.do(Step("proofs", words, folder=self.room.bare, gives_way=steps.PROOFS_AT), is_live=True)
        self.failed_tests = tests_that_failed(ended)
        self.is_proved = ended.count.failed == len(self.failed_tests)
        self.proofs_ended.set()
        if self.programs:
            steps.say(f"Nothing is played, since a program isn't there: {', '.join(sorted(self.programs))}")
        self.program_is_there.set()

    def play(self, names: tuple[str, ...]) -> None:
        """Plays these parts, one after the other, once the program is there."""
        self.program_is_there.wait()
        for name in names:
            if not self.programs:
                self.do(self.part(name))

    def tests_of(self, crate: str) -> Step:
        """The run of a crate's tests, without a proof."""
        return Step(f"tests of {crate}", ["rt", "try", "--test"], "", f"{self.room.whole}/crates/{crate}", steps.LAST_AT)

    def do_the_rest(self) -> None:
        """Runs the tests that aren't proved, and refuses memory. With few processors both wait for the proofs."""
        if processors() < MANY:
            self.proofs_ended.wait()
        with ThreadPoolExecutor(max(1, processors() // 2)) as pool:
            list(pool.map(self.do, [self.tests_of(it.name) for it in reversed(self.only_run)]))
        words = [] if self.anew else ["--gate", self.commit]
        step = Step("refusals", [f"{self.room.whole}/tests/refusals/run", *words], r"refusals: (\d+) passed, (\d+) failed", self.room.whole)
        self.do(step._replace(gives_way=steps.LAST_AT))

    def try_edits(self) -> None:
        """Compiles the programs outside of crates over the libraries that `rt ci` built, and tries the edits of tests/edits."""
        snapshot.take_libraries(self.room)
        words = [f"{self.room.whole}/tests/programs/run", "--built"]
        self.do(Step("programs", words, r"programs: (\d+) passed, (\d+) failed", self.room.whole, steps.PROOFS_AT))
        within = [] if self.anew else ["--minutes", f"{edits_within(self.minutes()):.1f}"]
        words = [f"{self.room.whole}/tests/edits/run", "--gate", self.commit, *within, *(["--controls"] if self.anew else [])]
        step = Step("wrong bodies", words, r"wrong bodies: (\d+) refused, (\d+) wrong", self.room.whole, steps.PROOFS_AT)
        steps.say(f"\n== wrong bodies, {self.minutes():.0f} minutes after the beginning")
        self.do(step, is_live=True)

    def do_again_alone(self) -> None:
        """Does once more, with nothing beside it, what failed and may have failed for what ran beside it. Only that counts."""
        beside = [it for lane in PLAYS for it in lane] + [f"tests of {it.name}" for it in self.only_run]
        for first in [it for it in self.ended if it.count.failed and it.step.name in beside]:
            if self.seconds_left() <= 0:
                steps.say(f"\n{first.step.name}: not done once more alone, since the time of the gate is over")
                continue
            names = steps.named_cases(first) if first.step.name in BY_CASE else []
            steps.say(f"\n{first.step.name}: {first.count.failed} failed beside other work; once more alone: {', '.join(names) or 'all of it'}")
            step = first.step
            if names:
                step = step._replace(words=[f"{self.room.whole}/tests/{step.name}/run", *names], last_line=OF_CASES)
            again = steps.run(step, seconds=self.seconds_left())
            self.ended[self.ended.index(first)] = merged(first, again, bool(names))
        if self.is_proved and self.failed_tests and self.seconds_left() > 0:
            self.run_failed_tests()

    def run_failed_tests(self) -> None:
        """Runs the tests alone that are proved and failed when `rt ci` ran them beside other work. Only that counts."""
        steps.say(f"\nTests that failed beside other work, once more alone: {', '.join(self.failed_tests)}")
        again = [steps.run(self.tests_of(it), seconds=self.seconds_left()) for it in self.failed_tests]
        first = next(it for it in self.ended if it.step.name == "proofs")
        amended = first._replace(count=first.count._replace(failed=0), failures=[])
        self.ended[self.ended.index(first)] = amended
        self.ended += again

    # The whole.

    def minutes(self) -> float:
        return (time.monotonic() - self.began) / 60

    def seconds_left(self) -> float:
        """The seconds in which each step has to end."""
        return 60 * ((ALL_WITHIN_ANEW if self.anew else ALL_WITHIN) - self.minutes())

    def do_all(self) -> None:
        """Does all steps."""
        self.look_at_files()
        self.leave_out_tests()
        with ThreadPoolExecutor(len(PLAYS) + 1) as pool:
            beside = [*(pool.submit(self.play, it) for it in PLAYS), pool.submit(self.do_the_rest)]
            try:
                self.prove()
                if self.is_proved:
                    self.try_edits()
                else:
                    steps.say("The edits of tests/edits aren't tried, since not all is proved")
            finally:
                self.proofs_ended.set()
                self.program_is_there.set()
            for it in beside:
                it.result()
        self.do_again_alone()

    def learn(self) -> None:
        """Keeps the verdicts that this run learned: those of the proved tests, and those that its steps wrote in the copy."""
        proved = [it.name for it in self.tested if it not in self.only_run] if self.is_proved else []
        learned = [Verdict(it, verdicts.TESTS, self.checksums[it].tests) for it in proved]
        written = verdicts.kept_in(f"{self.room.whole}/tests/verdicts")
        verdicts.learn([*learned, *(it for it in written if it not in self.known)])

    def leave_program(self) -> None:
        """Leaves the program in the tree, if that is still the same."""
        built = f"{self.room.whole}/crates/{building.PROGRAM}/out/{building.PROGRAM}"
        if os.path.isfile(built) and snapshot.content() == self.content:
            snapshot.put_program(built, f"{TOP}/crates/{building.PROGRAM}/out", building.PROGRAM)

    def tell(self, of_crates: dict[str, float]) -> None:
        """Prints what the parts and the crates took."""
        skipped = [f"{it.step.name}: {case}" for it in self.ended for case in it.skipped]
        if skipped:
            print("\nSkipped, and not counted:\n" + "\n".join(f"  {it}" for it in skipped))
        left_out = [*self.left_out, *(line for it in self.ended for line in it.left_out)]
        if left_out:
            print("\nLeft out for want of time, and not counted:\n" + "\n".join(f"  {it}" for it in left_out))
        print("\nMinutes of each part, on the clock and of processors:")
        for it in self.ended:
            print(f"  {it.step.name:<24} {it.minutes:6.1f} {it.processor_minutes:7.1f}")
        print(f"  {'all':<24} {self.minutes():6.1f} {sum(it.processor_minutes for it in self.ended):7.1f}")
        print("\nProcessor minutes of the prover for each crate:")
        for crate, spent in sorted(of_crates.items()):
            print(f"  {crate:<24} {spent:6.1f}")
        print(f"  {'all':<24} {sum(of_crates.values()):6.1f}")
        print(f"The whole took {self.minutes():.1f} minutes", flush=True)


def tests_that_failed(proofs: Ended) -> list[str]:
    """The crates whose tests are proved and failed when they were run, if `rt ci` says that nothing else failed."""
    found = [TESTS_FAILED.match(it) for it in proofs.failures if it.startswith("rt: FAILED:")]
    return re.findall(r"(\w+) \(tests\)", found[0][1]) if found and found[0] else []


def merged(first: Ended, again: Ended, is_by_name: bool) -> Ended:
    """What a step came to that failed beside others and was done again alone: as a whole, or only the cases that had failed."""
    count = again.count
    if is_by_name:
        had_failed = first.count.failed
        # A case that wasn't played again, as where the runner broke off, stays failed.
        are_all = count.passed + count.failed >= had_failed
        failed = min(count.failed, had_failed) if are_all else had_failed
        count = Count(first.count.passed + had_failed - failed, failed)
    return Ended(
        first.step,
        count,
        again.failures,
        first.skipped,
        first.left_out,
        first.minutes + again.minutes,
        first.processor_minutes + again.processor_minutes,
    )


def whole(anew: bool = False) -> Count:
    """Runs the gate, or, with `anew`, everything for a release."""
    try:
        gate = Gate(anew)
    except (TreeChanged, OSError, shutil.Error) as why:
        print(f"bin/test: the tree can't be copied: {why}", file=sys.stderr)
        return Count(0, 1)
    meter = Meter()
    meter.start()
    try:
        gate.do_all()
        of_crates = meter.stop()
        gate.leave_program()
        gate.learn()
        content = releases.checksum(gate.room.whole)
    finally:
        shutil.rmtree(gate.room.folder, ignore_errors=True)
    minutes.keep(of_crates)
    gate.tell(of_crates)
    count = all_of([*(it.count for it in gate.ended), Count(0, len(gate.programs))])
    LEFT_OUT.extend(gate.left_out)
    for it in gate.ended:
        for line in it.failures:
            note_failed(line)
        LEFT_OUT.extend(it.left_out)
    if anew and not count.failed:
        releases.write_page(content, gate.commit, count, gate.ended, gate.minutes())
        print(f"{os.path.relpath(releases.PAGE, TOP)} says so")
    return count

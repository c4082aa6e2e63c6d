"""The steps below the gate: the tests of crates without a proof, and proof, tests and wrong bodies of single crates."""
from __future__ import annotations

import os
import subprocess
import sys
from concurrent.futures import ThreadPoolExecutor

import cutting
import minutes
import trying
import verdicts
import wrong_bodies
from machine import Meter
from parts import PARTS, QUICK, Count, all_of, note_failed
from tree import PROGRAM, TOP, Crate, above, crates, files_of
from verdicts import Verdict


def section(title: str) -> None:
    print(f"\n== {title}", flush=True)


def has_tests(crate: Crate) -> bool:
    return cutting.has_tests(crate.folder)


def ran(subject: str, folder: str, *words: str) -> Count:
    """Runs a command, whose status alone counts."""
    section(subject)
    status = subprocess.run(words, cwd=folder, stdin=subprocess.DEVNULL).returncode
    if status:
        note_failed(f"{subject}: {' '.join(words)} ended with {status}")
    return Count(int(not status), int(status != 0))


# Before any proof.


def changed() -> list[Crate]:
    """The crates with a source that is newer than the built program."""
    built = os.path.getmtime(PROGRAM) if os.path.isfile(PROGRAM) else 0.0
    return [it for it in crates().values() if any(os.path.getmtime(path) > built for path in files_of(it.folder))]


def try_tests(crate: Crate) -> Count:
    """Runs the crate's tests before any proof."""
    words = ["rt", "try", "--test"]
    it = subprocess.run(words, cwd=crate.folder, stdin=subprocess.DEVNULL, stdout=subprocess.PIPE, stderr=subprocess.STDOUT, text=True, errors="replace")
    print(f"tests of {crate.name}: " + ("ok" if it.returncode == 0 else f"wrong:\n{it.stdout[-2000:]}"), flush=True)
    if it.returncode:
        note_failed(f"tests of {crate.name}: wrong")
    return Count(int(it.returncode == 0), int(it.returncode != 0))


def quick(names: list[str]) -> Count:
    """The tests of these crates, or of those that changed, before any proof, and what plays for a short while."""
    wanted = [crates()[it] for it in names] if names else changed()
    if any(crate in changed() for crate in wanted):
        print(f"note: some sources are newer than {os.path.relpath(PROGRAM, TOP)}, which the cases play against; bin/build builds it anew", flush=True)
    with ThreadPoolExecutor(len(os.sched_getaffinity(0))) as pool:
        tests = list(pool.map(try_tests, filter(has_tests, wanted)))
    return all_of([*tests, *(PARTS[it]() for it in QUICK)])


# With proofs, over what earlier checks kept.


def prove_tests(crate: Crate) -> Count:
    """Proves and runs a crate's tests, and keeps that they are proved."""
    began = verdicts.checksums_of(crate).tests
    count = ran(f"tests of {crate.name}", crate.folder, "rt", "test")
    if not count.failed and verdicts.checksums_of(crate).tests == began:
        verdicts.learn([Verdict(crate.name, verdicts.TESTS, began)])
    return count


def try_edits(wanted: list[Crate]) -> Count:
    """Tries the edits of tests/edits of these crates, but of those that are known to be refused at this content."""
    new = [it for it in wanted if not verdicts.are_known(it)]
    for crate in (it for it in wanted if it not in new):
        print(f"edits of {crate.name}: not tried, since all were refused before at this content: tests/edits/run {crate.name}", flush=True)
    plans = [trying.plan_of(it, trying.edits_of(it.name, outside_only=True), verdicts.needs_controls(it)) for it in new]
    return wrong_bodies.try_plans(plans, trying.is_built_below)


def prove_all(wanted: list[Crate]) -> Count:
    """Proof, tests and edits of these crates."""
    names = [it.name for it in wanted]
    count = ran(f"proofs of {', '.join(names)}", TOP, f"{TOP}/bin/build", *names)
    if count.failed:
        return count
    count = all_of([count, *(prove_tests(it) for it in wanted if has_tests(it))])
    with_edits = [it for it in names if os.path.isdir(f"{TOP}/crates/{it}/must-fail")]
    if with_edits:
        count = count.and_also(ran("edits one by one", TOP, "rt", "must-fail", *with_edits))
    section("edits beside one another")
    return count.and_also(try_edits(wanted))


def tell_above(names: list[str], upper: list[Crate]) -> None:
    """Says which crates stand above these, and what they took last."""
    if not upper:
        print(f"No crate uses {', '.join(names)}.", flush=True)
        return
    spent = minutes.last()
    told = [f"{it.name} ({spent[it.name]:.1f})" if it.name in spent else it.name for it in upper]
    known = [spent[it.name] for it in upper if it.name in spent]
    took = f", together {sum(known):.0f} minutes of a processor when these were proved last here" if known else ""
    print(f"Above {', '.join(names)}, to be proved again{took}: {', '.join(told)}", flush=True)


def begin_above(names: list[str]) -> None:
    """Begins proof, tests and edits of the crates above these in the background, and says where the log is."""
    log = f"{TOP}/crates/{names[0]}/out/above.log"
    os.makedirs(os.path.dirname(log), exist_ok=True)
    with open(log, "w", encoding="utf-8") as file:
        words = ["nice", "-n", "10", sys.executable, f"{TOP}/bin/test", "--above", *names]
        it = subprocess.Popen(words, stdin=subprocess.DEVNULL, stdout=file, stderr=subprocess.STDOUT, start_new_session=True)
    print(f"The crates above are proved in the background, by process {it.pid}; the log is {os.path.relpath(log, os.getcwd())}", flush=True)


def of_crates(names: list[str], with_above: bool, in_background: bool) -> Count:
    """Proof, tests and edits of these crates, and of those above them if that is wanted, here or in the background."""
    every = above(names)
    wanted, upper = [it for it in every if it.name in names], [it for it in every if it.name not in names]
    tell_above(names, upper)
    meter = Meter()
    meter.start()
    count = prove_all(wanted)
    if with_above and upper and not count.failed:
        count = count.and_also(prove_all(upper))
    minutes.keep(meter.stop())
    if in_background and upper and not count.failed:
        begin_above(names)
    return count

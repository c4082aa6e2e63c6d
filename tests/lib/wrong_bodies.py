"""Tries plans of edits within a time, says what was left out of it, and keeps the verdicts that were learned."""
from __future__ import annotations

import math
import time
from concurrent.futures import ThreadPoolExecutor
from typing import Callable, Iterator, NamedTuple

import trying
import verdicts
from parts import Count, note_failed
from tree import Crate, crates
from trying import Batch, Plan, Result
from verdicts import Checksums, Verdict


class Tried(NamedTuple):
    """What became of a crate's plan, and its batches that could not begin in time."""

    result: Result
    left_out: list[Batch]


def edits_left_out(tried: Tried) -> list[str]:
    return [it for batch in tried.left_out for it in verdicts.edits_in(batch) if it]


def try_in_time(plans: list[Plan], until: float, lanes: int = 0) -> Iterator[Tried]:
    """Tries these plans, each batch if it can begin before this moment. Gives what became of each plan, in order."""
    trying.toolchain().guarded()

    def result_of(part: Plan) -> Result | None:
        return None if time.monotonic() > until else next(trying.try_all([part], lanes=1))

    with ThreadPoolExecutor(lanes or trying.free_lanes()) as pool:
        # The runs of the upper crates take longest, so they begin first.
        begun = {
            plan.crate: [(it, pool.submit(result_of, plan._replace(batches=[it]))) for it in plan.batches] for plan in reversed(plans)
        }
        for plan in plans:
            ended = [(batch, ran.result()) for batch, ran in begun[plan.crate]]
            results = [it for _, it in ended if it]
            outcomes, unclear = [it for one in results for it in one.outcomes], [it for one in results for it in one.unclear]
            yield Tried(Result(plan, outcomes, unclear), [batch for batch, it in ended if not it])


def why_not_kept(tried: Tried, began: Checksums, is_built: Callable[[Crate], bool]) -> str:
    """Why the verdicts over a crate's edits aren't kept, or an empty text: they are those of the content at the beginning, if it and
    the libraries still have it."""
    crate = crates()[tried.result.crate]
    if tried.left_out:
        return "the time for edits was over"
    if verdicts.checksums_of(crate) != began:
        return "it changed meanwhile"
    if not is_built(crate):
        return "the libraries below it aren't built as they stand (bin/build)"
    return verdicts.why_not_all(tried.result)


def tell_left_out(tried: Tried) -> None:
    """Says which edits of a crate were not tried for want of time."""
    edits = edits_left_out(tried)
    if edits:
        crate = tried.result.crate
        print(f"edits of {crate}: {len(edits)} not tried, since the time for edits was over: tests/edits/run {crate}", flush=True)


def try_plans(plans: list[Plan], is_built: Callable[[Crate], bool], until: float = math.inf, lanes: int = 0) -> Count:
    """Tries these plans, each batch if it can begin before this moment, and keeps the verdicts of each crate of which all is known.
    What isn't tried isn't counted. `is_built` says whether the libraries below a crate were built from the sources as they stand."""
    began = {plan.crate: verdicts.checksums_of(crates()[plan.crate]) for plan in plans}
    count = Count()
    for it in try_in_time(plans, until, lanes):
        result = it.result
        if result.outcomes or not it.left_out:
            trying.tell(result)
        tell_left_out(it)
        for wrong in result.wrong():
            note_failed(f"edits of {result.crate}: {wrong}")
        count = count.and_also(Count(len(result.edits(trying.REFUSED)), len(result.wrong())))
        if not result.plan.known:
            keep(it, began[result.crate], is_built)
    return count


def keep(tried: Tried, began: Checksums, is_built: Callable[[Crate], bool]) -> None:
    """Keeps the verdicts over a crate's edits, or says why not."""
    crate = tried.result.crate
    why = why_not_kept(tried, began, is_built)
    if why:
        print(f"verdicts on the edits of {crate}: not kept, since {why}", flush=True)
    else:
        verdicts.learn([Verdict(crate, verdicts.CONTROLS, began.controls), Verdict(crate, verdicts.EDITS, began.edits)])

"""What cases expect of callers."""
from __future__ import annotations

import time

from caller import Refused, delays_of, indexes


class Wrong(Exception):
    """A case failed."""


def expect(test, text):
    if not test:
        raise Wrong(text)


def request(name):
    return f"#!::r={name},m=request"


def publish(name):
    return f"#!::r={name},m=publish"


def refusal(call):
    """The code with which a call is refused, or 0 if it is accepted."""
    try:
        call()
    except Refused as refused:
        return refused.code
    return 0


def expect_refusal(code, caller, what):
    found = refusal(caller.call)
    expect(found == code, f"{what}: {found or 'accepted'}, and not {code}")


def expect_run(got, first, count, who="the subscriber"):
    """Expects the `count` payloads from `first` on, each once and in order."""
    found = indexes(got)
    if found != list(range(first, first + count)):
        missing = sorted(set(range(first, first + count)) - set(found))
        raise Wrong(f"{who} got {len(found)} of {count} payloads, {found[:1]} to {found[-1:]}, without {missing[:5]}")


def expect_delays(got, least_ms, slack_ms=100):
    """Expects that no payload came before its time, and at least half of them at most `slack_ms` after it."""
    delays = sorted(delays_of(got))
    expect(delays[0] >= 1000 * least_ms, f"a payload came after {delays[0]} us, before its {least_ms} ms")
    middle = delays[len(delays) // 2]
    expect(middle <= 1000 * (least_ms + slack_ms), f"half of the payloads took more than {middle} us")


def accepted(caller, seconds=60):
    """Calls again and again while the answer is 1002, for at most `seconds`. Returns whether a call was accepted."""
    until = time.monotonic() + seconds
    while time.monotonic() < until:
        code = refusal(caller.call)
        if code != 1002:
            expect(code == 0, f"a call was refused with {code}")
            return True
        time.sleep(0.05)
    return False

"""What random tapes are about: how many routes and callers they have, and what happens to them."""
from __future__ import annotations

from random import Random
from typing import NamedTuple


class Plot(NamedTuple):
    """What a tape is about. `loss`, `repeats` and long `delays` are chances of one datagram; `ends` that of a caller each time that it
    acts; `lingers` that of a publisher which goes on after its SHUTDOWN; `slow` that of a subscriber which takes little at a time;
    `jumps` that of a pause which lasts until something falls due; `comes` that of a publisher who is wanted; `closes` that of a route
    each step while a session of it drains or was silent for five seconds; `lies` that of an ACKACK with a wrong timestamp; `unreported`
    that of a subscriber without the flag PERIODICNAK; the others are those of one step of the world. `skews` are by how many millionths
    a publisher's clock may be slow. `slowness` divides the time of a step. `lines` stand in each route's table. A tape is so many `times`
    as long as others."""

    modes: tuple[str, ...]
    publishers: int = 2
    subscribers: int = 2
    loss: float = 0.04
    repeats: float = 0.02
    delays: float = 0.2
    pauses: float = 0.02
    jumps: float = 0.4
    neglect: float = 0.005
    hostile: float = 0.05
    odd_callers: float = 0.02
    openings: float = 0.0
    ends: float = 0.004
    near_wraps: bool = False
    slowness: int = 1
    is_libsrt: bool = False
    lingers: float = 0.0
    slow: float = 0.0
    closes: float = 0.0
    comes: float = 0.05
    lies: float = 0.0
    unreported: float = 0.0
    skews: tuple[int, ...] = (0,)
    lines: tuple[str, ...] = ()
    buffers: tuple[int, ...] = (32, 32, 64, 100, 256, 1024)
    times: int = 1


BOTH = ("live", "buffer")
SKEWS = (0, 20, -20, 100, -100, 500, -500, 900, -900, 5000, -5000)
PLOTS: dict[str, Plot] = {
    "live": Plot(("live",), delays=0.02),
    "buffer": Plot(("buffer",), delays=0.02),
    "near": Plot(("live",), publishers=1, subscribers=1, loss=0.08, delays=0.0, pauses=0.0, hostile=0.0, ends=0.0, slowness=5),
    "bad_line": Plot(BOTH, loss=0.2, repeats=0.1, pauses=0.04),
    "standby": Plot(BOTH, subscribers=1, ends=0.02, pauses=0.04),
    "wraps": Plot(BOTH, loss=0.08, near_wraps=True),
    "floods": Plot((*BOTH, "live"), subscribers=3, neglect=0.1),
    "hostile": Plot(BOTH, hostile=1.0, odd_callers=0.3),
    "openings": Plot(BOTH, openings=0.1, ends=0.01, neglect=0.05),
    "files": Plot(("buffer", "buffer"), publishers=1, subscribers=1, ends=0.04, pauses=0.06),
    "many": Plot((*BOTH, *BOTH), publishers=3, subscribers=4, ends=0.01, odd_callers=0.2),
}
# Routes with `callers = "libsrt"`, by the rules that only they have.
LIBSRT_PLOTS: dict[str, Plot] = {
    name: plot._replace(is_libsrt=True, times=max(2, plot.times))
    for name, plot in {
        "streams_to_their_end": Plot(("live", "live"), publishers=1, ends=0.08, pauses=0.05, lingers=0.4),
        "files_to_their_end": Plot(
            ("buffer", "buffer"), publishers=1, loss=0.02, ends=0.08, pauses=0.06, jumps=0.2, lingers=0.2, slow=0.2, comes=0.02,
            buffers=(32, 100, 256),
        ),
        "slow_files": Plot(
            ("buffer", "buffer"), publishers=1, loss=0.02, hostile=0.0, ends=0.03, pauses=0.12, jumps=0.1, slow=0.8, comes=0.02,
            buffers=(32, 32, 64), times=4,
        ),
        "standbys_at_an_end": Plot(BOTH, ends=0.08, pauses=0.03, lingers=0.4, slow=0.3),
        "silences": Plot(BOTH, ends=0.05, pauses=0.15, hostile=0.0, odd_callers=0.0, slow=0.2),
        "closes_in_between": Plot((*BOTH, *BOTH, *BOTH), ends=0.06, pauses=0.06, jumps=0.2, lingers=0.2, slow=0.3, closes=0.3),
        "hostile_at_an_end": Plot(BOTH, ends=0.04, hostile=0.6, odd_callers=0.1, lingers=0.3),
        "skewed_clocks": Plot(("live", "live"), subscribers=1, delays=0.1, ends=0.0005, hostile=0.01, odd_callers=0.0, skews=SKEWS, unreported=0.5),
        "skewed_clocks_near_wraps": Plot(
            ("live", *BOTH), subscribers=1, delays=0.02, ends=0.0005, hostile=0.05, odd_callers=0.0, near_wraps=True, skews=SKEWS, lies=0.02,
        ),
        "quiet_players": Plot(
            (*BOTH, "live"), publishers=1, pauses=0.1, hostile=0.0, odd_callers=0.0, ends=0.002, slow=0.6, unreported=0.6, buffers=(32, 100, 256),
        ),
    }.items()
}

SECRET = bytes(range(32))
NAMES = ("studio", "files", "a", "b/c", "news.1", "sport_2", "x-y")
NETWORKS = ("10.0.0.0/30", "10.0.0.4/30", "10.0.0.0/24", "127.0.0.1", "0.0.0.0/0")
ACCESS_KEYS = ("open-sesame", "k")
PASSPHRASES = {"publish_passphrase": "correct horse battery", "request_passphrase": "hält die Leitung"}


def route_text(random: Random, plot: Plot, name: str, mode: str, more: list[str]) -> str:
    """The table of a route. Small windows, inboxes and outboxes are filled more often."""
    numbers = {
        "latency_ms": random.choice((20, 40, 120, 200, 1000)),
        "buffer": random.choice(plot.buffers),
        "sessions": random.randint(3, 7),
        "inbox": random.choice((16, 16, 40, 100)),
        "outbox": random.choice((16, 16, 40, 100)),
    }
    lines = [f'name = "{name}"', f'mode = "{mode}"', *(f"{key} = {value}" for key, value in numbers.items()), *more]
    return "\n[[route]]\n" + "".join(f"{line}\n" for line in lines)


def optional_keys(random: Random, plot: Plot, keys: frozenset[str]) -> list[str]:
    """Lines of some of these optional keys of a route, and of `callers` if the plot is about it."""
    networks = [f'"{it}"' for it in random.sample(NETWORKS, 2)]
    lines = {
        f'callers = "{"libsrt" if plot.is_libsrt else random.choice(("draft", "libsrt", "libsrt"))}"': 1.0 if plot.is_libsrt else 0.7,
        f"publish_from = [{', '.join(networks)}]": 0.35,
        f"request_from = [{networks[0]}]": 0.35,
        f'publish_key = "{random.choice(ACCESS_KEYS)}"': 0.2,
        f'request_key = "{random.choice(ACCESS_KEYS)}"': 0.2,
        f"reserved = {random.randint(0, 2)}": 0.5,
        f"sessions_per_address = {random.randint(1, 3)}": 0.3,
        f"takeover_ms = {random.choice((100, 200, 500, 1500))}": 0.6,
        f"resend_percent = {random.choice((5, 10, 25))}": 0.5,
        **{f'{key} = "{text}"': 0.5 for key, text in PASSPHRASES.items() if key in keys},
    }
    found = [line for line, share in lines.items() if random.random() < share and line.split(" ")[0] in keys]
    has_passphrase = any(line.split(" ")[0] in PASSPHRASES for line in found)
    if has_passphrase and "pbkeylen" in keys and random.random() < 0.3:
        found.append(f"pbkeylen = {random.choice((16, 24, 32))}")
    return found


def config_text(random: Random, plot: Plot, keys: frozenset[str]) -> str:
    """A configuration for a tape, with some of these optional keys."""
    head = f'secret = "{SECRET.hex()}"\nbind = "127.0.0.1:0"\nworkers = 1\n'
    status = 'status = "127.0.0.1:0"\n' if "status" in keys and random.random() < 0.3 else ""
    return head + status + "".join(
        route_text(random, plot, name, mode, [*plot.lines, *(optional_keys(random, plot, keys) if keys else [])]) for name, mode in zip(NAMES, plot.modes)
    )

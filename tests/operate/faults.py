"""A run that can't begin: each wrong configuration, a file that can't be read, an address that can't be bound, of which
`check --addresses` says the same. What `run` says is held to the rows and cases of tests/cli that hold `check --explain`."""
import errno
import os
import resource
import socket
import subprocess
import tempfile
from concurrent.futures import ThreadPoolExecutor

import command_lines
from cases import case
from expecting import expect
from gateway import room_for
from machine import free_port
from rows import rows_of
from running import Run, Skipped, configuration, live
from tree import PROGRAM

ROWS = ("explained_faults", "explained_routes", "explained_texts", "explained_steps")
FILES = ("explained_file_missing", "explained_file_is_a_folder", "explained_file_of_65537_bytes", "explained_not_utf8")
WARNINGS = "explained_warnings"
IS_MISSING = " is missing, so "


def configurations(name):
    """The rows of a case of tests/cli, each with the configuration that it makes."""
    folder = f"{command_lines.CASES}/{name}"
    kind = "steps" if os.path.isfile(f"{folder}/steps") else "rows"
    text = command_lines.bytes_of(command_lines.path_of(folder, command_lines.words_of(folder)[-1])).decode()
    for row in rows_of(command_lines.lines_of(f"{folder}/{kind}")):
        changed = row.changed(text)
        text = changed if kind == "steps" else text
        yield row, changed


def ended(text, *words):
    """The end of a run with this configuration: its status, standard output, and the lines of standard error."""
    with Run((), *words, text=text) as run:
        end = run.end(20)
        return end.status, end.output, run.texts()


def wrong_of_row(name, row, text):
    """What is wrong with the run of a wrong configuration, or an empty text."""
    wanted = (row.status, row.output, [f"srtgw: gateway.toml: {it}" for it in row.errors])
    found = ended(text)
    return "" if found == wanted else f"{name}, {row.name}: it ended with {found}"


@case("a hundred wrong configurations, as `check --explain` explains them")
def wrong_configurations():
    rows = [(name, row, text) for name in ROWS for row, text in configurations(name) if row.status == 1]
    expect(len(rows) >= 100, f"there are {len(rows)} rows only")
    with ThreadPoolExecutor(4) as pool:
        wrong = [it for it in pool.map(lambda it: wrong_of_row(*it), rows) if it]
    expect(not wrong, f"{len(wrong)} of {len(rows)}: {'; '.join(wrong[:3])}")


def wrong_of_warnings(row, text):
    """What is wrong with the warnings of a run, or an empty text. A run doesn't log those about missing keys."""
    status, _, lines = ended(text, "--no-time", "--for", "1s")
    wanted = ["serving at ", *(it for it in row.errors if IS_MISSING not in it), "stopping, "]
    good = status == 0 and len(lines) == len(wanted) + 1 and all(map(str.startswith, lines, wanted))
    return "" if good else f"{row.name}: the log is {lines}"


@case("unwise configurations, with the warnings of `check --explain`")
def unwise_configurations():
    # A status page at an address of another machine is a fault of the run.
    rows = [(row, text) for row, text in configurations(WARNINGS) if row.status == 0 and "\nstatus = " not in text]
    expect(len(rows) >= 10, f"there are {len(rows)} rows only")
    with ThreadPoolExecutor(4) as pool:
        wrong = [it for it in pool.map(lambda it: wrong_of_warnings(*it), rows) if it]
    expect(not wrong, f"{len(wrong)} of {len(rows)}: {'; '.join(wrong[:3])}")


@case("files that can't be read, or aren't text, as `check --explain` explains them")
def wrong_files():
    for name in FILES:
        folder = f"{command_lines.CASES}/{name}"
        path = command_lines.words_of(folder)[-1]
        with tempfile.TemporaryDirectory(prefix="srtgw-file-") as room:
            command_lines.lay_out(folder, room)
            it = subprocess.run([PROGRAM, "run", path], cwd=room, stdin=subprocess.DEVNULL, capture_output=True, timeout=20)
        output, errors = command_lines.bytes_of(f"{folder}/stdout").decode(), command_lines.bytes_of(f"{folder}/stderr").decode()
        found = (it.returncode, it.stdout.decode(), it.stderr.decode())
        expect(found == (1, output, errors), f"{name}: it ended with {found}")


def checked(text):
    """The end of `check --addresses` of this configuration, as that of a run."""
    with tempfile.TemporaryDirectory(prefix="srtgw-addresses-") as room:
        with open(f"{room}/gateway.toml", "w") as it:
            it.write(text)
        end = subprocess.run([PROGRAM, "check", "gateway.toml", "--addresses"], cwd=room, stdin=subprocess.DEVNULL, capture_output=True, text=True, timeout=20)
    return end.returncode, end.stdout, end.stderr.splitlines()


def why_not_bound(address, number, hint=""):
    """The line about an address that can't be bound, with the system's words for this error."""
    return f"srtgw: {address}: {os.strerror(number)} (os error {number}){hint}"


def expect_not_bound(text, address, number, hint=""):
    """Expects that a run ends since an address, which it tells so, can't be bound, and that a check of addresses ends alike."""
    wanted = (1, "socket fault\n", [why_not_bound(address, number, hint)])
    for found in (ended(text), checked(text)):
        expect(found == wanted, f"it ended with {found}")


@case("a check of addresses tells of both, and leaves them free")
def addresses_checked():
    with socket.socket(socket.AF_INET, socket.SOCK_DGRAM) as datagrams, socket.socket(socket.AF_INET, socket.SOCK_STREAM) as stream:
        datagrams.bind(("127.0.0.1", 0))
        stream.bind(("127.0.0.1", 0))
        stream.listen()
        port, page = datagrams.getsockname()[1], f"127.0.0.1:{stream.getsockname()[1]}"
        text = configuration([live("studio")], port, status=page)
        lines = [why_not_bound(f"127.0.0.1:{port}", errno.EADDRINUSE), why_not_bound(f"status page at {page}", errno.EADDRINUSE)]
        expect((found := checked(text)) == (1, "socket fault\n", lines), f"it ended with {found}")
    for _ in range(2):
        expect((found := checked(text)) == (0, "routes 1\n", []), f"it ended with {found}")


@case("a port that is taken")
def port_taken():
    with socket.socket(socket.AF_INET, socket.SOCK_DGRAM) as taker:
        taker.bind(("127.0.0.1", 0))
        port = taker.getsockname()[1]
        expect_not_bound(configuration([live("studio")], port), f"127.0.0.1:{port}", errno.EADDRINUSE)


@case("an address of another machine")
def other_machine():
    """192.0.2.1 is an address for documents (RFC 5737)."""
    port = free_port()
    text = configuration([live("studio")], port).replace("127.0.0.1", "192.0.2.1")
    expect_not_bound(text, f"192.0.2.1:{port}", errno.EADDRNOTAVAIL)


@case("a port of the status page that is taken")
def page_port_taken():
    with socket.socket(socket.AF_INET, socket.SOCK_STREAM) as taker:
        taker.bind(("127.0.0.1", 0))
        taker.listen()
        address = f"127.0.0.1:{taker.getsockname()[1]}"
        expect_not_bound(configuration([live("studio")], free_port(), status=address), f"status page at {address}", errno.EADDRINUSE)


@case("a status page at an address of another machine")
def page_of_other_machine():
    address = "192.0.2.1:9001"
    expect_not_bound(configuration([live("studio")], free_port(), status=address), f"status page at {address}", errno.EADDRNOTAVAIL)


def expect_refused(line, word, **options):
    """Expects a run that begins and can't have what it needs: the fault on standard output, and in the last line why."""
    with Run(launched=False, **options) as run:
        end = run.end(30)
        said = run.texts()
    expect((end.status, end.output) == (1, f"{line}\n"), f"it ended with {end.status}, {end.output!r}, {said}")
    expect(said and said[-1].startswith("srtgw: gateway.toml: ") and word in said[-1], f"it says {said}")
    expect("stopped" not in said, f"it says {said}")


@case("memory that is refused")
def memory_refused():
    routes = [live(f"r{index}", buffer=8192, sessions=17) for index in range(20)]
    expect_refused("memory", "memory", routes=routes, limit=lambda: resource.setrlimit(resource.RLIMIT_AS, (400 << 20, 400 << 20)))


@case("threads that can't be started")
def threads_refused():
    for count in range(2):
        expect_refused("thread fault", "thread", routes=[live("none", buffer=32, sessions=2, inbox=16, outbox=136)], limit=room_for(count))


@case("a port without the right to it")
def no_right():
    with open("/proc/sys/net/ipv4/ip_unprivileged_port_start") as it:
        first = int(it.read())
    if os.geteuid() == 0 or first < 2:
        raise Skipped("each port may be bound here")
    expect_not_bound(configuration([live("studio")], 1), "127.0.0.1:1", errno.EACCES, "; ports below 1024 need root or CAP_NET_BIND_SERVICE")

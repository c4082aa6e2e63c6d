"""How a run starts: its first lines, with and without times and the launcher; and how long `--for` lets it run."""
import os
import re
import shlex
import shutil
import signal
import subprocess
import tempfile
import time

from cases import case
from documents import OPERATE
from expecting import expect
from running import TIME, UNBLOCKED, Run, Skipped, can_block, expect_polite, launcher, live, seconds_of
from tree import PROGRAM, TOP, read

WRONG_DURATIONS = ["0s", "5x", "366d", "", "s", "0", "-1s", "1.5h", "0d", "8761h", "31536001s", "2 s", "30m1h", "1h30", "99999999999999999999s"]
SMALL = dict(buffer=190, sessions=2, inbox=16)


def expect_started(run, routes, workers):
    """Expects that the first line says where it serves callers, and returns the kibibytes that it says."""
    number, found = run.line(rf"serving at 127\.0\.0\.1:{run.address[1]}, routes {routes}, workers {workers}, memory (\d+) KiB", 10)
    expect(number == 0, f"it isn't the first line: {run.texts()}")
    return int(found[1])


@case("the first line, without times")
def starts():
    with Run([live("studio"), live("other", **SMALL)], "--no-time", workers=3) as run:
        said = expect_started(run, 2, 3)
        # Three windows of 1024 packets and the replies of five sessions, each with the 1316 bytes of a full packet at least.
        expect(said >= 3 * 1024 * 1316 // 1024, f"the memory of its routes can't be {said} KiB")
        time.sleep(0.3)
        if can_block():
            expect(len(run.lines) == 1, f"another line came: {run.texts()}")
        end = run.stop()
        expect_polite(end, ["studio", "other"])
        expect(all("Z " not in it.text[:26] for it in run.lines), "a line has a time")


@case("the first line, with its time")
def starts_with_time():
    with Run([live("studio", **SMALL)]) as run:
        expect_started(run, 1, 2)
        run.stop()
        for line in run.lines:
            found = re.match(f"({TIME}) ", line.text)
            expect(found, f"a line has no time: {line.text!r}")
            expect(abs(seconds_of(found[1]) - line.came) < 1, f"a line came at {line.came}: {line.text!r}")
        times = [it.text[:24] for it in run.lines]
        expect(times == sorted(times), f"times go back: {times}")


@case("without the launcher it says that a signal ends it at once, and it does")
def starts_without_launcher():
    for which in (signal.SIGTERM, signal.SIGINT):
        with Run([live("studio", **SMALL)], "--no-time", launched=False) as run:
            expect_started(run, 1, 2)
            number, _ = run.line(re.escape(UNBLOCKED), 1)
            expect(number == 1, f"it isn't the second line: {run.texts()}")
            end = run.stop(which, 2)
            expect(end.status == -which, f"the status is {end.status}")
            expect(end.seconds < 0.3, f"it took {end.seconds:.2f} s")
            expect(end.output == "" and len(run.lines) == 2, f"it printed {end.output!r}, {run.texts()}")


@case("with the launcher a signal doesn't end it at once")
def starts_with_launcher():
    with Run([live("studio", **SMALL)], "--no-time") as run:
        run.is_up()
        expect(run.find(re.escape(UNBLOCKED)) is None, f"it says that a signal ends it: {run.texts()}")
        expect_polite(run.stop(), ["studio"])


@case("the launcher starts other commands as they are")
def other_commands():
    for words in (["--version"], ["check", f"{TOP}/examples/gateway.toml"], ["serve"], []):
        launched, plain = (subprocess.run([it, *words], capture_output=True, text=True) for it in (launcher(), PROGRAM))
        ends = [(it.returncode, it.stdout, it.stderr) for it in (launched, plain)]
        expect(ends[0] == ends[1], f"{words}: {ends}")


@case("the unit's command starts it, and SIGTERM stops it politely")
def starts_as_unit():
    line = re.search(r"(?m)^ExecStart=(.*)$", read(f"{OPERATE}/srtgw.service"))[1]
    expect("/opt/srtgw/srtgw" in line and "/etc/srtgw/gateway.toml" in line, f"it is {line}")
    command = shlex.split(line.replace("/opt/srtgw/srtgw", PROGRAM).replace("/etc/srtgw/gateway.toml", "gateway.toml"))
    if not can_block() or not os.access(command[0], os.X_OK):
        raise Skipped("`env` can't block signals, or stands elsewhere")
    with Run([live("studio", **SMALL)], command=command) as run:
        expect_started(run, 1, 2)
        expect(len(run.lines) == 1, f"it says more: {run.texts()}")
        expect_polite(run.stop(), ["studio"])


@case("the unit leaves the gateway few rights", needs=["systemd-analyze"])
def unit_is_safe():
    """The exposure by systemd's own measure is below 3 of 10."""
    with tempfile.TemporaryDirectory(prefix="srtgw-unit-") as room:
        shutil.copy(f"{OPERATE}/srtgw.service", room)
        words = ["systemd-analyze", "security", "--offline=true", "--threshold=29", f"{room}/srtgw.service"]
        it = subprocess.run(words, capture_output=True, text=True, env={**os.environ, "SYSTEMD_PAGER": "", "LC_ALL": "C.UTF-8"})
    if "unrecognized option" in it.stderr:
        raise Skipped("this systemd-analyze looks at no unit by itself")
    expect(it.returncode == 0, f"{it.stdout.strip().splitlines()[-1:]} {it.stderr}")


@case("a run of two seconds stops by itself")
def runs_for_a_time():
    for words in (["--for", "2s", "--no-time"], ["--no-time", "--for", "2s"]):
        began = time.monotonic()
        with Run([live("studio", **SMALL)], *words) as run:
            run.is_up()
            end = run.end(10)
            spent = time.monotonic() - began
            expect(spent >= 2 and 1 <= end.seconds <= 4, f"it took {end.seconds:.2f} s, and {spent:.2f} s with its start")
            expect_polite(end, ["studio"])
            expect(run.texts()[-2:] == ["stopping, the time of --for is over", "stopped"], f"the log ends with {run.texts()[-3:]}")


@case("a signal stops a run of a minute")
def runs_for_less():
    with Run([live("studio", **SMALL)], "--no-time", "--for", "1m") as run:
        run.is_up()
        expect_polite(run.stop(), ["studio"])
        expect(run.texts()[-2:] == ["stopping, by a signal", "stopped"], f"the log ends with {run.texts()[-3:]}")


@case("wrong durations")
def wrong_durations():
    for duration in WRONG_DURATIONS:
        with Run([live("studio", **SMALL)], f"--for={duration}") as run:
            end = run.end(5)
            said = "\n".join(run.texts())
        expect(end.status == 2 and end.output == "", f"--for={duration}: status {end.status}, {end.output!r}")
        expect("--for" in said, f"--for={duration}: it says {said!r}")

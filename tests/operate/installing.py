"""A gateway that is started from where bin/install puts it. tests/package has the other files that are installed."""
import os
import re
import shlex
import subprocess
import tempfile

from cases import case
from expecting import expect
from running import Run, Skipped, can_block, expect_polite, live
from tree import PROGRAM, TOP, read

PREFIX = "/opt/gateway"


def installed(room, *words, program=PROGRAM):
    """Runs bin/install below a folder. Returns its status, and what it says, a list of lines."""
    env = {**os.environ, "SRTGW": program, "DESTDIR": ""}
    it = subprocess.run([f"{TOP}/bin/install", "--prefix", PREFIX, "--destdir", room, *words], capture_output=True, text=True, env=env)
    return it.returncode, (it.stdout + it.stderr).splitlines()


def moved(room, text):
    """A text with the places below the folder in place of those of the installation."""
    return text.replace(PREFIX, room + PREFIX).replace("/etc/srtgw/gateway.toml", "gateway.toml")


@case("an installed gateway is started by its launcher and by its unit, and stops politely")
def runs_from_there():
    if not can_block():
        raise Skipped("`env` can't block signals")
    with tempfile.TemporaryDirectory(prefix="srtgw-install-") as room:
        expect(installed(room)[0] == 0, "it isn't installed")
        unit, launcher = (f"{room}{PREFIX}/{it}" for it in ("lib/systemd/system/srtgw.service", "bin/srtgw"))
        lines = dict(re.findall(r"(?m)^(Exec\w+)=(.*)$", read(unit)))
        with open(launcher) as it:
            text = moved(room, it.read())
        with open(launcher, "w") as it:
            it.write(text)
        commands = ([launcher, "run", "gateway.toml", "--no-time"], shlex.split(moved(room, lines["ExecStart"])))
        for command in commands:
            with Run([live("studio", buffer=190, sessions=2, inbox=16)], command=command) as run:
                run.is_up()
                expect(len(run.lines) == 1, f"it says more: {run.texts()}")
                expect_polite(run.stop(), ["studio"])
        for command in ([launcher, "check", f"{room}{PREFIX}/share/srtgw/gateway.toml"], shlex.split(moved(room, lines["ExecStartPre"]))):
            at = f"{room}{PREFIX}/share/srtgw"
            it = subprocess.run(command, cwd=at, capture_output=True, text=True)
            expect((it.returncode, it.stdout) == (0, "routes 2\n"), f"{command}: {it}")


# The words of the command line, as --help has them.


def help_of(*words):
    it = subprocess.run([PROGRAM, *words, "--help"], capture_output=True, text=True)
    expect(it.returncode == 0, f"srtgw {' '.join(words)} --help ends with {it.returncode}")
    return it.stdout


def commands():
    """The commands of `srtgw --help`."""
    return re.findall(r"(?m)^  (\w+) ", help_of().partition("Commands:\n")[2].partition("\n\n")[0])


def options(*words):
    """The long options that a help names, without `--help`."""
    lines = help_of(*words).partition("Options:\n")[2].partition("\n\n")[0].splitlines()
    return sorted({found[0] for it in lines if (found := re.findall(r"^ +(?:-\w, +)?(--[\w-]+)", it))} - {"--help"})

"""What bin/install puts in place, and takes away."""
import os
import subprocess
import tempfile

from cases import case
from expecting import expect
from installing import PREFIX, installed
from tree import PROGRAM, TOP, read, write

EXECUTABLE = {"bin/srtgw", "libexec/srtgw/srtgw"}
PAGES = ("OPERATING", "CONFIGURATION", "PROTOCOL", "operating/callers", "operating/configuration", "operating/log", "operating/metrics", "operating/scaling",
         "operating/service", "operating/start")
PLACES = EXECUTABLE | {"lib/systemd/system/srtgw.service", "share/bash-completion/completions/srtgw", "share/fish/vendor_completions.d/srtgw.fish",
                       "share/man/man1/srtgw.1", "share/man/man5/srtgw.toml.5", "share/srtgw/gateway.toml", "share/srtgw/srtgw-dashboard.json",
                       "share/srtgw/srtgw.rules.yml", "share/zsh/site-functions/_srtgw"} | {f"share/doc/srtgw/{it}.md" for it in PAGES}


def files_below(room):
    return {os.path.relpath(f"{at}/{name}", room) for at, _, names in os.walk(room) for name in names}


def expect_said(answer, word, places, room):
    """Expects the status 0, and a line with the word for each of these places."""
    status, said = answer
    expect(status == 0 and sorted(said) == sorted(f"{word} {room}{PREFIX}/{it}" for it in places), f"it said {said}")


@case("bin/install puts all in place, twice the same, and takes it away")
def installs():
    with tempfile.TemporaryDirectory(prefix="srtgw install ") as room:
        for word in ("installed", "kept"):
            expect_said(installed(room), word, PLACES, room)
            expect(files_below(room + PREFIX) == PLACES, f"there are {files_below(room + PREFIX)}")
        for place in PLACES:
            mode = os.stat(f"{room}{PREFIX}/{place}").st_mode & 0o777
            expect(mode == (0o755 if place in EXECUTABLE else 0o644), f"{place} has the mode {mode:o}")
        with open(PROGRAM, "rb") as built, open(f"{room}{PREFIX}/libexec/srtgw/srtgw", "rb") as it:
            expect(built.read() == it.read(), "the installed program isn't the one that was built")
        strange = f"{room}{PREFIX}/share/srtgw/of-somebody-else"
        write(strange, "")
        expect_said(installed(room, "--uninstall"), "removed", PLACES, room)
        expect(files_below(room) == {f"{PREFIX[1:]}/share/srtgw/of-somebody-else"}, f"there are {files_below(room)}")
        os.remove(strange)
        expect_said(installed(room), "installed", PLACES, room)
        expect_said(installed(room, "--uninstall"), "removed", PLACES, room)
        left = {os.path.relpath(at, room + PREFIX) for at, _, _ in os.walk(room + PREFIX)}
        expect(files_below(room) == set() and left == {".", "bin", "lib", "libexec", "share", "share/doc", "share/man"}, f"it left {left}")
        expect(installed(room, "--uninstall") == (0, []), "it takes away what isn't there")


@case("what is installed names the places of its prefix")
def names_places():
    with tempfile.TemporaryDirectory(prefix="srtgw-install-") as room:
        expect(installed(room)[0] == 0, "it isn't installed")
        for place in ("bin/srtgw", "lib/systemd/system/srtgw.service", "share/man/man1/srtgw.1", "share/man/man5/srtgw.toml.5", "share/srtgw/gateway.toml"):
            text = read(f"{room}{PREFIX}/{place}")
            expect(PREFIX in text and not any(it in text for it in ("/usr/local", "/opt/srtgw", room, TOP)), f"{place}: {text}")


@case("DESTDIR stands for --destdir, and a changed file alone is replaced")
def by_variable():
    with tempfile.TemporaryDirectory(prefix="srtgw-install-") as room:
        words, env = [f"{TOP}/bin/install", f"--prefix={PREFIX}"], {**os.environ, "SRTGW": PROGRAM, "DESTDIR": room}
        first = subprocess.run(words, env=env, capture_output=True, text=True)
        expect_said((first.returncode, first.stdout.splitlines()), "installed", PLACES, room)
        write(f"{room}{PREFIX}/share/srtgw/gateway.toml", "changed")
        os.chmod(f"{room}{PREFIX}/bin/srtgw", 0o700)
        again = subprocess.run(words, env=env, capture_output=True, text=True).stdout.splitlines()
        replaced = sorted(it for it in again if not it.startswith("kept "))
        expect(replaced == [f"installed {room}{PREFIX}/{it}" for it in ("bin/srtgw", "share/srtgw/gateway.toml")], f"it said {replaced}")


def expect_refused(answer, status, words):
    found, said = answer
    expect(found == status and len(said) == 1 and words in said[0], f"{found}, {said}, and not {words!r}")


@case("bin/install refuses what can't be installed, and writes nothing then")
def installs_nothing():
    with tempfile.TemporaryDirectory(prefix="srtgw-install-") as room:
        outside, to = f"{room}/outside", f"{room}/to"
        os.makedirs(to)
        expect_refused(installed(to, program=outside), 1, f"install: {outside} isn't built; bin/build builds it")
        write(outside, "#!/bin/sh\necho srtgw 0.0\n")
        expect_refused(installed(to, program=outside), 1, "isn't built")
        os.chmod(outside, 0o755)
        expect_refused(installed(to, program=outside), 1, "'srtgw 0.0'")
        for words in (["--prefix"], ["--hurry"], ["--prefix", "opt"], ["--prefix", "/opt/a b"], ["--prefix", "/opt/../etc"], ["--prefix", "/"], ["word"]):
            expect_refused(installed(to, *words), 2, "bin/install --help")
        expect(os.listdir(to) == [], f"it installed {os.listdir(to)}")
        # The last of its places is a folder; another one can't be made, since a file has its folder's name.
        os.makedirs(f"{to}{PREFIX}/share/doc/srtgw/operating/start.md")
        expect_refused(installed(to), 1, "start.md is a folder")
        expect(files_below(to) == set(), f"it installed {files_below(to)}")
        os.rmdir(f"{to}{PREFIX}/share/doc/srtgw/operating/start.md")
        write(f"{to}{PREFIX}/share/fish", "")
        expect_refused(installed(to), 1, f"{to}{PREFIX}/share/fish is no folder")
        expect(files_below(to) == {f"{PREFIX[1:]}/share/fish"}, f"it installed {files_below(to)}")

"""The Debian package that bin/package makes: its content, its scripts, and that the same tree makes the same bytes."""
import atexit
import functools
import os
import re
import shutil
import stat
import subprocess
import tempfile

import tools
from cases import case
from documents import OPERATE
from expecting import expect
from places import EXECUTABLE, PLACES, expect_refused, files_below
from running import Skipped
from tree import PROGRAM, TOP, read, write

SCRIPTS = ("postinst", "prerm", "postrm")
COMPRESSED = {"share/man/man1/srtgw.1", "share/man/man5/srtgw.toml.5"}
ADDED = {"share/doc/srtgw/copyright", "share/doc/srtgw/changelog.gz", "share/doc/srtgw/changelog.Debian.gz", "share/lintian/overrides/srtgw"}
# What the scripts call that would change the machine: each says in a file what it was called with.
CALLED = ("adduser", "chown", "deluser", "deb-systemd-helper", "deb-systemd-invoke", "systemctl")
OTHER_EPOCH = "1700000000"


# What runs a program as a user without rights.
AS_NOBODY = ("setpriv", "--reuid=65534", "--regid=65534", "--clear-groups")


def packaged(*words, program=PROGRAM, room=None, user=(), **more):
    """Runs bin/package, by another user if `user` has the words for that. Returns its status, and what it says, a list of lines."""
    env = {**os.environ, "SRTGW": program, **more}
    it = subprocess.run([*user, f"{TOP}/bin/package", *words], cwd=room, capture_output=True, text=True, env=env)
    return it.returncode, (it.stdout + it.stderr).splitlines()


def another_user():
    """The words that make a package as another user than this one, if that is possible and this is root."""
    words = [*AS_NOBODY, "test", "-x", f"{TOP}/bin/package", "-a", "-x", PROGRAM]
    can = os.geteuid() == 0 and tools.has("setpriv") and subprocess.run(words, stderr=subprocess.DEVNULL).returncode == 0
    return AS_NOBODY if can else ()


def made(room, *words, **more):
    """The path of a package that is made in a folder."""
    status, said = packaged("--output", room, *words, **more)
    names = [it for it in os.listdir(room) if it.endswith(".deb")]
    expect(status == 0 and len(said) == 1 and len(names) == 1 and f"apt install {room}/{names[0]}" in said[0], f"{status}, it said {said}")
    return f"{room}/{names[0]}"


@functools.cache
def the_package():
    """One package that several cases look at."""
    room = tempfile.mkdtemp(prefix="srtgw-package-")
    atexit.register(shutil.rmtree, room, True)
    return made(room, "--revision", "3", "--maintainer", "Ada <ada@debian.org>", SOURCE_DATE_EPOCH=OTHER_EPOCH, TZ="Asia/Tokyo")


def of_package(path, option, *words):
    return subprocess.run(["dpkg-deb", option, path, *words], check=True, capture_output=True, text=True, env={**os.environ, "TZ": "UTC"}).stdout


def version():
    return subprocess.run([PROGRAM, "--version"], capture_output=True, text=True).stdout.split()[1]


@case("bin/package makes the same bytes twice, of the time that it is given", needs=["dpkg-deb"])
def same_bytes():
    one = the_package()
    with tempfile.TemporaryDirectory(prefix="srtgw-package-of-another-name-") as room:
        os.chmod(room, 0o777)
        before = os.umask(0o077)
        other = made(room, "--revision", "3", "--maintainer", "Ada <ada@debian.org>", SOURCE_DATE_EPOCH=OTHER_EPOCH, TZ="UTC", LC_ALL="C", user=another_user())
        os.umask(before)
        with open(one, "rb") as first, open(other, "rb") as second:
            expect(first.read() == second.read(), "the packages differ")
    times = {it.split()[3] for it in of_package(one, "--contents").splitlines()}
    expect(times == {"2023-11-14"}, f"the files are of {times}")
    changes = 'dpkg-deb --fsys-tarfile "$0" | tar -xO ./usr/share/doc/srtgw/changelog.Debian.gz | gzip -dc'
    said = subprocess.run(["sh", "-c", changes, one], capture_output=True, text=True).stdout
    expect("Tue, 14 Nov 2023 22:13:20" in said, f"the changes are {said}")


@case("a package without other words has the time and the author of the commit", needs=["dpkg-deb", "git"])
def of_commit():
    it = subprocess.run(["git", "-C", TOP, "log", "-1", "--date=format-local:%Y-%m-%d %H:%M", "--format=%cd|%an <%ae>"], capture_output=True, text=True,
                        env={**os.environ, "TZ": "UTC"})
    if it.returncode:
        raise Skipped("git has no commit of this tree")
    time, author = it.stdout.strip().split("|")
    env = {name: value for name, value in os.environ.items() if name != "SOURCE_DATE_EPOCH"}
    with tempfile.TemporaryDirectory(prefix="srtgw-package-") as room:
        subprocess.run([f"{TOP}/bin/package", "--output", room], check=True, capture_output=True, env={**env, "SRTGW": PROGRAM})
        path = f"{room}/{os.listdir(room)[0]}"
        times = {" ".join(it.split()[3:5]) for it in of_package(path, "--contents").splitlines()}
        expect(times == {time}, f"the files are of {times}, and the commit of {time}")
        expect(of_package(path, "--field", "Maintainer").strip() == author, f"it isn't of {author}")


@case("the package has the program's version, the files that bin/install puts in place, and no other owner", needs=["dpkg-deb"])
def has_files():
    with tempfile.TemporaryDirectory(prefix="srtgw-package-") as room:
        path = the_package()
        fields = dict(it.split(": ", 1) for it in of_package(path, "--field").splitlines() if re.match(r"[A-Z][\w-]*: ", it))
        found = (fields["Package"], fields["Version"], fields["Maintainer"])
        expect(found == ("srtgw", f"{version()}-3", "Ada <ada@debian.org>"), f"it has the fields {fields}")
        expect(os.path.basename(path) == f"srtgw_{fields['Version']}_{fields['Architecture']}.deb", f"it is {path}")
        expect("adduser" in fields["Depends"] and "@" not in "".join(fields.values()).replace("ada@", ""), f"it has the fields {fields}")
        owners = {it.split()[1] for it in of_package(path, "--contents").splitlines()}
        expect(owners == {"root/root"}, f"the owners are {owners}")
        of_package(path, "--raw-extract", f"{room}/all")
        wanted = {f"usr/{it}.gz" if it in COMPRESSED else f"usr/{it}" for it in (PLACES | ADDED) - {"share/zsh/site-functions/_srtgw"}}
        wanted |= {"usr/share/zsh/vendor-completions/_srtgw", *(f"DEBIAN/{it}" for it in ("control", "md5sums", *SCRIPTS))}
        expect(files_below(f"{room}/all") == wanted, f"it has {files_below(room + '/all') ^ wanted} too much or too little")
        for place in wanted:
            mode = stat.S_IMODE(os.stat(f"{room}/all/{place}").st_mode)
            is_program = place.removeprefix("usr/") in EXECUTABLE or place.removeprefix("DEBIAN/") in SCRIPTS
            expect(mode == (0o755 if is_program else 0o644), f"{place} has the mode {mode:o}")
        sums = subprocess.run(["md5sum", "--check", "--quiet", "DEBIAN/md5sums"], cwd=f"{room}/all", capture_output=True, text=True)
        expect(sums.returncode == 0, f"the sums: {sums.stderr}")
        expect(len(read(f"{room}/all/DEBIAN/md5sums").splitlines()) == len(wanted) - 2 - len(SCRIPTS), "a file has no sum")
        unit = read(f"{room}/all/usr/lib/systemd/system/srtgw.service")
        expect("/usr/libexec/srtgw/srtgw run /etc/srtgw/gateway.toml" in unit and "User=srtgw" in unit, f"the unit is {unit}")


@case("bin/package refuses what it can't package, and leaves nothing", needs=["dpkg-deb"])
def refuses():
    with tempfile.TemporaryDirectory(prefix="srtgw-package-") as room:
        known = ("--maintainer", "Ada <ada@debian.org>")
        unbuilt = packaged(*known, program=f"{room}/nowhere", room=room, SOURCE_DATE_EPOCH=OTHER_EPOCH)
        expect_refused(unbuilt, 1, f"package: {room}/nowhere isn't built; bin/build builds it")
        # A folder that is no repository's: git has no commit of it, whether or not it has one of this tree.
        without = {"GIT_DIR": f"{room}/nowhere", "SOURCE_DATE_EPOCH": ""}
        expect_refused(packaged(*known, room=room, **without), 1, "git has no commit of this tree: set SOURCE_DATE_EPOCH")
        expect_refused(packaged(room=room, **{**without, "SOURCE_DATE_EPOCH": OTHER_EPOCH}), 1, "git has no commit of this tree: --maintainer")
        expect_refused(packaged(room=room, SOURCE_DATE_EPOCH="today"), 1, "SOURCE_DATE_EPOCH")
        for words in (["--hurry"], ["--revision", "0"], ["--maintainer", "Ada"], ["--output", f"{room}/nowhere"], ["word"]):
            expect_refused(packaged(*words, room=room), 2, "bin/package --help")
        expect(os.listdir(room) == [], f"it left {os.listdir(room)}")


# ---- the scripts of the package, in a folder that stands for the machine ----


class Machine:
    """A folder with the package's files, in which its scripts run: their places are below it, and what would change the machine is
    only written down."""

    def __init__(self, room):
        self.room = room
        of_package(the_package(), "--raw-extract", f"{room}/unpacked")
        self.configuration = f"{room}/unpacked/etc/srtgw/gateway.toml"
        os.makedirs(f"{room}/bin")
        for name in (*CALLED, "runuser", "getent"):
            said = f'echo "{name} $*" >>{room}/called' if name in CALLED else ":"
            rest = 'shift 3; exec "$@"' if name == "runuser" else ""
            write(f"{room}/bin/{name}", f"#!/bin/sh\n{said}\n{rest}\n")
            os.chmod(f"{room}/bin/{name}", 0o755)

    def run(self, script, *words):
        """Runs a script of the package. Returns its status, and what it says."""
        text = read(f"{self.room}/unpacked/DEBIAN/{script}").replace("/usr/bin/srtgw", PROGRAM)
        text = re.sub(r"/(etc|usr/share)/srtgw", rf"{self.room}/unpacked/\1/srtgw", text)
        for place in ("/run/systemd", "/usr/local"):
            text = text.replace(place, self.room + place)
        write(f"{self.room}/{script}", text)
        env = {**os.environ, "PATH": f"{self.room}/bin:{os.environ['PATH']}"}
        it = subprocess.run(["sh", "-u", f"{self.room}/{script}", *words], capture_output=True, text=True, env=env)
        return it.returncode, it.stdout + it.stderr

    def called(self):
        """What was called since the last time that this was asked."""
        path = f"{self.room}/called"
        lines = read(path).splitlines() if os.path.exists(path) else []
        write(path, "")
        return lines


@case("the package makes a user and a configuration that starts, with a secret of its own", needs=["dpkg-deb"])
def configures():
    secrets = set()
    for _ in range(2):
        with tempfile.TemporaryDirectory(prefix="srtgw-package-") as room:
            machine = Machine(room)
            status, said = machine.run("postinst", "configure", "")
            expect(status == 0 and "the service isn't started" in said and "systemctl enable --now srtgw" in said, f"{status}, {said}")
            called = machine.called()
            expect(any(it.startswith("adduser --system --group") and it.endswith(" srtgw") for it in called), f"it called {called}")
            expect(not any(re.search(r"\b(re)?start\b", it) for it in called), f"it called {called}")
            expect(stat.S_IMODE(os.stat(machine.configuration).st_mode) == 0o640, "the configuration can be read by others")
            text = read(machine.configuration)
            secrets.add(re.search(r'(?m)^secret = "([0-9a-f]{64})"$', text)[1])
            expect("public" not in text, f"it begins {text[:600]}")
            it = subprocess.run([PROGRAM, "check", machine.configuration, "--explain"], capture_output=True, text=True)
            expect(it.returncode == 0 and "secret" not in it.stderr, f"check says {it.stderr}")
            others = [it for it in read(f"{TOP}/examples/gateway.toml").splitlines() if it and not it.startswith(("#", "secret"))]
            expect([it for it in text.splitlines() if it and not it.startswith(("#", "secret"))] == others, "it isn't the example")
    expect(len(secrets) == 2, "the secret is the same in two installations")


@case("an upgrade leaves the configuration and the service alone, and says what is wrong", needs=["dpkg-deb"])
def upgrades():
    with tempfile.TemporaryDirectory(prefix="srtgw-package-") as room:
        machine = Machine(room)
        machine.run("postinst", "configure", "")
        text = read(machine.configuration)
        os.makedirs(f"{room}/run/systemd/system")
        for words in (("prerm", "upgrade", "9"), ("postrm", "upgrade", "9"), ("postinst", "configure", "0.1-1")):
            status, said = machine.run(*words)
            expect(status == 0, f"{words}: {said}")
        expect("systemctl restart srtgw" in said, f"it said {said}")
        expect(read(machine.configuration) == text, "the configuration changed")
        expect(not any(re.search(r"(invoke|systemctl) .*(stop|start)", it) for it in machine.called()), "the service is stopped or started")
        write(machine.configuration, re.sub("(?m)^sessions = .*", "sessions = 40", text))
        status, said = machine.run("postinst", "configure", "0.1-1")
        expect(status == 0 and "sessions = 40: allowed are 1 to 17" in said and "the service won't start before" in said, f"{status}, {said}")
        expect("sessions = 40" in read(machine.configuration), "the configuration changed")
        os.remove(machine.configuration)
        os.makedirs(f"{room}/usr/local/lib/systemd/system/srtgw.service")
        status, said = machine.run("postinst", "configure", "0.1-1")
        expect("hides the unit of this package" in said, f"it doesn't say that another unit is read: {said}")
        expect(status == 0 and not os.path.exists(machine.configuration), f"it makes what the operator removed: {said}")


@case("a removed package stops the service, and a purged one leaves nothing", needs=["dpkg-deb"])
def removes():
    with tempfile.TemporaryDirectory(prefix="srtgw-package-") as room:
        machine = Machine(room)
        machine.run("postinst", "configure", "")
        os.makedirs(f"{room}/run/systemd/system")
        machine.called()
        expect(machine.run("prerm", "remove") == (0, "") and "deb-systemd-invoke stop srtgw.service" in machine.called(), "the service isn't stopped")
        expect(machine.run("postrm", "remove") == (0, "") and os.path.exists(machine.configuration), "the configuration is removed without a purge")
        expect("deluser" not in " ".join(machine.called()), "the user is removed without a purge")
        expect(machine.run("postrm", "purge") == (0, ""), "it isn't purged")
        expect(not os.path.exists(os.path.dirname(machine.configuration)), "the configuration is left")
        called = machine.called()
        expect("deluser --system --quiet srtgw" in called and "deb-systemd-helper purge srtgw.service" in called, f"it called {called}")
        expect(machine.run("postrm", "purge") == (0, ""), "it can't be purged twice")


@case("lintian finds nothing in the package", needs=["dpkg-deb", "lintian"])
def is_clean():
    it = subprocess.run(["lintian", "--fail-on", "error,warning", the_package()], capture_output=True, text=True)
    expect(it.returncode == 0, f"lintian says {it.stdout}")


@case("systemd takes the unit", needs=["systemd-analyze"])
def unit_is_right():
    with tempfile.TemporaryDirectory(prefix="srtgw-package-") as room:
        write(f"{room}/srtgw.service", read(f"{OPERATE}/srtgw.service").replace("/opt/srtgw/srtgw", PROGRAM))
        it = subprocess.run(["systemd-analyze", "verify", "--man=no", f"{room}/srtgw.service"], capture_output=True, text=True)
        expect("srtgw.service" not in it.stderr, f"it says {it.stderr}")
        if it.returncode:
            raise Skipped(f"this systemd-analyze looks at no unit by itself: {it.stderr.strip()}")

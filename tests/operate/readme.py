"""The three commands of README, as they stand there: gateway, encoder and player; ffmpeg's sink is in place of the window."""
import os
import re
import shutil
import signal
import socket
import subprocess
import time

import tools
from cases import case
from expecting import expect
from running import Skipped, launcher
from tree import TOP, read

FIRST = "    bin/srtgw run examples/gateway.toml &\n"
MINUTE = 60.0
FRAMES = 25


def commands():
    """The commands of README's block, without the sign that sends a command to the background."""
    blocks = re.findall(r"(?m)((?:^    .+\n)+)", read(f"{TOP}/README.md"))
    found = [it for it in blocks if it.startswith(FIRST)]
    expect(len(found) == 1, f"README has {len(found)} blocks that begin with {FIRST.strip()!r}")
    lines = [it.strip().removesuffix("&").strip() for it in found[0].splitlines()]
    expect(len(lines) == 3 and lines[1].startswith("ffmpeg ") and lines[2].startswith("ffplay "), f"README's commands are {lines}")
    return lines


def can_bind(port):
    with socket.socket(socket.AF_INET, socket.SOCK_DGRAM) as probe:
        try:
            probe.bind(("0.0.0.0", port))
        except OSError:
            return False
    return True


def tree_of_commands():
    """A tree with what the commands name."""
    room = os.path.dirname(os.path.dirname(launcher()))
    os.makedirs(f"{room}/examples", exist_ok=True)
    shutil.copy(f"{TOP}/examples/gateway.toml", f"{room}/examples/gateway.toml")
    return room


def started(words, room, name):
    with open(f"{room}/{name}", "wb") as errors:
        return subprocess.Popen(["bash", "-c", f"exec {words}"], cwd=room, stdin=subprocess.DEVNULL, stdout=errors, stderr=errors)


def expect_text(path, text):
    until = time.monotonic() + MINUTE
    while time.monotonic() < until and text not in read(path):
        time.sleep(0.05)
    expect(text in read(path), f"no {text!r} within a minute: {read(path)!r}")


@case("the three commands of README show a picture", needs=[tools.FFMPEG])
def readme_commands():
    gateway, encoder, player = commands()
    if not can_bind(9000):
        raise Skipped("port 9000 is taken")
    room = tree_of_commands()
    processes = [started(gateway, room, "gateway.log")]
    try:
        expect_text(f"{room}/gateway.log", "serving at 0.0.0.0:9000")
        processes.append(started(encoder, room, "encoder.log"))
        sink = f"ffmpeg -i {player.removeprefix('ffplay ')} -t 3 -f null -"
        processes.append(started(sink, room, "player.log"))
        status = processes[2].wait(MINUTE)
        shown = [int(it) for it in re.findall(r"frame= *(\d+)", read(f"{room}/player.log"))]
        expect(status == 0 and shown and shown[-1] >= FRAMES, f"status {status}, frames {shown}")
        processes[0].send_signal(signal.SIGTERM)
        expect(processes[0].wait(10) == 0, f"the gateway ended so: {read(f'{room}/gateway.log')!r}")
    finally:
        for process in processes:
            process.kill()
            process.wait()

"""Proves and builds a program of this folder in a copy of the repository's crates, and runs it."""
import os
import re
import shutil
import subprocess
import sys
import tempfile

# What a program does less of where its instructions are counted.
FEW = (("PACKETS", 20_000), ("NAKS", 1))
TOP = os.path.dirname(os.path.dirname(os.path.realpath(__file__)))
sys.path.insert(0, f"{TOP}/tests/lib")

import tree


def built(room, name, program, needs, answers=None, modules=()):
    """The program's path, after it was proved and built in this empty folder; `answers` gives the file of each function that has
    proof answers, and `modules` the files of its modules."""
    tree.make_room(room, needs, [*tree.SOURCES, "out"], f"{name}: {' '.join(needs)}\n")
    os.makedirs(f"{room}/crates/{name}/src")
    shutil.copyfile(program, f"{room}/crates/{name}/src/main.rt")
    for path in modules:
        module = os.path.basename(path).split(".")[0]
        shutil.copyfile(path, f"{room}/crates/{name}/src/{module}.rt")
    for function, path in (answers or {}).items():
        os.makedirs(f"{room}/crates/{name}/proofs/{function}")
        shutil.copyfile(path, f"{room}/crates/{name}/proofs/{function}/Answers.antt")
    crate = f"{room}/crates/{name}"
    ran = subprocess.run(["rt", "run"], cwd=crate, stdout=subprocess.PIPE, stderr=subprocess.STDOUT, text=True)
    if not os.path.isfile(f"{crate}/out/{name}"):
        sys.exit(ran.stdout[-3000:])
    return f"{crate}/out/{name}"


def least(program, count=7):
    """The least of several runs for each line of the program's output: its words, and then the nanoseconds."""
    took = {}
    for _ in range(count):
        said = subprocess.run([program], check=True, stdout=subprocess.PIPE, text=True).stdout
        for line in said.splitlines():
            *words, nanoseconds, _ = line.split()
            key = tuple(words)
            took[key] = min(took.get(key, float("inf")), int(nanoseconds))
    return took


def compare(title, program, needs):
    """Prints how long each stream takes at each width, and how many times as long as at 32 places."""
    with tempfile.TemporaryDirectory(prefix="srtgw-bench-") as room:
        took = least(built(room, "bench", program, needs))
    print(f"{title}:")
    for (stream, width), nanoseconds in took.items():
        print(f"  {stream:<14} {width:>5} places {nanoseconds:7} ns  {nanoseconds / took[stream, '32']:6.2f} times that at 32")


def changed(text, changes):
    """The text of a program with these changes, each of a part that stands there once."""
    for old, new in changes:
        if text.count(old) != 1:
            sys.exit(f"{old!r} doesn't stand there once")
        text = text.replace(old, new)
    return text


def instructions(title, program, needs, changes=()):
    """Prints how many instructions a packet takes, over all streams of the program at once, with these changes of its text. They hardly
    depend on what else the machine does. Wants valgrind."""
    few = [(found[0], f"{found[1]} = {count};") for name, count in FEW if (found := re.search(rf"(const {name}: u32) = [0-9_]+;", tree.read(program)))]
    with tempfile.TemporaryDirectory(prefix="srtgw-bench-") as room:
        tree.write(f"{room}/program", changed(tree.read(program), [*few, *changes]))
        os.mkdir(f"{room}/top")
        path = built(f"{room}/top", "bench", f"{room}/program", needs)
        words = ["valgrind", "--tool=callgrind", f"--callgrind-out-file={room}/callgrind", path]
        ran = subprocess.run(words, check=True, stdout=subprocess.PIPE, stderr=subprocess.PIPE, text=True)
    total = int(re.search(r"Collected : (\d+)", ran.stderr)[1])
    streams = sum(not it.startswith("first-and-last") for it in ran.stdout.splitlines())
    print(f"{title}: {total / dict(FEW)['PACKETS'] / streams:.1f} instructions a packet")

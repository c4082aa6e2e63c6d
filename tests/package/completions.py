"""What the shells offer, compared with --help."""
import re
import shlex
import subprocess

from cases import case
from documents import OPERATE
from expecting import expect
from installing import commands, options

# What each shell is told to print for the last of the words "$@", a line each, and what of a line is offered.
BASH = 'source "$0"; COMP_WORDS=("$@"); COMP_CWORD=$(($# - 1)); _srtgw; printf "%s\\n" "${COMPREPLY[@]}"'
# The functions of zsh's completion print what they are given: `command` for what _describe has, all words for _arguments.
ZSH = ('_describe() { print -rl -- "${(@)${(P)@[-1]}%%:*}" }; _arguments() { print -rl -- "$@" }; '
       'words=("$@"); CURRENT=$#; source "$0"')


def lines_of(*words):
    it = subprocess.run(words, cwd=OPERATE, capture_output=True, text=True)
    expect(it.returncode == 0 and not it.stderr, f"{words[0]} says {it.stderr!r}")
    return sorted(filter(None, it.stdout.splitlines()))


def by_bash(*words):
    return lines_of("bash", "-c", BASH, f"{OPERATE}/srtgw.bash", *words)


def by_fish(*words):
    line = " ".join(map(shlex.quote, words[:-1])) + f" {words[-1]}"
    return [it.split("\t")[0] for it in lines_of("fish", "--no-config", "-c", f"source {OPERATE}/srtgw.fish; complete -C {shlex.quote(line)}")]


def by_zsh(*words):
    """The names of commands and of options that begin as the last word does."""
    found = [it.partition("[")[0] for it in lines_of("zsh", "-f", "-c", ZSH, f"{OPERATE}/srtgw.zsh", *words)]
    return sorted(it for it in found if re.fullmatch(r"-*[a-z][\w-]*", it) and it.startswith(words[-1]))


def expect_offered(shell):
    """Expects a shell to offer just the commands and options that --help names."""
    every = commands()
    expect([it for it in shell("srtgw", "") if not it.startswith("-")] == sorted(every), f"{shell('srtgw', '')}, and there are {every}")
    expect(shell("srtgw", "-") == sorted(["--help", *options()]), f"the options without a command: {shell('srtgw', '-')}")
    expect(shell("srtgw", "help", "") == sorted(set(every) - {"help"}), f"after help: {shell('srtgw', 'help', '')}")
    for command in sorted(set(every) - {"help"}):
        offered, wanted = shell("srtgw", command, "-"), sorted([*options(command), "--help"])
        expect(offered == wanted, f"{command}: it offers {offered}, and --help names {wanted}")


@case("the completion of bash offers what --help names")
def of_bash():
    expect_offered(by_bash)
    for command in set(commands()) - {"help"}:
        expect("srtgw.bash" in by_bash("srtgw", command, "srtgw."), f"{command}: it offers no file")
    expect(by_bash("srtgw", "run", "--n") == ["--no-time"], "it doesn't look at what is typed")
    for duration in by_bash("srtgw", "run", "--for", ""):
        expect(re.fullmatch(r"(\d+[smhd])+", duration), f"it offers {duration}")


@case("the completion of fish offers what --help names", needs=["fish"])
def of_fish():
    expect_offered(by_fish)
    for command in set(commands()) - {"help"}:
        expect("srtgw.bash" in by_fish("srtgw", command, "srtgw."), f"{command}: it offers no file")
    expect("srtgw.bash" in by_fish("srtgw", "explain", "--output", "srtgw."), "it offers no file after --output")
    expect(by_fish("srtgw", "run", "--for", "1") == ["10m"], "the durations")


@case("the completion of zsh offers what --help names", needs=["zsh"])
def of_zsh():
    expect_offered(by_zsh)
    for command in set(commands()) - {"help"}:
        said = lines_of("zsh", "-f", "-c", ZSH, f"{OPERATE}/srtgw.zsh", "srtgw", command, "")
        expect(any(it.endswith(":_files") for it in said), f"{command}: it offers no file")

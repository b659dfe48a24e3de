#!/usr/bin/env python3
"""The processor time of a run of the gate, crate by crate.

Starts `rt ci` at the top of the repository with the words that it is given, and samples the processes below it from
/proc twice a second: of each command that rt starts, its own time and that of all that it started, those that have ended
included. So nothing is lost but what a command takes behind its last sample, and commands that are over between two; the
line `rt itself, and unseen` has these, as the kernel counts the time of the whole run. What an earlier run passed on
this machine isn't proved again, so it isn't measured again either; --anew proves all.

usage: bench/gate.py [--anew] [CRATE..]     prints minutes for each crate, sorted by cost, once rt ci has ended
"""
import os
import pathlib
import re
import resource
import subprocess
import sys
import time

TOP = pathlib.Path(__file__).resolve().parent.parent
SECONDS_BETWEEN = 0.5
TICKS = os.sysconf("SC_CLK_TCK")
KINDS = ["proof", "tests", "edits", "build", "run"]
OTHER = "-"


def read(path):
    try:
        return pathlib.Path(path).read_bytes().decode(errors="replace")
    except OSError:
        return ""


def link_of(path):
    try:
        return os.readlink(path)
    except OSError:
        return ""


class Process:
    """A running process: its time with that of its children that have ended, in seconds, and who started it."""

    def __init__(self, number, stat):
        fields = stat[stat.rindex(")") + 2:].split()
        self.number, self.parent, self.begun = number, int(fields[1]), fields[19]
        self.seconds = sum(map(int, fields[11:15])) / TICKS


def processes():
    stats = ((int(name), read(f"/proc/{name}/stat")) for name in os.listdir("/proc") if name.isdigit())
    return [Process(number, stat) for number, stat in stats if ")" in stat]


def work_of(number):
    """The crate that a command of rt works on and what it does there, by its words and its folder, once they tell it."""
    words, folder = read(f"/proc/{number}/cmdline").split("\0"), link_of(f"/proc/{number}/cwd")
    tool = os.path.basename(words[0])
    if any("/rt-run-" in word for word in words):
        program = next((word for word in words if "/rt-run-" in word), "")
        name = os.path.basename(program)
        is_test = any(word.endswith("/rattle-test") for word in words)
        return (name.removesuffix("_tests") if is_test else name), "run"
    inside = re.search(r"/crates/(\w+)", folder)
    if tool == "rattle" and "--crate-name" in words[:-1]:
        return words[words.index("--crate-name") + 1], kind_of(words, folder)
    if tool in ("rattle-link", "clang") and inside:
        return inside[1], "build"
    return None


def kind_of(words, folder):
    if "/rt-edit-" in f"{folder}/":
        return "edits"
    if "--test" in words:
        return "tests"
    return "build" if "--crate-checked" in words else "proof"


class Commands:
    """The commands that rt started, by number and beginning: what each works on, and its time when it was last seen."""

    def __init__(self):
        self.works, self.seconds = {}, {}

    def sample(self, rt):
        below = {}
        for process in processes():
            below.setdefault(process.parent, []).append(process)

        def total(process):
            return process.seconds + sum(map(total, below.get(process.number, [])))

        for command in below.get(rt, []):
            key = command.number, command.begun
            self.seconds[key] = max(total(command), self.seconds.get(key, 0))
            self.works[key] = work_of(command.number) or self.works.get(key, (OTHER, OTHER))

    def sums(self):
        """The seconds of each crate and kind."""
        found = {}
        for key, seconds in self.seconds.items():
            found[self.works[key]] = found.get(self.works[key], 0) + seconds
        return found


def lines_of(crate):
    files = [file for part in ("src", "specs", "proofs") for file in (TOP / "crates" / crate / part).rglob("*")]
    return sum(file.read_bytes().count(b"\n") for file in files if file.suffix in (".rt", ".antt"))


def row(name, lines, minutes):
    whole = sum(minutes)
    for_each = f"{whole / lines * 1000:9.2f}" if lines else " " * 9
    return f"{name:26}{lines or '':>7}" + "".join(f"{it:8.2f}" for it in [*minutes, whole]) + for_each


def table(sums, spent):
    """Minutes by crate and kind, the most costly crate first, and what of the whole run no sample saw."""
    crates = {crate for crate, _ in sums if crate != OTHER}
    minutes = {crate: [sums.get((crate, kind), 0) / 60 for kind in KINDS] for crate in crates}
    lines = {crate: lines_of(crate) for crate in crates}
    head = f"{'minutes of a processor':26}{'lines':>7}" + "".join(f"{it:>8}" for it in [*KINDS, "all"]) + f"{'/ 1,000':>9}"
    rows = [row(crate, lines[crate], minutes[crate]) for crate in sorted(crates, key=lambda it: -sum(minutes[it]))]
    seen = [sum(it) for it in zip(*minutes.values())] or [0] * len(KINDS)
    unseen = spent / 60 - sum(seen)
    return "\n".join([head, *rows, row("all crates", sum(lines.values()), seen), f"rt itself, and unseen: {unseen:.2f}, of {spent / 60:.2f}"])


def main():
    commands, status = Commands(), 130
    rt = subprocess.Popen(["rt", "ci", *sys.argv[1:]], cwd=TOP)
    try:
        while rt.poll() is None:
            commands.sample(rt.pid)
            time.sleep(SECONDS_BETWEEN)
        status = rt.returncode
    except KeyboardInterrupt:
        rt.wait()
    usage = resource.getrusage(resource.RUSAGE_CHILDREN)
    print(table(commands.sums(), usage.ru_utime + usage.ru_stime))
    sys.exit(status)


main()

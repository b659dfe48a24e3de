#!/usr/bin/env python3
"""Runs the commands of docs/tour.md, each in the order of the page, and compares what they print with what the page shows.

They run in a scratch folder that has the examples and the program, so the repository stays as it is.

usage: bench/tour.py [PROGRAM]     PROGRAM is run as ./cx; without it the repository's own ./cx is, which builds it first
"""
import pathlib
import subprocess
import sys
import tempfile

TOP = pathlib.Path(__file__).resolve().parent.parent
PAGE = TOP / "docs" / "tour.md"
FENCE = "```"


class Step:
    """A command of the page, and the lines that it prints there."""

    def __init__(self, command):
        self.command, self.lines = command, []


def steps_of(page):
    steps, is_inside = [], False
    for line in page.splitlines():
        if line.startswith(FENCE):
            is_inside = line == FENCE + "console"
        elif is_inside and line.startswith("$ "):
            steps.append(Step(line[2:]))
        elif is_inside:
            steps[-1].lines.append(line)
    return steps


def printed_by(command, folder):
    ran = subprocess.run(
        ["sh", "-c", command], cwd=folder, stdout=subprocess.PIPE, stderr=subprocess.STDOUT, text=True, errors="replace"
    )
    return ran.stdout.splitlines()


def differences(steps, folder):
    for step in steps:
        printed = printed_by(step.command, folder)
        if printed != step.lines:
            yield "\n".join([f"$ {step.command}", "the page:", *step.lines, "printed:", *printed])


def main(words):
    program = pathlib.Path(words[0]).resolve() if words else TOP / "cx"
    steps = steps_of(PAGE.read_text(encoding="utf-8"))
    with tempfile.TemporaryDirectory() as folder:
        (pathlib.Path(folder) / "examples").symlink_to(TOP / "examples")
        (pathlib.Path(folder) / "cx").symlink_to(program)
        found = list(differences(steps, folder))
    print(*found, f"{len(steps) - len(found)} of {len(steps)} commands print what the page shows", sep="\n")
    return 1 if found else 0


if __name__ == "__main__":
    sys.exit(main(sys.argv[1:]))

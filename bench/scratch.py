"""Scratch repositories for the programs that are measured: some crates of this one, with all that they stand on."""
import contextlib
import pathlib
import resource
import shutil
import subprocess
import sys
import tempfile

TOP = pathlib.Path(__file__).resolve().parent.parent


@contextlib.contextmanager
def folder_given():
    """The folder that the command line names, which is kept, or a temporary one."""
    kept = len(sys.argv) > 1
    folder = pathlib.Path(sys.argv[1] if kept else tempfile.mkdtemp()).resolve()
    folder.mkdir(parents=True, exist_ok=True)
    try:
        yield folder
    finally:
        if not kept:
            shutil.rmtree(folder)


def crates_with(crate):
    """The lines of crates.txt of a crate and of the crates of this repository below it, in their order there."""
    lines = [line for line in (TOP / "crates.txt").read_text().splitlines() if line and not line.startswith("#")]
    below = {line.split(":")[0]: line.split(":")[1].split() for line in lines}
    wanted, left = set(), [crate]
    while left:
        name = left.pop()
        if name in below and name not in wanted:
            wanted.add(name)
            left += below[name]
    return [line for line in lines if line.split(":")[0] in wanted]


def copy_crates(folder, crate, *ignored):
    """Copies a crate and those below it into a scratch repository, and gives their lines of crates.txt."""
    lines = crates_with(crate)
    for line in lines:
        name = line.split(":")[0]
        if not (folder / "crates" / name).exists():
            shutil.copytree(TOP / "crates" / name, folder / "crates" / name, ignore=shutil.ignore_patterns("out", *ignored))
    return lines


def built(folder, lines, crate, *words):
    """The program of a crate of a scratch repository with these lines of crates.txt; it is proved, built, and run once
    with the words, unless an earlier run has left it there."""
    (folder / "crates.txt").write_text("\n".join(lines) + "\n")
    place = folder / "crates" / crate
    program = place / "out" / crate
    if not program.exists():
        subprocess.run(["rt", "all", "check"], cwd=folder, check=True, stdout=subprocess.DEVNULL)
        run = ["rt", "run"] + (["--", *words] if words else [])
        subprocess.run(run, cwd=place, check=True, stdin=subprocess.DEVNULL, stdout=subprocess.DEVNULL)
    return program


def text_of(lines, size):
    """At least so many bytes of a text that repeats the lines, numbered from 0."""
    parts, length, number = [], 0, 0
    while length < size:
        part = "".join(line.format(number) for line in lines)
        parts.append(part)
        length += len(part)
        number += 1
    return "".join(parts).encode()


def user_time(run):
    """What a call gives, and the user time of the processes that it ran."""
    before = resource.getrusage(resource.RUSAGE_CHILDREN).ru_utime
    done = run()
    return done, resource.getrusage(resource.RUSAGE_CHILDREN).ru_utime - before

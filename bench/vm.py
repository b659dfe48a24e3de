#!/usr/bin/env python3
"""The machine's time on hand-made images, as ratios of one run.

Makes a small program over cx_machine that runs one of six images, in a scratch repository, with the proofs that the
images are valid, and times it against bench/vm.c, a switch interpreter of the same codes in C, with numbers of 64
bits and of 128, and against Lua on a loop that does the same. Each is run long and short, in turn, and the time is
the difference of the least user times of five rounds, so that neither starting nor loading counts. Needs rt and cc,
and lua5.4 for the last column (`apt-get install -y lua5.4`). It builds once, which takes some minutes.

usage: bench/vm.py [FOLDER]     FOLDER keeps the build, of the crates as they are then, for the next run
"""
import re
import shutil
import subprocess
import sys

from scratch import TOP, built, copy_crates, folder_given, user_time

ROUNDS = 5
SHORT = 10  # the short run has so many times fewer steps

MAIN = """//! Runs one of the measured images.
#![tactic(auto)]

MACROS
mod images;
mod programs;

use cx_code::BlockMap;
use cx_image::Valid;
use cx_machine::run;
use cx_outside::{NoMemory, StdSink, StdSource};
use std::alloc::Global;
use std::env;
use std::io::{self, BufReader};

fn image_named(alloc: Global, name: &str) -> Result<Valid, NoMemory> {
    match name {
ARMS
        _ => programs::LAST(alloc),
    }
}

fn ran(rt: &HostRuntime, name: &str, limit: u32) -> io::Result<()> {
    let alloc = rt.alloc();
    let Ok(image) = image_named(alloc, name) else {
        return println!(rt; "no memory");
    };
    let mut memory = BlockMap::new(alloc);
    let mut input = StdSource::new(BufReader::new(alloc, rt.reader())?);
    let mut out = StdSink::new(rt.stdout());
    let mut err = StdSink::new(rt.stderr());
    let run = run(alloc, &image, &mut memory, &mut input, &mut out, &mut err, limit);
    let (ending, steps, events) = (run.ending, run.steps, run.journal.items().len());
    println!(rt; "{ending:?} after {steps} steps, {events} events")
}

fn main(rt: HostRuntime) -> io::Result<()> {
    let alloc = rt.alloc();
    let mut words = Vec::new(alloc);
    for word in env::args(&rt)?.skip(1) {
        words.push(word)?;
    }
    if words.len() < 2 {
        return println!(rt; "usage");
    }
    match words[1].parse::<u32>() {
        Ok(limit) => ran(&rt, &words[0], limit),
        Err(_) => println!(rt; "usage"),
    }
}
"""

NOTHING = (0, 0, "false", "39 0 0", "")


class Case:
    """A measured image: the code of main, its regions, the function beside it, its steps, and the same in Lua."""

    def __init__(self, name, steps, code, lua, regions="", beside=NOTHING, input_size=0):
        self.name, self.steps, self.code, self.lua = name, steps, code, lua
        self.regions, self.beside, self.input_size = regions, beside, input_size


# Each but the last counts its turns: in an object, and from then on in a slot. The last one reads till the end.
CASES = [
    Case("counting", 120_000_000,
         "9 1 0, 7 0 0, 1 0 0, 12 0 0, 7 0 0, 11 0 0, 1 0 10000000, 30 0 0, 36 16 0, 7 0 0, 7 0 0, 11 0 0, 1 0 1, "
         "18 3 0, 12 0 0, 35 4 0, 7 0 0, 11 0 0, 39 0 0",
         "local k = 0 while k < n do k = k + 1 end"),
    Case("calls", 60_000_000,
         "1 0 0, 8 0 0, 7 0 0, 1 0 5000000, 30 0 0, 36 10 0, 7 0 0, 38 2 1, 8 0 0, 35 2 0, 7 0 0, 39 0 0",
         "local function f(x) return x + 1 end local k = 0 while k < n do k = f(k) end",
         beside=(1, 1, "true", "7 0 0, 1 0 1, 18 3 0, 39 0 0", "")),
    Case("throws", 19_000_000,
         "1 0 0, 8 0 0, 7 0 0, 1 0 500000, 30 0 0, 36 15 0, 1 0 2, 38 2 1, 35 2 0, 52 0 0, 7 0 0, 1 0 1, 18 3 0, "
         "8 0 0, 35 2 0, 7 0 0, 39 0 0",
         "local function f(x) if x == 0 then error({}) end f(x - 1) end "
         "local k = 0 while k < n do pcall(f, 2) k = k + 1 end",
         regions="7 8 2 0 9 0",
         beside=(1, 2, "false", "7 0 0, 36 7 0, 7 0 0, 1 0 1, 19 3 0, 38 2 1, 39 0 0, 9 1 1, 7 1 0, 49 0 0", "")),
    Case("objects", 32_000_000,
         "1 0 0, 8 0 0, 7 0 0, 1 0 2000000, 30 0 0, 36 18 0, 9 2 1, 7 1 0, 7 0 0, 12 0 0, 7 1 0, 11 0 0, 1 0 1, "
         "18 3 0, 8 0 0, 7 1 0, 10 0 0, 35 2 0, 7 0 0, 39 0 0",
         "local k = 0 while k < n do local t = {k} k = t[1] + 1 end"),
    Case("output", 36_000_000,
         "1 0 0, 8 0 0, 7 0 0, 1 0 3000000, 30 0 0, 36 14 0, 1 0 65, 41 0 0, 5 0 0, 7 0 0, 1 0 1, 18 3 0, 8 0 0, "
         "35 2 0, 7 0 0, 39 0 0",
         "local k = 0 while k < n do io.write('A') k = k + 1 end"),
    Case("input", 35_000_000,
         "42 0 0, 4 0 0, 1 4294967295 4294967295, 28 0 0, 37 7 0, 5 0 0, 35 0 0, 1 0 0, 39 0 0",
         "for k = 1, n do io.read(1) end",
         input_size=5_000_000),
]


def programs():
    """The images as functions of the scratch program, by the macros of cx_machine_tests."""
    text = (TOP / "crates/cx_machine_tests/src/programs.rt").read_text()
    head = text[:text.index("/// Counts to 100")]
    parts = [head[:head.index("/// `main` with these, beside")] + head[head.index("/// `main` with these, and function 2"):]]
    for case in CASES:
        parameters, slots, result, code, regions = case.beside
        parts.append(f"""pub fn {case.name}(alloc: Global) -> Result<Valid, NoMemory> {{
    beside!(alloc, code![{case.code}], regions![{case.regions}], {parameters}, {slots}, {result}, code![{code}], regions![{regions}], 0, 2)
}}
""")
    return "\n".join(parts)


def main_file():
    tests = (TOP / "crates/cx_machine_tests/src/lib.rt").read_text()
    macros = tests[tests.index("/// Instructions"):tests.index("#[cfg(test)]")]
    arms = "\n".join(f'        "{case.name}" => programs::{case.name}(alloc),' for case in CASES[:-1])
    return MAIN.replace("MACROS", macros).replace("ARMS", arms).replace("LAST", CASES[-1].name)


def image_text(case):
    """The image for bench/vm.c: main, the droppers, the globals, and the functions."""
    def listed(text):
        rows = [row.split() for row in text.split(",") if row.strip()]
        return " ".join([str(len(rows))] + [word for row in rows for word in row])
    parameters, slots, result, code, regions = case.beside
    dropper = "1 1 1 0 " + listed("7 0 0, 54 0 0, 7 0 0, 10 0 0, 39 0 0") + " 0"
    main = "1 0 3 1 " + listed(case.code) + " " + listed(case.regions)
    last = f"1 {parameters} {slots} {int(result == 'true')} {listed(code)} {listed(regions)}"
    return f"0\n2 2 2\n2 7 0\n3\n{main}\n{dropper}\n{last}\n"


def build(folder):
    """The scratch program: cx_machine_tests with a `main` in the place of its tests, and without its worked rows."""
    lines = copy_crates(folder, "cx_machine_tests", "must-fail", "rows", "rows.antt")
    scratch = folder / "crates" / "cx_machine_tests"
    for name in ("lib.rt", "tests.rt"):
        (scratch / "src" / name).unlink(missing_ok=True)
    lemmas = scratch / "proofs" / "Lib.antt"
    lemmas.write_text(lemmas.read_text().replace("mod rows\n", ""))
    (scratch / "src" / "main.rt").write_text(main_file())
    (scratch / "src" / "programs.rt").write_text(programs())
    return built(folder, lines, "cx_machine_tests", "none")


def build_c(folder, name, number):
    target = folder / name
    subprocess.run(["cc", "-O2", f"-DNUMBER={number}", "-o", str(target), str(TOP / "bench" / "vm.c")], check=True)
    return target


def seconds(command, bytes_in, said):
    """The user time of a run, whose last line must say so much."""
    with open(bytes_in, "rb") as stdin:
        done, taken = user_time(lambda: subprocess.run(command, stdin=stdin, capture_output=True, check=True))
    last = done.stdout[-100:].decode(errors="replace").splitlines()[-1] if said else ""
    if said and not re.search(said, last):
        sys.exit(f"{' '.join(map(str, command))} says {last}")
    return taken


def measured(folder, case, machine, c64, c128):
    image, bytes_in = folder / f"{case.name}.image", folder / f"{case.name}.bytes"
    image.write_text(image_text(case))
    bytes_in.write_bytes(b"x" * case.input_size)
    turns = int(re.search(r"1 0 (\d\d\d+)", case.code + ", 1 0 5000000").group(1))
    limits = {"long": 4_000_000_000, "short": case.steps // SHORT}
    said = {"long": "eturned", "short": f"{case.steps // SHORT} steps"}
    rows = {}
    for size in ("long", "short"):
        rows["cx", size] = ([machine, case.name, str(limits[size])], said[size])
        rows["C 64", size] = ([c64, image, str(limits[size])], said[size])
        rows["C 128", size] = ([c128, image, str(limits[size])], said[size])
        if shutil.which("lua5.4"):
            n = turns if size == "long" else turns // SHORT
            rows["Lua", size] = (["lua5.4", "-e", f"local n = {n} {case.lua}"], "")
    least = {}
    for _ in range(ROUNDS):
        for key, (command, words) in rows.items():
            least[key] = min(least.get(key, 1e9), seconds(command, bytes_in, words))
    return {name: max(least[name, "long"] - least[name, "short"], 1e-9) for name, size in rows if size == "long"}


def main():
    with folder_given() as folder:
        machine = build(folder)
        c64 = build_c(folder, "vm64", "long long")
        c128 = build_c(folder, "vm128", "__int128")
        if not shutil.which("lua5.4"):
            print("lua5.4 isn't there (apt-get install -y lua5.4): its column is left out")
        print(f"{'':10}{'M steps/s':>10}{'/ C 64':>10}{'/ C 128':>10}{'/ Lua':>10}")
        for case in CASES:
            times = measured(folder, case, machine, c64, c128)
            rate = case.steps * (1 - 1 / SHORT) / times["cx"] / 1e6
            ratios = [f"{times['cx'] / times[name]:10.2f}" if name in times else "" for name in ("C 64", "C 128", "Lua")]
            print(f"{case.name:10}{rate:10.0f}" + "".join(ratios))


main()

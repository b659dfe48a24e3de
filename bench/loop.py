#!/usr/bin/env python3
"""The program's time on a counting loop of ten million steps, as a ratio to Lua's in one run.

Makes the program in a scratch repository, and times `cx exec --steps 10000000` on a unit whose loop counts so far that
its run takes nearly as many steps, against Lua on the same loop. Each is run long and short, in turn, and the time is
the difference of the least user times of five rounds, so that neither starting nor compiling counts. Lua does its loop
20 times, as one alone is too short to be timed. Needs rt and lua5.4 (`apt-get install -y lua5.4`); builds once, which
takes some minutes.

usage: bench/loop.py [FOLDER]     FOLDER keeps the build, of the crates as they are then, for the next run
"""
import shutil
import subprocess
import sys

from scratch import built, copy_crates, folder_given, user_time

ROUNDS = 5
TURNS = {"long": 714_000, "short": 71_400}
STEPS_OF_A_TURN = 14
LIMIT = 10_000_000
LUA_LOOPS = 20

UNIT = "int main(){ int k = 0; while (k < TURNS) k = k + 1; return k; }\n"
LUA = "for loop = 1, LOOPS do local k = 0 while k < TURNS do k = k + 1 end end"


def build(folder):
    (folder / "empty.cpp").write_text("int main(){ }\n")
    words = ["exec", "-o", str(folder / "empty.img"), str(folder / "empty.cpp")]
    return built(folder, copy_crates(folder, "cx_program", "must-fail"), "cx_program", *words)


def unit_seconds(folder, program, size):
    """The user time of the program on the loop, which must come to its end."""
    source, turns = folder / f"{size}.cpp", TURNS[size]
    source.write_text(UNIT.replace("TURNS", str(turns)))
    command = [program, "exec", "-o", str(folder / "loop.img"), "--steps", str(LIMIT), str(source)]
    done, taken = user_time(lambda: subprocess.run(command, capture_output=True))
    if done.stderr != f"cx: returned {turns}\n".encode():
        sys.exit(f"{size} says {done.stderr.decode(errors='replace')}")
    return taken


def lua_seconds(size):
    script = LUA.replace("LOOPS", str(LUA_LOOPS)).replace("TURNS", str(TURNS[size]))
    _, taken = user_time(lambda: subprocess.run(["lua5.4", "-e", script], check=True))
    return taken


def main():
    if not shutil.which("lua5.4"):
        sys.exit("lua5.4 isn't there (apt-get install -y lua5.4)")
    with folder_given() as folder:
        program = build(folder)
        least = {}
        for _ in range(ROUNDS):
            for size in TURNS:
                for name, taken in (("cx", unit_seconds(folder, program, size)), ("Lua", lua_seconds(size))):
                    least[name, size] = min(least.get((name, size), 1e9), taken)
        times = {name: max(least[name, "long"] - least[name, "short"], 1e-9) for name in ("cx", "Lua")}
        times["Lua"] /= LUA_LOOPS
        steps = (TURNS["long"] - TURNS["short"]) * STEPS_OF_A_TURN
        print(f"cx     {times['cx'] * 1000:8.1f} ms, {steps / times['cx'] / 1e6:.0f} million steps a second")
        print(f"Lua    {times['Lua'] * 1000:8.1f} ms")
        print(f"/ Lua  {times['cx'] / times['Lua']:8.2f}")


main()

#!/usr/bin/env python3
"""The time of reading a unit by its stages, as ratios of one run.

Makes a small program over the lexer, the marks and each parser of STAGES, in a scratch repository, and runs it up to
each stage on a text of 1 MB of statements and on one of 2 MB. Prints the least user time of five rounds, taken in
turn, that time against the lexer's alone, and that of 2 MB against 1 MB. Needs rt; builds once, which takes some
minutes. A run's time includes starting and loading, which the lexer's has too.

usage: bench/parse.py [FOLDER]     FOLDER keeps the build, of the crates as they are then, for the next run
"""
import subprocess
import sys

from scratch import TOP, built, copy_crates, folder_given, text_of, user_time

ROUNDS = 5
# what is done with the marks: the stage's name, and the crate whose function of this name does it
STAGES = [("recognize", "cx_parser"), ("parse", "cx_tree")]

PROGRAM = """//! Reads a unit up to a stage, and says whether it came through.
#![tactic(auto)]

ghost use Rattle.std.specs.Prelude.{◌<◌, ◌^◌, length};

use cx_lexer::lex;
use cx_marks::{Spelled, marks_of};
use cx_syntax::Mark;
use std::alloc::Global;
use std::env;
use std::io::{self, Read};

fn marks(alloc: Global, text: &[u8]) -> Option<Vec<Mark>>
    requires { length text.now < 2 ^ 32 }
{
    let tokens = lex(alloc, text).ok()?;
    let mut spelled = Vec::with_capacity(alloc, tokens.items().len()).ok()?;
    for token in tokens.items() {
        let bytes = text.get(token.start as usize..token.end as usize)?;
        spelled.push(Spelled { kind: token.kind, bytes }).ok()?;
    }
    if spelled.len() >= 0xFFFF_FFFD {
        return None;
    }
    marks_of(alloc, spelled.as_slice()).ok()
}

fn comes_through(alloc: Global, stage: &str, text: &[u8]) -> bool
    requires { length text.now < 2 ^ 32 }
{
    if stage == "lex" {
        return lex(alloc, text).is_ok();
    }
    let Some(marks) = marks(alloc, text) else {
        return false;
    };
    let marks = marks.as_slice();
    if marks.len() >= 0x1_0000_0000 {
        return false;
    }
    match stage {
        "marks" => true,
ARMS
        _ => false,
    }
}

fn main(rt: HostRuntime) -> io::Result<()> {
    let alloc = rt.alloc();
    let mut words = Vec::new(alloc);
    for word in env::args(&rt)?.skip(1) {
        words.push(word)?;
    }
    let mut text = Vec::new(alloc);
    rt.reader().read_to_end(&mut text)?;
    if words.is_empty() || text.len() >= 0x1_0000_0000 {
        return println!(rt; "usage");
    }
    let through = comes_through(alloc, &words[0], &text);
    println!(rt; "{through}")
}
"""
LINES = [
    "int f{0}(const int first, const int second) pre(first > {0}) post(r : r != second) {{\n",
    "  int value = first * 0x1F + (second << 3) - 1'000; // and a line\n",
    "  for (int i = 0; i < value; ++i) {{ value /= 7; if (value == 3) return 'x'; else g(value, i); }}\n",
    "  while (value >= {0}) value -= f{0}(value, second) % 3; /* comment {0} */\n",
    "  contract_assert(value < 10 && !(value == second));\n",
    "  return value != 4 || value < {0} ? value : first;\n}}\n",
]


def build(folder, stages):
    crates = ["cx_lexer", "cx_marks", "cx_syntax"] + [crate for _, crate in stages]
    lines = list(dict.fromkeys(line for crate in crates for line in copy_crates(folder, crate)))
    source = folder / "crates" / "reading" / "src"
    source.mkdir(parents=True, exist_ok=True)
    arms = [f'        "{name}" => {crate}::{name}(alloc, marks).is_ok(),' for name, crate in stages]
    (source / "main.rt").write_text(PROGRAM.replace("ARMS", "\n".join(arms)))
    return built(folder, lines + [f"reading: {' '.join(crates)}"], "reading")


def seconds(program, stage, text):
    """The user time of a run that comes through."""
    done, taken = user_time(lambda: subprocess.run([program, stage], input=text, capture_output=True, check=True))
    if done.stdout != b"true\n":
        sys.exit(f"{stage} says {done.stdout.decode(errors='replace')}")
    return taken


def main():
    listed = {line.split(":")[0] for line in (TOP / "crates.txt").read_text().splitlines()}
    stages = [stage for stage in STAGES if stage[1] in listed]
    with folder_given() as folder:
        program = build(folder, stages)
        texts = {1: text_of(LINES, 1_000_000), 2: text_of(LINES, 2_000_000)}
        rows = [(stage, size) for stage in ["lex", "marks"] + [name for name, _ in stages] for size in texts]
        least = {}
        for _ in range(ROUNDS):
            for stage, size in rows:
                least[stage, size] = min(least.get((stage, size), 1e9), seconds(program, stage, texts[size]))
        print(f"{'':10}{'1 MB':>10}{'/ lex':>8}{'2 MB / 1 MB':>13}")
        for stage, size in rows:
            if size == 1:
                one, two, lexed = least[stage, 1], least[stage, 2], least["lex", 1]
                print(f"{stage:10}{one * 1000:7.1f} ms{one / lexed:8.2f}{two / one:13.2f}")


main()

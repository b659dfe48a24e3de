#!/usr/bin/env python3
"""The lexer's time on a generated text, as ratios of one run.

Makes a small program over cx_lexer that counts the tokens of its input, in a scratch repository, and times it on a
text of 1 MB and on one of 2 MB, against `wc -w` and, as the text is C++, against `g++ -fsyntax-only`. Prints the least
time of five rounds, taken in turn, and the ratios. Needs rt and g++; builds once, which takes some minutes.

usage: bench/lex.py [FOLDER]     FOLDER keeps the build for the next run
"""
import subprocess
import time

from scratch import built, copy_crates, folder_given, text_of

PROGRAM = """#![tactic(auto)]

use cx_lexer::lex;
use std::io::{self, Read};

fn main(rt: HostRuntime) -> io::Result<()> {
    let mut text = Vec::new(rt.alloc());
    rt.reader().read_to_end(&mut text)?;
    if text.len() >= 0x1_0000_0000 {
        return println!(rt; "too long");
    }
    match lex(rt.alloc(), &text) {
        Ok(tokens) => {
            let count = tokens.items().len();
            println!(rt; "{count}")
        }
        Err(fault) => println!(rt; "{fault:?}"),
    }
}
"""
LINES = [
    "int f{0}(const int first, const int second_argument) {{ /* comment {0} */\n",
    "  int value_{0} = first * 0x1F + (second_argument << 3) - 1'000; // and a line\n",
    "  while (value_{0} >= 10) {{ value_{0} = value_{0} / 7; if (value_{0} == 3) return 'x'; }}\n",
    "  return value_{0} != 4 && value_{0} < {0} ? value_{0} : first;\n}}\n",
]


def build(folder):
    lines = copy_crates(folder, "cx_lexer")
    source = folder / "crates" / "tokens" / "src"
    source.mkdir(parents=True, exist_ok=True)
    (source / "main.rt").write_text(PROGRAM)
    return built(folder, lines + ["tokens: cx_lexer cx_syntax"], "tokens")


def seconds(command, text):
    begin = time.perf_counter()
    subprocess.run(command, input=text, check=True, stdout=subprocess.DEVNULL, stderr=subprocess.DEVNULL)
    return time.perf_counter() - begin


def main():
    with folder_given() as folder:
        program = build(folder)
        one, two = text_of(LINES, 1_000_000), text_of(LINES, 2_000_000)
        rows = {
            "tokens 1 MB": ([str(program)], one),
            "tokens 2 MB": ([str(program)], two),
            "wc -w 1 MB": (["wc", "-w"], one),
            "g++ 1 MB": (["g++", "-std=c++20", "-fsyntax-only", "-x", "c++", "-"], one),
        }
        least = {name: min(times) for name, times in zip(rows, zip(*(
            [seconds(*row) for row in rows.values()] for _ in range(5))))}
        for name, value in least.items():
            print(f"{name:12} {value * 1000:8.1f} ms")
        base = least["tokens 1 MB"]
        print(f"2 MB / 1 MB  {least['tokens 2 MB'] / base:8.2f}")
        print(f"/ wc -w      {base / least['wc -w 1 MB']:8.2f}")
        print(f"/ g++        {base / least['g++ 1 MB']:8.2f}")


main()
